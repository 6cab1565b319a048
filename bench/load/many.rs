//! Many connections at once: 10,000 at rest, 10,000 New Sessions that wait, and large bodies.
use crate::clients::CHROME;
use crate::http::{Connection, request};
use crate::node::{LARGE, SLOTS};
use crate::{NODES, percentile, spent, start_nodes, states};
use std::fs;
use std::io::{self, Read, Write};
use std::net::TcpStream;
use std::thread;
use std::time::{Duration, Instant};

const MANY: usize = 10_000;

/// Sessions that are timed, one behind the other.
const TIMED: usize = 300;

/// Forgets how much memory the process had at most.
fn forget_peak(pid: &str) {
    let _ = fs::write(format!("/proc/{pid}/clear_refs"), "5");
}

/// A New Session, on a connection of its own.
fn started(hub: &str) -> io::Result<(Connection, String)> {
    let mut link = Connection::to(hub)?;
    let message = link.ask("POST", "/session", CHROME)?;
    let id = message.text("sessionId").ok_or_else(|| io::Error::other(message.start.clone()))?;
    Ok((link, id))
}

/// How long New Sessions take that come on further connections, in microseconds, sorted.
fn further(hub: &str) -> io::Result<Vec<u64>> {
    let mut times = Vec::new();
    for _ in 0..TIMED {
        let begun = Instant::now();
        let (mut link, id) = started(hub)?;
        times.push(begun.elapsed().as_micros() as u64);
        link.ask("DELETE", &format!("/session/{id}"), "")?;
    }
    times.sort_unstable();
    Ok(times)
}

/// How long commands of a session take in five seconds, some 400 a second at most, in microseconds, sorted.
fn relayed((link, id): &mut (Connection, String)) -> io::Result<Vec<u64>> {
    let mut times = Vec::new();
    let begun = Instant::now();
    while begun.elapsed() < Duration::from_secs(5) {
        let asked = Instant::now();
        let message = link.ask("GET", &format!("/session/{id}/url"), "")?;
        times.push(asked.elapsed().as_micros() as u64);
        if message.status() != 200 {
            return Err(io::Error::other(message.start));
        }
        thread::sleep(Duration::from_millis(2));
    }
    times.sort_unstable();
    Ok(times)
}

/// So many connections that each send this.
fn opened(hub: &str, text: &str) -> io::Result<Vec<TcpStream>> {
    let mut all = Vec::with_capacity(MANY);
    for _ in 0..MANY {
        let mut stream = TcpStream::connect(hub)?;
        stream.set_read_timeout(Some(Duration::from_secs(60)))?;
        stream.write_all(text.as_bytes())?;
        all.push(stream);
    }
    Ok(all)
}

fn told(what: &str, held: bool) -> bool {
    println!("  {}{what}", if held { "" } else { "MISSED: " });
    held
}

/// Connections that asked once and now rest.
pub fn rest(hub: &str, pid: &str) -> io::Result<bool> {
    let nodes = start_nodes(hub, false);
    let before = further(hub)?;
    let (_, alone, _) = spent(pid);
    let begun = Instant::now();
    let mut all = opened(hub, &request("GET", "/session/none/url", ""))?;
    for stream in &mut all {
        let mut piece = [0; 4096];
        if stream.read(&mut piece)? == 0 {
            return Err(io::Error::other("a connection was closed"));
        }
    }
    println!("{MANY} connections that asked once, in {:.2} s; the hub had {alone} MiB before", begun.elapsed().as_secs_f64());
    thread::sleep(Duration::from_secs(2));
    let rests = spent(pid);
    thread::sleep(Duration::from_secs(5));
    let (seconds, now, most) = spent(pid);
    println!("  {:.3} processors busy, {most} MiB at most", (seconds - rests.0) / 5.0);
    let beside = further(hub)?;
    println!("  a New Session on a further connection, median and 99th percentile: {:.2} and {:.2} ms, without them {:.2} and {:.2} ms",
        percentile(&beside, 50), percentile(&beside, 99), percentile(&before, 50), percentile(&before, 99));
    let is_small = told(&format!("{now} MiB resident, at most 60"), now <= 60);
    let is_soon = percentile(&beside, 50) <= percentile(&before, 50) + 5.0;
    let so = told("a further New Session within 5 ms of what it took", is_soon) && is_small;
    drop((all, nodes));
    Ok(so)
}

/// New Sessions that wait for a slot, while a session is used.
pub fn waiting(hub: &str, pid: &str) -> io::Result<bool> {
    let nodes = start_nodes(hub, false);
    let mut holders = Vec::new();
    for _ in 0..NODES * SLOTS {
        holders.push(started(hub)?);
    }
    let alone = relayed(&mut holders[0])?;
    let begun = Instant::now();
    let all = opened(hub, &request("POST", "/session", CHROME))?;
    println!("{MANY} New Sessions that wait, sent in {:.2} s", begun.elapsed().as_secs_f64());
    thread::sleep(Duration::from_secs(3));
    let before = spent(pid);
    thread::sleep(Duration::from_secs(5));
    let (seconds, now, most) = spent(pid);
    let busy = (seconds - before.0) / 5.0;
    let times = relayed(&mut holders[0])?;
    println!("  {most} MiB at most; a relayed command beside them, median and 99th percentile: {:.2} and {:.2} ms, without them {:.2} and {:.2} ms",
        percentile(&times, 50), percentile(&times, 99), percentile(&alone, 50), percentile(&alone, 99));
    let is_small = told(&format!("{now} MiB resident, at most 150"), now <= 150);
    let is_quiet = told(&format!("{busy:.3} processors busy, at most 0.2"), busy <= 0.2);
    let is_soon = told("a command within 1 ms at the 99th percentile", percentile(&times, 99) <= 1.0);
    let (mut link, id) = holders.pop().ok_or_else(|| io::Error::other("no holder"))?;
    let begun = Instant::now();
    drop(all);
    link.ask("DELETE", &format!("/session/{id}"), "")?;
    let (mut link, id) = started(hub)?;
    println!("  all of them left: the next client has its session after {:.2} s", begun.elapsed().as_secs_f64());
    link.ask("DELETE", &format!("/session/{id}"), "")?;
    for (mut link, id) in holders {
        link.ask("DELETE", &format!("/session/{id}"), "")?;
    }
    let states = states(hub);
    let is_free = told(&format!("slots free, held, busy, closing: {states:?}"), states == Some([NODES * SLOTS, 0, 0, 0]));
    drop(nodes);
    Ok(is_small && is_quiet && is_soon && is_free)
}

/// Four clients that send and get large bodies at once.
pub fn large(hub: &str, pid: &str) -> io::Result<bool> {
    let nodes = start_nodes(hub, false);
    let body = format!("\"{}\"", "x".repeat(LARGE - 2));
    let mut links = Vec::new();
    for _ in 0..4 {
        links.push(started(hub)?);
    }
    forget_peak(pid);
    let begun = Instant::now();
    let threads: Vec<_> = links
        .into_iter()
        .map(|(mut link, id)| {
            let body = body.clone();
            thread::spawn(move || -> io::Result<(Connection, String)> {
                for _ in 0..3 {
                    let message = link.ask("POST", &format!("/session/{id}/large"), &body)?;
                    if message.body.len() != LARGE {
                        return Err(io::Error::other(message.start));
                    }
                }
                Ok((link, id))
            })
        })
        .collect();
    let mut ended = Vec::new();
    for thread in threads {
        ended.push(thread.join().map_err(|_| io::Error::other("a client ended early"))??);
    }
    println!("4 clients that each send and get {} MiB three times, in {:.2} s", LARGE >> 20, begun.elapsed().as_secs_f64());
    let (_, _, most) = spent(pid);
    thread::sleep(Duration::from_secs(1));
    let (_, now, _) = spent(pid);
    let is_small = told(&format!("{most} MiB at most, at most 200"), most <= 200);
    let so = told(&format!("{now} MiB a second later, at most 24"), now <= 24) && is_small;
    for (mut link, id) in ended {
        link.ask("DELETE", &format!("/session/{id}"), "")?;
    }
    drop(nodes);
    Ok(so)
}
