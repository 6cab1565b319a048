//! A load for a hub over loopback, with nodes and clients of its own. It stands on the standard library alone.
//!
//!     load speed HUB PID SECONDS     how fast sessions go through the hub of this process, and to a node directly
//!     load trouble HUB SESSIONS      clients that vanish and nodes that fail; what is held at the end
//!     load rest HUB PID              10,000 connections that rest
//!     load waiting HUB PID           10,000 New Sessions that wait
//!     load large HUB PID             large bodies
//!     load plain PORT                a plain hub to measure by, until it is ended
mod clients;
mod http;
mod many;
mod node;
mod plain;

use clients::{Ends, Handed, Times, measure, trouble};
use http::Connection;
use node::Node;
use std::fs;
use std::io;
use std::process::ExitCode;
use std::sync::Arc;
use std::sync::atomic::{AtomicU64, Ordering};
use std::thread;
use std::time::{Duration, Instant};

const NODES: usize = 4;

/// Clock ticks of /proc/PID/stat in a second, on Linux.
const TICKS: f64 = 100.0;

/// Seconds of processor time of a process, and its resident memory now and at most, in MiB.
fn spent(pid: &str) -> (f64, u64, u64) {
    let stat = fs::read_to_string(format!("/proc/{pid}/stat")).unwrap_or_default();
    let fields: Vec<&str> = stat.rsplit(')').next().unwrap_or("").split_whitespace().collect();
    let ticks = |place: usize| fields.get(place).and_then(|field| field.parse::<f64>().ok()).unwrap_or(0.0);
    let status = fs::read_to_string(format!("/proc/{pid}/status")).unwrap_or_default();
    let kib = |name: &str| {
        status.lines().find_map(|line| line.strip_prefix(name)).and_then(|rest| rest.split_whitespace().next()?.parse::<u64>().ok()).unwrap_or(0)
    };
    ((ticks(11) + ticks(12)) / TICKS, kib("VmRSS:") / 1024, kib("VmHWM:") / 1024)
}

/// The value below which so many of a hundred lie, in milliseconds.
fn percentile(sorted: &[u64], hundredths: usize) -> f64 {
    sorted.get((sorted.len() * hundredths / 100).min(sorted.len().saturating_sub(1))).map_or(0.0, |us| *us as f64 / 1000.0)
}

fn row(name: &str, mut times: Vec<u64>, seconds: f64) {
    times.sort_unstable();
    println!(
        "  {name:<16}{:>10.0} a second{:>10.2} ms median{:>10.2} ms 99th percentile",
        times.len() as f64 / seconds,
        percentile(&times, 50),
        percentile(&times, 99)
    );
}

/// So many clients beside each other, each at its own address.
fn beside(addresses: &[String], clients: usize, time: Duration) -> (Times, Handed, f64) {
    let handed = Arc::new(Handed::default());
    let begun = Instant::now();
    let threads: Vec<_> = (0..clients)
        .map(|number| {
            let (address, handed) = (addresses[number % addresses.len()].clone(), handed.clone());
            thread::spawn(move || measure(&address, &handed, time))
        })
        .collect();
    let mut all = Times::default();
    for thread in threads {
        match thread.join().expect("a client ends") {
            Ok(times) => all.add(times),
            Err(error) => println!("  a client ended early: {error}"),
        }
    }
    let seconds = begun.elapsed().as_secs_f64();
    (all, Arc::into_inner(handed).expect("all clients ended"), seconds)
}

fn show(times: Times, handed: &Handed, seconds: f64) {
    row("New Session", times.starts, seconds);
    row("commands", times.commands, seconds);
    row("Delete Session", times.ends, seconds);
    println!("  {} sessions, {} of them handed out twice", handed.count(), handed.twice());
}

fn start_nodes(hub: &str, faulty: bool) -> Vec<Arc<Node>> {
    let nodes: Vec<_> = (1..=NODES).map(|number| Node::start(number, faulty).expect("a node listens")).collect();
    for node in &nodes {
        node.attach(hub);
    }
    nodes
}

fn speed(hub: &str, pid: &str, seconds: u64) -> bool {
    let nodes = start_nodes(hub, false);
    let mut is_right = true;
    let time = Duration::from_secs(seconds);
    for clients in [16, 64] {
        println!("{clients} clients through the hub, {NODES} nodes of {} slots", node::SLOTS);
        let before = spent(pid);
        let (times, handed, took) = beside(&[hub.to_string()], clients, time);
        let after = spent(pid);
        is_right = is_right && handed.twice() == 0 && !times.ends.is_empty();
        let sessions = times.ends.len().max(1) as f64;
        show(times, &handed, took);
        println!(
            "  hub: {:.2} processors busy, {:.2} ms of processor time a session, {} MiB resident, {} MiB at most",
            (after.0 - before.0) / took,
            (after.0 - before.0) * 1000.0 / sessions,
            after.1,
            after.2
        );
        let addresses: Vec<String> = nodes.iter().map(|node| node.address.clone()).collect();
        println!("{clients} clients to the nodes directly");
        let (times, handed, took) = beside(&addresses, clients, time);
        show(times, &handed, took);
    }
    is_right && nodes.iter().all(|node| node.most() <= node::SLOTS)
}

/// How many slots the hub's status tells in each state: free, held, busy, closing.
fn states(hub: &str) -> Option<[usize; 4]> {
    let message = Connection::to(hub).ok()?.ask("GET", "/status", "").ok()?;
    let body = String::from_utf8(message.body).ok()?;
    Some(["FREE", "HELD", "BUSY", "CLOSING"].map(|state| body.matches(&format!("\"state\":\"{state}\"")).count()))
}

/// Waits until no slot is in use, for at most so long.
fn settle(hub: &str, time: Duration) -> (Option<[usize; 4]>, Duration) {
    let begun = Instant::now();
    loop {
        let now = states(hub);
        if now.is_some_and(|states| states[1..] == [0, 0, 0]) || begun.elapsed() > time {
            return (now, begun.elapsed());
        }
        thread::sleep(Duration::from_millis(200));
    }
}

fn troubles(hub: &str, sessions: u64) -> bool {
    let nodes = start_nodes(hub, true);
    let (handed, ends, next) = (Arc::new(Handed::default()), Arc::new(Ends::default()), Arc::new(AtomicU64::new(0)));
    let begun = Instant::now();
    let threads: Vec<_> = (0..64)
        .map(|_| {
            let (hub, handed, ends, next) = (hub.to_string(), handed.clone(), ends.clone(), next.clone());
            thread::spawn(move || {
                loop {
                    let number = next.fetch_add(1, Ordering::SeqCst);
                    if number >= sessions {
                        break;
                    }
                    trouble(&hub, number, &handed, &ends);
                }
            })
        })
        .collect();
    for thread in threads {
        thread.join().expect("a client ends");
    }
    println!("{sessions} clients in {:.0} s", begun.elapsed().as_secs_f64());
    for (name, count) in [
        ("served", &ends.served),
        ("refused with an error", &ends.refused),
        ("vanished in a request", &ends.vanished),
        ("didn't wait", &ends.impatient),
        ("left their session", &ends.left),
        ("sent no HTTP, got 400", &ends.malformed),
        ("something else", &ends.odd),
    ] {
        println!("  {name:<24}{:>8}", count.load(Ordering::SeqCst));
    }
    if let Some(odd) = ends.first_odd() {
        println!("  the first of these: {odd}");
    }
    let (failed, died): (u64, u64) = nodes.iter().fold((0, 0), |(f, d), node| (f + node.faults(), d + node.deaths()));
    println!("  nodes failed {failed} times and were dead {died} times");
    let (states, took) = settle(hub, Duration::from_secs(400));
    let [free, held, busy, closing] = states.unwrap_or_default();
    println!("after {:.0} s: {free} slots free, {held} held, {busy} busy, {closing} closing", took.as_secs_f64());
    let open: usize = nodes.iter().map(|node| node.sessions()).sum();
    let over = nodes.iter().filter(|node| node.most() > node::SLOTS).count();
    println!("nodes: {open} sessions left open, {over} nodes had more than {} at once", node::SLOTS);
    println!("{} sessions were handed out, {} of them twice", handed.count(), handed.twice());
    handed.twice() == 0 && over == 0 && free == NODES * node::SLOTS && held + busy + closing == 0
}

/// An error is told.
fn known(came: io::Result<bool>) -> bool {
    came.unwrap_or_else(|error| {
        println!("  it ended early: {error}");
        false
    })
}

fn main() -> ExitCode {
    let words: Vec<String> = std::env::args().skip(1).collect();
    let words: Vec<&str> = words.iter().map(String::as_str).collect();
    let is_right = match words[..] {
        ["speed", hub, pid, seconds] => seconds.parse().map(|seconds| speed(hub, pid, seconds)).ok(),
        ["trouble", hub, sessions] => sessions.parse().map(|sessions| troubles(hub, sessions)).ok(),
        ["rest", hub, pid] => Some(known(many::rest(hub, pid))),
        ["waiting", hub, pid] => Some(known(many::waiting(hub, pid))),
        ["large", hub, pid] => Some(known(many::large(hub, pid))),
        ["plain", port] => port.parse().map(|port| known(plain::serve(port))).ok(),
        _ => None,
    };
    match is_right {
        Some(true) => ExitCode::SUCCESS,
        Some(false) => {
            println!("NOT as it should be");
            ExitCode::FAILURE
        }
        None => {
            eprintln!("usage: load speed HUB PID SECONDS | load trouble HUB SESSIONS | load rest|waiting|large HUB PID | load plain PORT");
            ExitCode::from(2)
        }
    }
}
