//! A load for what stands between clients and one node, over loopback and by the standard library alone.
//!
//!     relay node PORT [HUB]                           a node of 64 slots, which registers at the hub, until it is ended
//!     relay proxy PORT NODE                           a plain proxy to measure by, until it is ended
//!     relay commands AT PID CLIENTS SECONDS           commands of CLIENTS sessions, each on a connection of its own
//!     relay sessions AT PID CLIENTS SECONDS           sessions from their New Session, with five commands, to their end
//!
//! A measurement is one line: how many a second, the median and the 99th percentile in microseconds, the processor time of each in
//! microseconds of the process PID, and its resident memory in KiB.
#[allow(dead_code)]
#[path = "../load/http.rs"]
mod http;
mod node;
mod proxy;

use http::Connection;
use std::env;
use std::fs;
use std::io::{self, Error};
use std::process::ExitCode;
use std::thread;
use std::time::{Duration, Instant};

const CHROME: &str = "{\"capabilities\":{\"alwaysMatch\":{\"browserName\":\"chrome\"}}}";

/// Commands of a session, so that it has seven requests.
const COMMANDS: usize = 5;

/// Clock ticks of /proc/PID/stat in a second, on Linux.
const TICKS: f64 = 100.0;

/// How long nobody is measured at first.
const WARM: Duration = Duration::from_millis(500);

/// Seconds of processor time of a process, and its resident memory in KiB.
fn spent(pid: &str) -> (f64, u64) {
    let stat = fs::read_to_string(format!("/proc/{pid}/stat")).unwrap_or_default();
    let fields: Vec<&str> = stat.rsplit(')').next().unwrap_or("").split_whitespace().collect();
    let ticks = |place: usize| fields.get(place).and_then(|field| field.parse::<f64>().ok()).unwrap_or(0.0);
    let status = fs::read_to_string(format!("/proc/{pid}/status")).unwrap_or_default();
    let resident = status.lines().find_map(|line| line.strip_prefix("VmRSS:"));
    let kib = resident.and_then(|rest| rest.split_whitespace().next()?.parse().ok()).unwrap_or(0);
    ((ticks(11) + ticks(12)) / TICKS, kib)
}

/// What one client's requests take, in microseconds.
type Times = io::Result<Vec<u64>>;

fn told(link: &mut Connection, method: &str, target: &str, body: &str) -> io::Result<String> {
    let message = link.ask(method, target, body)?;
    if message.status() != 200 {
        return Err(Error::other(format!("{method} {target}: {}", message.start)));
    }
    Ok(message.text("sessionId").unwrap_or_default())
}

/// One session's commands, again and again.
fn commands(at: &str, begins: Instant, ends: Instant) -> Times {
    let mut link = Connection::to(at)?;
    let session = told(&mut link, "POST", "/session", CHROME)?;
    let target = format!("/session/{session}/url");
    let mut times = Vec::new();
    loop {
        let now = Instant::now();
        if now >= ends {
            break;
        }
        told(&mut link, "GET", &target, "")?;
        if now >= begins {
            times.push(now.elapsed().as_micros() as u64);
        }
    }
    told(&mut link, "DELETE", &format!("/session/{session}"), "")?;
    Ok(times)
}

/// Sessions, one behind the other.
fn sessions(at: &str, begins: Instant, ends: Instant) -> Times {
    let mut link = Connection::to(at)?;
    let mut times = Vec::new();
    loop {
        let now = Instant::now();
        if now >= ends {
            return Ok(times);
        }
        let session = told(&mut link, "POST", "/session", CHROME)?;
        let target = format!("/session/{session}/url");
        for _ in 0..COMMANDS {
            told(&mut link, "GET", &target, "")?;
        }
        told(&mut link, "DELETE", &format!("/session/{session}"), "")?;
        if now >= begins {
            times.push(now.elapsed().as_micros() as u64);
        }
    }
}

fn measure(play: fn(&str, Instant, Instant) -> Times, at: &str, pid: &str, clients: usize, seconds: u64) -> io::Result<()> {
    let begins = Instant::now() + WARM;
    let ends = begins + Duration::from_secs(seconds);
    let threads: Vec<_> = (0..clients)
        .map(|_| {
            let at = at.to_string();
            thread::spawn(move || play(&at, begins, ends))
        })
        .collect();
    thread::sleep(begins.saturating_duration_since(Instant::now()));
    let before = spent(pid);
    thread::sleep(ends.saturating_duration_since(Instant::now()));
    let after = spent(pid);
    let mut times = Vec::new();
    for thread in threads {
        times.append(&mut thread.join().expect("a client ends")?);
    }
    times.sort_unstable();
    let count = times.len().max(1);
    let at = |hundredths: usize| times.get((count * hundredths / 100).min(count - 1)).copied().unwrap_or(0);
    println!(
        "{:.0} {} {} {:.1} {}",
        times.len() as f64 / seconds as f64,
        at(50),
        at(99),
        (after.0 - before.0) * 1e6 / count as f64,
        after.1
    );
    Ok(())
}

fn run(words: &[&str]) -> io::Result<()> {
    let number = |word: &str| word.parse::<u16>().map_err(Error::other);
    match words {
        ["node", port] => node::serve(number(port)?, None),
        ["node", port, hub] => node::serve(number(port)?, Some(hub)),
        ["proxy", port, node] => proxy::serve(number(port)?, node),
        [kind @ ("commands" | "sessions"), at, pid, clients, seconds] => {
            let play = if *kind == "commands" { commands } else { sessions };
            measure(play, at, pid, usize::from(number(clients)?), u64::from(number(seconds)?))
        }
        _ => Err(Error::other("see the head of bench/relay/main.rs")),
    }
}

fn main() -> ExitCode {
    let words: Vec<String> = env::args().skip(1).collect();
    let words: Vec<&str> = words.iter().map(String::as_str).collect();
    match run(&words) {
        Ok(()) => ExitCode::SUCCESS,
        Err(error) => {
            eprintln!("relay: {error}");
            ExitCode::FAILURE
        }
    }
}
