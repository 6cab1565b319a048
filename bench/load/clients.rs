//! Clients: those that measure, and those that vanish.
use crate::http::{Connection, Dice, Message, request};
use std::collections::HashSet;
use std::io;
use std::sync::Mutex;
use std::sync::atomic::{AtomicU64, Ordering};
use std::thread;
use std::time::{Duration, Instant};

pub const CHROME: &str = "{\"capabilities\":{\"alwaysMatch\":{\"browserName\":\"chrome\"}}}";

/// Commands of each session.
const COMMANDS: usize = 5;

/// The sessions that were handed out, whoever asked.
#[derive(Default)]
pub struct Handed {
    ids: Mutex<HashSet<String>>,
    twice: AtomicU64,
}

impl Handed {
    fn note(&self, id: &str) {
        if !self.ids.lock().unwrap().insert(id.to_string()) {
            self.twice.fetch_add(1, Ordering::SeqCst);
        }
    }

    pub fn count(&self) -> usize {
        self.ids.lock().unwrap().len()
    }

    /// How many were handed out that had been handed out before.
    pub fn twice(&self) -> u64 {
        self.twice.load(Ordering::SeqCst)
    }
}

/// How long requests took, in microseconds.
#[derive(Default)]
pub struct Times {
    pub starts: Vec<u64>,
    pub commands: Vec<u64>,
    pub ends: Vec<u64>,
}

impl Times {
    pub fn add(&mut self, mut other: Times) {
        self.starts.append(&mut other.starts);
        self.commands.append(&mut other.commands);
        self.ends.append(&mut other.ends);
    }
}

fn timed(link: &mut Connection, times: &mut Vec<u64>, method: &str, target: &str, body: &str) -> io::Result<Message> {
    let begun = Instant::now();
    let message = link.ask(method, target, body)?;
    times.push(begun.elapsed().as_micros() as u64);
    if message.status() == 200 {
        Ok(message)
    } else {
        Err(io::Error::other(format!("{method} {target}: {}: {}", message.start, String::from_utf8_lossy(&message.body))))
    }
}

fn session(link: &mut Connection, times: &mut Times, handed: &Handed) -> io::Result<()> {
    let message = timed(link, &mut times.starts, "POST", "/session", CHROME)?;
    let id = message.text("sessionId").ok_or_else(|| io::Error::other("a session without an id"))?;
    handed.note(&id);
    for _ in 0..COMMANDS {
        timed(link, &mut times.commands, "GET", &format!("/session/{id}/url"), "")?;
    }
    timed(link, &mut times.ends, "DELETE", &format!("/session/{id}"), "")?;
    Ok(())
}

/// Sessions one after the other over one connection, for so long.
pub fn measure(address: &str, handed: &Handed, time: Duration) -> io::Result<Times> {
    let mut times = Times::default();
    let mut link = Connection::to(address)?;
    let begun = Instant::now();
    while begun.elapsed() < time {
        session(&mut link, &mut times, handed)?;
    }
    Ok(times)
}

/// What came of the sessions of clients that vanish.
#[derive(Default)]
pub struct Ends {
    /// Sessions that were used and deleted.
    pub served: AtomicU64,
    /// New Sessions that were refused with an error of WebDriver.
    pub refused: AtomicU64,
    /// Clients that went away in the midst of a request.
    pub vanished: AtomicU64,
    /// Clients that did not wait for their session.
    pub impatient: AtomicU64,
    /// Sessions that were left without a Delete Session.
    pub left: AtomicU64,
    /// Requests that are no HTTP and got a 400.
    pub malformed: AtomicU64,
    /// Connections on which something else came than foreseen.
    pub odd: AtomicU64,
    first_odd: Mutex<Option<String>>,
}

impl Ends {
    fn count(&self, of: &AtomicU64) {
        of.fetch_add(1, Ordering::SeqCst);
    }

    pub fn first_odd(&self) -> Option<String> {
        self.first_odd.lock().unwrap().clone()
    }
}

/// One client, good or bad.
pub fn trouble(address: &str, number: u64, handed: &Handed, ends: &Ends) {
    let mut dice = Dice::new(number + 77);
    if let Err(error) = troubled(address, &mut dice, handed, ends) {
        ends.count(&ends.odd);
        ends.first_odd.lock().unwrap().get_or_insert(error.to_string());
    }
}

fn troubled(address: &str, dice: &mut Dice, handed: &Handed, ends: &Ends) -> io::Result<()> {
    let text = request("POST", "/session", CHROME);
    let mut link = Connection::to(address)?;
    match dice.throw(100) {
        0..15 => {
            link.send(&text.as_bytes()[..dice.throw(text.len() as u64) as usize])?;
            ends.count(&ends.vanished);
            return Ok(());
        }
        15..18 => {
            link.send(text.as_bytes())?;
            thread::sleep(Duration::from_millis(dice.throw(5)));
            ends.count(&ends.impatient);
            return Ok(());
        }
        18..25 => {
            link.send(b"POST /session HTTP/1.1\r\nContent-Length: x\r\n\r\n")?;
            let status = link.receive()?.map_or(0, |message| message.status());
            ends.count(if status == 400 { &ends.malformed } else { &ends.odd });
            return Ok(());
        }
        _ => {}
    }
    let message = link.ask("POST", "/session", CHROME)?;
    let Some(id) = message.text("sessionId") else {
        ends.count(if message.status() == 500 { &ends.refused } else { &ends.odd });
        return Ok(());
    };
    handed.note(&id);
    for _ in 0..dice.throw(COMMANDS as u64) {
        link.ask("GET", &format!("/session/{id}/url"), "")?;
    }
    match dice.throw(100) {
        0..2 => {
            ends.count(&ends.left);
            return Ok(());
        }
        2..12 => {
            // The connection is lost in the midst of a command, and the client comes back.
            link.send(format!("GET /session/{id}/url HTTP/1.1\r\nHo").as_bytes())?;
            link = Connection::to(address)?;
        }
        _ => {}
    }
    link.ask("DELETE", &format!("/session/{id}"), "")?;
    ends.count(&ends.served);
    Ok(())
}
