//! Nodes: a WebDriver endpoint that makes up sessions, registers at the hub and beats.
use crate::http::{Connection, Dice, Message, request, response};
use std::collections::HashSet;
use std::io;
use std::net::TcpListener;
use std::sync::atomic::{AtomicU64, AtomicUsize, Ordering};
use std::sync::{Arc, Mutex};
use std::thread;
use std::time::Duration;

/// Slots of each node.
pub const SLOTS: usize = 16;

/// Bytes of a large body.
pub const LARGE: usize = 16 << 20;

pub const NULL: &str = "{\"value\":null}";

pub struct Node {
    /// Of this node in this run, so that a hub can serve several runs.
    name: String,
    pub address: String,
    /// It fails now and then.
    faulty: bool,
    sessions: Mutex<HashSet<String>>,
    made: AtomicU64,
    seed: AtomicU64,
    /// The most sessions that it had at once.
    most: AtomicUsize,
    /// How often it was dead for a while. A connection of an earlier life is answered no more: who was told that the node
    /// is unreachable has freed the slot.
    deaths: AtomicU64,
    /// How often it did not do what it was asked, deaths aside.
    faults: AtomicU64,
}

/// What a node does with a request.
enum Deed {
    Answers(String),
    /// These bytes, and the end of the connection.
    Breaks(Vec<u8>),
}

impl Node {
    /// Begins to serve, each connection in a thread of its own.
    pub fn start(number: usize, faulty: bool) -> io::Result<Arc<Node>> {
        let listener = TcpListener::bind("127.0.0.1:0")?;
        let node = Arc::new(Node {
            name: format!("load-{}-{number}", std::process::id()),
            address: listener.local_addr()?.to_string(),
            faulty,
            sessions: Mutex::new(HashSet::new()),
            made: AtomicU64::new(0),
            seed: AtomicU64::new(number as u64 * 1_000_003),
            most: AtomicUsize::new(0),
            deaths: AtomicU64::new(0),
            faults: AtomicU64::new(0),
        });
        let serving = node.clone();
        thread::spawn(move || serving.accept(listener));
        Ok(node)
    }

    pub fn sessions(&self) -> usize {
        self.sessions.lock().unwrap().len()
    }

    pub fn most(&self) -> usize {
        self.most.load(Ordering::SeqCst)
    }

    pub fn deaths(&self) -> u64 {
        self.deaths.load(Ordering::SeqCst)
    }

    pub fn faults(&self) -> u64 {
        self.faults.load(Ordering::SeqCst)
    }

    fn dice(&self) -> Dice {
        Dice::new(self.seed.fetch_add(1, Ordering::SeqCst))
    }

    fn accept(self: Arc<Node>, mut listener: TcpListener) {
        loop {
            let Ok((stream, _)) = listener.accept() else { continue };
            if self.faulty && self.dice().throw(400) == 0 {
                // It is dead for a while, and its sessions with it.
                drop((stream, listener));
                let mut sessions = self.sessions.lock().unwrap();
                self.deaths.fetch_add(1, Ordering::SeqCst);
                sessions.clear();
                drop(sessions);
                thread::sleep(Duration::from_millis(300));
                listener = loop {
                    match TcpListener::bind(&self.address) {
                        Ok(listener) => break listener,
                        Err(_) => thread::sleep(Duration::from_millis(10)),
                    }
                };
                continue;
            }
            let (node, life) = (self.clone(), self.deaths());
            thread::spawn(move || Connection::of(stream).and_then(|link| node.serve(link, life)));
        }
    }

    fn serve(&self, mut link: Connection, life: u64) -> io::Result<()> {
        while let Some(message) = link.receive()? {
            match self.deed(&message, life) {
                Deed::Answers(text) => link.send(text.as_bytes())?,
                Deed::Breaks(bytes) => {
                    self.faults.fetch_add(1, Ordering::SeqCst);
                    return link.send(&bytes);
                }
            }
            if message.closes {
                break;
            }
        }
        Ok(())
    }

    fn deed(&self, message: &Message, life: u64) -> Deed {
        let mut words = message.start.split(' ');
        let (method, target) = (words.next().unwrap_or(""), words.next().unwrap_or(""));
        let throw = if self.faulty { self.dice().throw(100) } else { 100 };
        match (method, target) {
            ("POST", "/session") => self.new_session(throw, life),
            ("DELETE", _) => {
                self.sessions.lock().unwrap().remove(target.strip_prefix("/session/").unwrap_or(""));
                if throw < 3 { Deed::Breaks(Vec::new()) } else { Deed::Answers(response(200, NULL)) }
            }
            (_, "/status") => Deed::Answers(response(200, "{\"value\":{\"ready\":true,\"message\":\"\"}}")),
            _ => self.command(target, throw),
        }
    }

    fn new_session(&self, throw: u64, life: u64) -> Deed {
        match throw {
            0..5 => {
                self.faults.fetch_add(1, Ordering::SeqCst);
                Deed::Answers(response(
                    500,
                    "{\"value\":{\"error\":\"session not created\",\"message\":\"refused by dice\",\"stacktrace\":\"\"}}",
                ))
            }
            5..8 => Deed::Breaks(vec![0, 255, 13, 10, 7, 200]),
            8..11 => Deed::Breaks(response(200, "{\"value\":{\"sessionId\":").into_bytes()),
            11..14 => Deed::Breaks(b"HTTP/1.1 200 OK\r\nContent-Length: 500\r\n\r\n{\"value\":".to_vec()),
            14..16 => Deed::Breaks(Vec::new()),
            16..19 => {
                self.faults.fetch_add(1, Ordering::SeqCst);
                self.created("firefox", life)
            }
            19..22 => {
                thread::sleep(Duration::from_millis(20 * (throw - 18)));
                self.created("chrome", life)
            }
            _ => self.created("chrome", life),
        }
    }

    fn created(&self, browser: &str, life: u64) -> Deed {
        let count = self.made.fetch_add(1, Ordering::SeqCst);
        let id = format!("{}-{count}", self.name);
        let mut sessions = self.sessions.lock().unwrap();
        if self.deaths() != life {
            return Deed::Breaks(Vec::new());
        }
        sessions.insert(id.clone());
        self.most.fetch_max(sessions.len(), Ordering::SeqCst);
        Deed::Answers(response(
            200,
            &format!(
                "{{\"value\":{{\"sessionId\":\"{id}\",\"capabilities\":{{\"browserName\":\"{browser}\",\"browserVersion\":\"126.0\",\"platformName\":\"linux\"}}}}}}"
            ),
        ))
    }

    fn command(&self, target: &str, throw: u64) -> Deed {
        let id = target.split('/').nth(2).unwrap_or("");
        match throw {
            0..2 => Deed::Breaks(vec![0, 1, 2]),
            2..4 => Deed::Breaks(Vec::new()),
            _ if target.ends_with("/large") => Deed::Answers(response(200, &format!("\"{}\"", "x".repeat(LARGE - 2)))),
            _ if self.sessions.lock().unwrap().contains(id) => {
                Deed::Answers(response(200, "{\"value\":\"about:blank\"}"))
            }
            _ => Deed::Answers(response(
                404,
                "{\"value\":{\"error\":\"invalid session id\",\"message\":\"no such session\",\"stacktrace\":\"\"}}",
            )),
        }
    }

    /// Registers, and answers the number that the hub gave.
    fn register(&self, hub: &str) -> Option<String> {
        let body = format!(
            "{{\"name\":\"{}\",\"address\":\"{}\",\"maxSessions\":{SLOTS},\"slots\":[{{\"count\":{SLOTS},\"stereotype\":{{\"browserName\":\"chrome\",\"platformName\":\"linux\"}}}}]}}",
            self.name, self.address
        );
        let message = Connection::to(hub).ok()?.ask("POST", "/se/grid/distributor/node", &body).ok()?;
        let body = String::from_utf8(message.body.clone()).ok()?;
        let number: String = body.chars().filter(char::is_ascii_digit).collect();
        (message.status() == 200).then_some(number)
    }

    /// Registers and beats, in a thread of its own; ready once the hub took it.
    pub fn attach(self: &Arc<Node>, hub: &str) {
        let number = loop {
            match self.register(hub) {
                Some(number) => break number,
                None => thread::sleep(Duration::from_millis(100)),
            }
        };
        let (node, hub) = (self.clone(), hub.to_string());
        thread::spawn(move || node.beat(&hub, number));
    }

    fn beat(&self, hub: &str, mut number: String) {
        loop {
            thread::sleep(Duration::from_secs(15));
            let target = format!("/se/grid/distributor/node/{number}/beat");
            let beat = Connection::to(hub).and_then(|mut link| {
                link.send(request("POST", &target, "").as_bytes())?;
                link.receive()
            });
            if let Ok(Some(message)) = beat {
                if message.status() != 200 {
                    if let Some(next) = self.register(hub) {
                        number = next;
                    }
                }
            }
        }
    }
}
