//! A plain hub to measure by: a thread for each connection, one lock, a connection to a node for each exchange, no checks. It
//! forgets what goes wrong.
use crate::http::{Connection, Message, request, response};
use crate::node::{NULL, SLOTS};
use std::collections::HashMap;
use std::io;
use std::net::TcpListener;
use std::sync::{Arc, Condvar, Mutex};
use std::thread;

#[derive(Default)]
struct Tables {
    /// The nodes' addresses, each with how many of its slots are free.
    nodes: Vec<(String, usize)>,
    /// The node of each session.
    sessions: HashMap<String, usize>,
}

#[derive(Default)]
struct Hub {
    tables: Mutex<Tables>,
    freed: Condvar,
}

fn relayed(address: &str, method: &str, target: &str, body: &[u8]) -> io::Result<Message> {
    let text = std::str::from_utf8(body).map_err(io::Error::other)?;
    let mut link = Connection::to(address)?;
    link.send(request(method, target, text).as_bytes())?;
    link.receive()?.ok_or_else(|| io::Error::other("no response"))
}

impl Hub {
    fn register(&self, message: &Message) -> String {
        let mut tables = self.tables.lock().unwrap();
        tables.nodes.push((message.text("address").unwrap_or_default(), SLOTS));
        self.freed.notify_all();
        format!("{{\"value\":{{\"node\":{}}}}}", tables.nodes.len())
    }

    /// Takes a slot of the node with most free ones, and waits for one.
    fn slot(&self) -> (usize, String) {
        let mut tables = self.tables.lock().unwrap();
        loop {
            let best = (0..tables.nodes.len()).max_by_key(|at| tables.nodes[*at].1);
            if let Some(at) = best.filter(|at| tables.nodes[*at].1 > 0) {
                tables.nodes[at].1 -= 1;
                return (at, tables.nodes[at].0.clone());
            }
            tables = self.freed.wait(tables).unwrap();
        }
    }

    fn free(&self, at: usize) {
        self.tables.lock().unwrap().nodes[at].1 += 1;
        self.freed.notify_one();
    }

    fn start(&self, message: &Message) -> io::Result<Message> {
        let (at, address) = self.slot();
        let came = relayed(&address, "POST", "/session", &message.body);
        match came.as_ref().ok().and_then(|reply| reply.text("sessionId")) {
            Some(id) => drop(self.tables.lock().unwrap().sessions.insert(id, at)),
            None => self.free(at),
        }
        came
    }

    fn command(&self, method: &str, target: &str, message: &Message) -> io::Result<Message> {
        let id = target.split('/').nth(2).unwrap_or("");
        let found = {
            let tables = self.tables.lock().unwrap();
            tables.sessions.get(id).map(|at| (*at, tables.nodes[*at].0.clone()))
        };
        let (at, address) = found.ok_or_else(|| io::Error::other("no such session"))?;
        let came = relayed(&address, method, target, &message.body);
        if method == "DELETE" && self.tables.lock().unwrap().sessions.remove(id).is_some() {
            self.free(at);
        }
        came
    }

    fn answer(&self, message: &Message) -> String {
        let mut words = message.start.split(' ');
        let (method, target) = (words.next().unwrap_or(""), words.next().unwrap_or(""));
        let came = match (method, target) {
            ("POST", "/se/grid/distributor/node") => return response(200, &self.register(message)),
            ("POST", "/session") => self.start(message),
            _ if target.starts_with("/session/") => self.command(method, target, message),
            _ => return response(200, NULL),
        };
        match came {
            Ok(reply) => response(reply.status(), &String::from_utf8_lossy(&reply.body)),
            Err(error) => response(500, &format!("{{\"value\":\"{error}\"}}")),
        }
    }

    fn serve(&self, mut link: Connection) -> io::Result<()> {
        while let Some(message) = link.receive()? {
            link.send(self.answer(&message).as_bytes())?;
            if message.closes {
                break;
            }
        }
        Ok(())
    }
}

/// Serves until it is ended.
pub fn serve(port: u16) -> io::Result<bool> {
    let listener = TcpListener::bind(("127.0.0.1", port))?;
    let hub = Arc::new(Hub::default());
    loop {
        let (stream, _) = listener.accept()?;
        let hub = hub.clone();
        thread::spawn(move || Connection::of(stream).and_then(|link| hub.serve(link)));
    }
}
