//! A node that answers as fast as it can: a thread for each connection, and what it is asked is hardly read.
use crate::http::{Connection, request};
use std::io::{self, Read, Write};
use std::net::{TcpListener, TcpStream};
use std::sync::atomic::{AtomicU64, Ordering};
use std::thread;

const SLOTS: usize = 64;

/// Sessions that were made.
static MADE: AtomicU64 = AtomicU64::new(0);

fn response(body: &str) -> String {
    format!(
        "HTTP/1.1 200 OK\r\nContent-Type: application/json; charset=utf-8\r\nCache-Control: no-cache\r\nContent-Length: {}\r\n\r\n{body}",
        body.len()
    )
}

fn created() -> String {
    let count = MADE.fetch_add(1, Ordering::Relaxed);
    response(&format!(
        "{{\"value\":{{\"sessionId\":\"relay-{}-{count}\",\"capabilities\":{{\"browserName\":\"chrome\",\"browserVersion\":\"126.0\",\"platformName\":\"linux\"}}}}}}",
        std::process::id()
    ))
}

/// How long the request at the front is; 0 where it is not whole.
fn length(bytes: &[u8]) -> usize {
    let Some(head) = bytes.windows(4).position(|four| four == b"\r\n\r\n") else { return 0 };
    let text = String::from_utf8_lossy(&bytes[..head]).to_ascii_lowercase();
    let body: usize = text
        .lines()
        .find_map(|line| line.strip_prefix("content-length:")?.trim().parse().ok())
        .unwrap_or(0);
    if bytes.len() < head + 4 + body { 0 } else { head + 4 + body }
}

fn answer(mut stream: TcpStream) -> io::Result<()> {
    stream.set_nodelay(true)?;
    let found = response("{\"value\":\"about:blank\"}");
    let mut bytes = Vec::new();
    let mut piece = [0; 4096];
    loop {
        let count = stream.read(&mut piece)?;
        if count == 0 {
            return Ok(());
        }
        bytes.extend_from_slice(&piece[..count]);
        loop {
            let taken = length(&bytes);
            if taken == 0 {
                break;
            }
            if bytes.starts_with(b"POST /session HTTP") {
                stream.write_all(created().as_bytes())?;
            } else {
                stream.write_all(found.as_bytes())?;
            }
            if bytes[..taken].windows(17).any(|part| part.eq_ignore_ascii_case(b"connection: close")) {
                return Ok(());
            }
            bytes.drain(..taken);
        }
    }
}

/// Registers at the hub, which then has the node for as long as it beats.
fn register(hub: &str, port: u16) -> io::Result<String> {
    let body = format!(
        "{{\"name\":\"relay-{port}\",\"address\":\"127.0.0.1:{port}\",\"maxSessions\":{SLOTS},\"slots\":[{{\"count\":{SLOTS},\"stereotype\":{{\"browserName\":\"chrome\",\"platformName\":\"linux\"}}}}]}}"
    );
    let message = Connection::to(hub)?.ask("POST", "/se/grid/distributor/node", &body)?;
    let body = String::from_utf8_lossy(&message.body).to_string();
    Ok(body.chars().filter(char::is_ascii_digit).collect())
}

fn beat(hub: &str, number: &str) -> io::Result<()> {
    let target = format!("/se/grid/distributor/node/{number}/beat");
    let mut link = Connection::to(hub)?;
    link.send(request("POST", &target, "").as_bytes())?;
    link.receive().map(|_| ())
}

/// Serves until it is ended.
pub fn serve(port: u16, hub: Option<&str>) -> io::Result<()> {
    let listener = TcpListener::bind(("127.0.0.1", port))?;
    if let Some(hub) = hub {
        let number = register(hub, port)?;
        let hub = hub.to_string();
        thread::spawn(move || {
            loop {
                thread::sleep(std::time::Duration::from_secs(15));
                let _ = beat(&hub, &number);
            }
        });
    }
    loop {
        let (stream, _) = listener.accept()?;
        thread::spawn(move || answer(stream));
    }
}
