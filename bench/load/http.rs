//! As much of HTTP/1.1 as the load needs: messages with a `Content-Length`.
use std::io::{self, BufRead, BufReader, Error, ErrorKind, Read, Write};
use std::net::TcpStream;
use std::time::Duration;

/// A request or a response.
pub struct Message {
    /// The first line.
    pub start: String,
    /// The connection ends behind it.
    pub closes: bool,
    pub body: Vec<u8>,
}

impl Message {
    /// The status of a response, 0 where the first line has none.
    pub fn status(&self) -> u16 {
        self.start.split(' ').nth(1).and_then(|word| word.parse().ok()).unwrap_or(0)
    }

    /// The text behind `"name":"` in the body, up to the next quote.
    pub fn text(&self, name: &str) -> Option<String> {
        let body = std::str::from_utf8(&self.body).ok()?;
        let key = format!("\"{name}\":\"");
        let begin = body.find(&key)? + key.len();
        let end = body[begin..].find('"')?;
        Some(body[begin..begin + end].to_string())
    }
}

/// Both ways of a connection.
pub struct Connection {
    reader: BufReader<TcpStream>,
    writer: TcpStream,
}

fn wrong(what: &str) -> Error {
    Error::new(ErrorKind::InvalidData, what.to_string())
}

impl Connection {
    pub fn of(stream: TcpStream) -> io::Result<Connection> {
        stream.set_nodelay(true)?;
        stream.set_read_timeout(Some(Duration::from_secs(120)))?;
        let writer = stream.try_clone()?;
        Ok(Connection { reader: BufReader::new(stream), writer })
    }

    pub fn to(address: &str) -> io::Result<Connection> {
        Connection::of(TcpStream::connect(address)?)
    }

    pub fn send(&mut self, bytes: &[u8]) -> io::Result<()> {
        self.writer.write_all(bytes)
    }

    /// The next message; None at the end of input.
    pub fn receive(&mut self) -> io::Result<Option<Message>> {
        let mut start = String::new();
        if self.reader.read_line(&mut start)? == 0 {
            return Ok(None);
        }
        let (mut length, mut closes) = (0, false);
        loop {
            let mut line = String::new();
            if self.reader.read_line(&mut line)? == 0 {
                return Err(wrong("a head that is cut off"));
            }
            let line = line.trim_end();
            if line.is_empty() {
                break;
            }
            let (name, value) = line.split_once(':').ok_or_else(|| wrong("a header"))?;
            match name.to_ascii_lowercase().as_str() {
                "content-length" => length = value.trim().parse().map_err(|_| wrong("a length"))?,
                "connection" => closes = value.trim().eq_ignore_ascii_case("close"),
                "transfer-encoding" => return Err(wrong("chunks")),
                _ => {}
            }
        }
        let mut body = vec![0; length];
        self.reader.read_exact(&mut body)?;
        Ok(Some(Message { start: start.trim_end().to_string(), closes, body }))
    }

    /// Sends a request and reads its response.
    pub fn ask(&mut self, method: &str, target: &str, body: &str) -> io::Result<Message> {
        self.send(request(method, target, body).as_bytes())?;
        self.receive()?.ok_or_else(|| wrong("no response"))
    }
}

pub fn request(method: &str, target: &str, body: &str) -> String {
    format!(
        "{method} {target} HTTP/1.1\r\nHost: load\r\nContent-Type: application/json\r\nContent-Length: {}\r\n\r\n{body}",
        body.len()
    )
}

pub fn response(status: u16, body: &str) -> String {
    format!(
        "HTTP/1.1 {status} Load\r\nContent-Type: application/json; charset=utf-8\r\nContent-Length: {}\r\n\r\n{body}",
        body.len()
    )
}

/// Numbers without a pattern (xorshift64), from a seed.
pub struct Dice(u64);

impl Dice {
    pub fn new(seed: u64) -> Dice {
        Dice(seed.wrapping_mul(0x9e37_79b9_7f4a_7c15) | 1)
    }

    /// A number below `sides`.
    pub fn throw(&mut self, sides: u64) -> u64 {
        self.0 ^= self.0 << 13;
        self.0 ^= self.0 >> 7;
        self.0 ^= self.0 << 17;
        (self.0 >> 11) % sides
    }
}
