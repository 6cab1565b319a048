//! A plain proxy to measure by: a thread for each client, which has a connection to the node for as long as its client has one.
//! It reads each message whole, by the length that its head gives, writes a head of its own for it, as a hub does, and keeps no
//! rule. Messages in chunks it refuses, and what goes wrong ends its client's connection.
use std::io::{self, BufRead, BufReader, Error, Read, Write};
use std::net::{TcpListener, TcpStream};
use std::thread;

/// The headers that are passed on, in small letters, and as they are written.
const PASSED: [(&str, &str); 5] = [
    ("accept", "Accept"),
    ("accept-encoding", "Accept-Encoding"),
    ("content-type", "Content-Type"),
    ("content-encoding", "Content-Encoding"),
    ("cache-control", "Cache-Control"),
];

/// A message as it is passed on, whole.
struct Message {
    bytes: Vec<u8>,
    /// The connection ends behind it.
    closes: bool,
}

/// One way of a connection.
struct Reader {
    inner: BufReader<TcpStream>,
    line: String,
}

impl Reader {
    fn new(stream: TcpStream) -> Reader {
        Reader { inner: BufReader::with_capacity(16 << 10, stream), line: String::new() }
    }

    /// The next line without its end; None at the end of input.
    fn line(&mut self) -> io::Result<Option<&str>> {
        self.line.clear();
        if self.inner.read_line(&mut self.line)? == 0 {
            return Ok(None);
        }
        Ok(Some(self.line.trim_end()))
    }

    /// The next message, whose first line and further headers are written so.
    fn message(&mut self, host: Option<&str>) -> io::Result<Option<Message>> {
        let mut bytes = Vec::with_capacity(512);
        let Some(first) = self.line()? else { return Ok(None) };
        bytes.extend_from_slice(first.as_bytes());
        bytes.extend_from_slice(b"\r\n");
        let mut closes = first.ends_with("HTTP/1.0") || first.starts_with("HTTP/1.0");
        if let Some(host) = host {
            write!(bytes, "Host: {host}\r\n")?;
        }
        let mut length = 0;
        loop {
            let line = self.line()?.ok_or_else(|| Error::other("a head that is cut off"))?;
            if line.is_empty() {
                break;
            }
            let (name, value) = line.split_once(':').ok_or_else(|| Error::other("a header"))?;
            let (name, value) = (name.to_ascii_lowercase(), value.trim());
            match name.as_str() {
                "content-length" => length = value.parse().map_err(Error::other)?,
                "connection" => closes = closes || value.eq_ignore_ascii_case("close"),
                "transfer-encoding" => return Err(Error::other("chunks")),
                _ => {
                    if let Some((_, written)) = PASSED.iter().find(|(small, _)| *small == name) {
                        write!(bytes, "{written}: {value}\r\n")?;
                    }
                }
            }
        }
        write!(bytes, "Content-Length: {length}\r\n\r\n")?;
        let at = bytes.len();
        bytes.resize(at + length, 0);
        self.inner.read_exact(&mut bytes[at..])?;
        Ok(Some(Message { bytes, closes }))
    }
}

/// Both ways to the node.
struct Node {
    reader: Reader,
    writer: TcpStream,
}

impl Node {
    fn connect(address: &str) -> io::Result<Node> {
        let writer = TcpStream::connect(address)?;
        writer.set_nodelay(true)?;
        Ok(Node { reader: Reader::new(writer.try_clone()?), writer })
    }

    fn ask(&mut self, request: &Message) -> io::Result<Message> {
        self.writer.write_all(&request.bytes)?;
        self.reader.message(None)?.ok_or_else(|| Error::other("no reply"))
    }
}

/// Serves a client until it closes its connection.
fn client(stream: TcpStream, address: &str) -> io::Result<()> {
    stream.set_nodelay(true)?;
    let mut writer = stream.try_clone()?;
    let mut reader = Reader::new(stream);
    let mut node = None;
    while let Some(request) = reader.message(Some(address))? {
        let mut link = match node.take() {
            Some(link) => link,
            None => Node::connect(address)?,
        };
        let reply = link.ask(&request)?;
        writer.write_all(&reply.bytes)?;
        if !reply.closes {
            node = Some(link);
        }
        if request.closes {
            break;
        }
    }
    Ok(())
}

/// Serves until it is ended.
pub fn serve(port: u16, node: &str) -> io::Result<()> {
    let listener = TcpListener::bind(("127.0.0.1", port))?;
    loop {
        let (stream, _) = listener.accept()?;
        let node = node.to_string();
        thread::spawn(move || client(stream, &node));
    }
}
