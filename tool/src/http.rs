//! HTTP for a page on this machine: one request a connection, read within bounds
//! of size and time.

mod response;

pub use response::*;
use std::io::{self, Read, Write};
use std::net::{Shutdown, TcpListener, TcpStream};
use std::sync::atomic::{AtomicUsize, Ordering};
use std::sync::Arc;
use std::thread;
use std::time::{Duration, Instant};

/// The most bytes of a request line, of a head, and of a body.
const MOST_LINE: usize = 8 << 10;
const MOST_HEAD: usize = 32 << 10;
const MOST_BODY: usize = 1 << 20;
/// So long a client may take for its request, and for the answer.
const MOST_TIME: Duration = Duration::from_secs(10);
/// So many clients are served at a time.
const MOST_CLIENTS: usize = 32;
/// Formulas may stand deep in one another.
const STACK: usize = 32 << 20;
/// So long nobody is accepted after that failed.
const PAUSE: Duration = Duration::from_millis(50);
/// What a client still sends after a refusal is read for so long, and so far, so
/// that it sees the answer rather than a broken connection.
const LINGER: Duration = Duration::from_secs(1);
const MOST_LINGER: usize = 4 << 20;

/// A request whose form is right.
#[derive(Clone, Debug, PartialEq, Eq)]
pub struct Request {
    pub method: String,
    pub target: String,
    /// Names in small letters.
    headers: Vec<(String, String)>,
    pub body: Vec<u8>,
}

impl Request {
    /// The value of a header, given in small letters.
    pub fn header(&self, name: &str) -> Option<&str> {
        self.headers.iter().find(|(known, _)| known == name).map(|(_, value)| value.as_str())
    }
}

/// Answers clients for ever, each in a thread of its own. Nothing that a client does
/// keeps the others waiting.
pub fn serve<H>(listener: &TcpListener, handle: H) -> !
where
    H: Fn(&Request) -> Response + Send + Sync + 'static,
{
    let handle = Arc::new(handle);
    let clients = Arc::new(AtomicUsize::new(0));
    loop {
        // A client that is gone already is no reason to stop, nor is a want of files.
        let Ok((mut stream, _)) = listener.accept() else {
            thread::sleep(PAUSE);
            continue;
        };
        let place = Place::take(&clients);
        if place.number >= MOST_CLIENTS {
            let _ = stream.set_nonblocking(true);
            let _ = stream.write_all(&Response::of(BUSY).bytes());
            continue;
        }
        let handle = Arc::clone(&handle);
        let _ = thread::Builder::new().stack_size(STACK).spawn(move || {
            let _place = place;
            let _ = answer(&stream, MOST_TIME, &*handle);
        });
    }
}

/// One of the clients that are served at a time, until it is dropped.
struct Place {
    clients: Arc<AtomicUsize>,
    number: usize,
}

impl Place {
    fn take(clients: &Arc<AtomicUsize>) -> Place {
        Place { number: clients.fetch_add(1, Ordering::SeqCst), clients: Arc::clone(clients) }
    }
}

impl Drop for Place {
    fn drop(&mut self) {
        self.clients.fetch_sub(1, Ordering::SeqCst);
    }
}

/// Reads one request and answers it.
fn answer(
    stream: &TcpStream,
    time: Duration,
    handle: &dyn Fn(&Request) -> Response,
) -> io::Result<()> {
    let response = match read(stream, time) {
        Ok(request) => handle(&request),
        Err(status) => Response::of(status),
    };
    send(stream, &response)
}

fn send(mut stream: &TcpStream, response: &Response) -> io::Result<()> {
    stream.set_write_timeout(Some(MOST_TIME))?;
    stream.write_all(&response.bytes())?;
    stream.shutdown(Shutdown::Write)?;
    let end = Instant::now() + LINGER;
    let (mut left, mut piece) = (MOST_LINGER, [0; 8192]);
    while let Ok(count @ 1..) = next(stream, end, &mut piece) {
        let Some(rest) = left.checked_sub(count) else { break };
        left = rest;
    }
    Ok(())
}

/// Reads some bytes, until a time.
fn next(mut stream: &TcpStream, end: Instant, piece: &mut [u8]) -> Result<usize, Status> {
    let left = end.saturating_duration_since(Instant::now());
    if left.is_zero() || stream.set_read_timeout(Some(left)).is_err() {
        return Err(SLOW);
    }
    stream.read(piece).map_err(|error| match error.kind() {
        io::ErrorKind::WouldBlock | io::ErrorKind::TimedOut => SLOW,
        _ => BAD,
    })
}

/// Reads one request, all of it within a time.
fn read(stream: &TcpStream, time: Duration) -> Result<Request, Status> {
    let end = Instant::now() + time;
    let (mut bytes, mut piece) = (Vec::new(), [0; 8192]);
    let head = loop {
        if let Some(place) = find(&bytes, b"\r\n\r\n") {
            break place;
        }
        if bytes.len() > MOST_LINE && find(&bytes[..MOST_LINE], b"\r\n").is_none() {
            return Err(LONG);
        }
        if bytes.len() > MOST_HEAD {
            return Err(HEADERS);
        }
        match next(stream, end, &mut piece)? {
            0 => return Err(BAD),
            count => bytes.extend_from_slice(&piece[..count]),
        }
    };
    if find(&bytes[..head + 2], b"\r\n").is_none_or(|line| line > MOST_LINE) {
        return Err(LONG);
    }
    if head > MOST_HEAD {
        return Err(HEADERS);
    }
    let mut request = parse(&bytes[..head])?;
    let length = body_length(&request)?;
    let mut body = bytes.split_off(head + 4);
    while body.len() < length {
        match next(stream, end, &mut piece)? {
            0 => return Err(BAD),
            count => body.extend_from_slice(&piece[..count]),
        }
    }
    body.truncate(length);
    request.body = body;
    Ok(request)
}

fn find(bytes: &[u8], wanted: &[u8]) -> Option<usize> {
    bytes.windows(wanted.len()).position(|some| some == wanted)
}

/// How long the body is said to be.
fn body_length(request: &Request) -> Result<usize, Status> {
    if request.header("transfer-encoding").is_some() {
        return Err(CODING);
    }
    let said = match (request.header("content-length"), request.method.as_str()) {
        (Some(said), _) => said,
        (None, "POST" | "PUT" | "PATCH") => return Err(LENGTH),
        (None, _) => "0",
    };
    if said.is_empty() || !said.bytes().all(|byte| byte.is_ascii_digit()) {
        return Err(BAD);
    }
    // More digits than fit are too many as well.
    match said.parse() {
        Ok(length) if length <= MOST_BODY => Ok(length),
        _ => Err(LARGE),
    }
}

/// A head without its last empty line.
fn parse(head: &[u8]) -> Result<Request, Status> {
    let head = std::str::from_utf8(head).map_err(|_| BAD)?;
    let mut lines = head.split("\r\n");
    let first: Vec<&str> = lines.next().unwrap_or("").split(' ').collect();
    let [method, target, version] = first[..] else { return Err(BAD) };
    let visible = |text: &str| text.bytes().all(|byte| (0x21..0x7f).contains(&byte));
    if !is_token(method) || !target.starts_with('/') || !visible(target) {
        return Err(BAD);
    }
    if version != "HTTP/1.1" && version != "HTTP/1.0" {
        return Err(if version.starts_with("HTTP/") { VERSION } else { BAD });
    }
    let mut headers: Vec<(String, String)> = Vec::new();
    for line in lines {
        let (name, value) = line.split_once(':').ok_or(BAD)?;
        let name = name.to_ascii_lowercase();
        let twice = headers.iter().any(|(known, _)| *known == name);
        let once = ["host", "origin", "content-length"].contains(&name.as_str());
        let control = |letter: char| letter.is_control() && letter != '\t';
        if !is_token(&name) || value.contains(control) || twice && once {
            return Err(BAD);
        }
        headers.push((name, value.trim().to_string()));
    }
    let (method, target) = (method.to_string(), target.to_string());
    Ok(Request { method, target, headers, body: Vec::new() })
}

fn is_token(text: &str) -> bool {
    let sign = |byte: u8| b"!#$%&'*+-.^_`|~".contains(&byte);
    !text.is_empty() && text.bytes().all(|byte| byte.is_ascii_alphanumeric() || sign(byte))
}

#[cfg(test)]
mod tests;
