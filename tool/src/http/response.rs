//! What a client is answered.

/// A status and its words.
#[derive(Clone, Copy, Debug, PartialEq, Eq)]
pub struct Status(pub u16, pub &'static str);

pub const OK: Status = Status(200, "OK");
pub const BAD: Status = Status(400, "Bad Request");
pub const FORBIDDEN: Status = Status(403, "Forbidden");
pub const NOT_FOUND: Status = Status(404, "Not Found");
pub const METHOD: Status = Status(405, "Method Not Allowed");
pub const SLOW: Status = Status(408, "Request Timeout");
pub const LENGTH: Status = Status(411, "Length Required");
pub const LARGE: Status = Status(413, "Content Too Large");
pub const LONG: Status = Status(414, "URI Too Long");
pub const HEADERS: Status = Status(431, "Request Header Fields Too Large");
pub const FAULT: Status = Status(500, "Internal Server Error");
pub const CODING: Status = Status(501, "Not Implemented");
pub const BUSY: Status = Status(503, "Service Unavailable");
pub const VERSION: Status = Status(505, "HTTP Version Not Supported");

/// What a request is answered.
#[derive(Clone, Debug, PartialEq, Eq)]
pub struct Response {
    pub status: Status,
    /// The media type.
    pub kind: &'static str,
    /// Headers besides those that every answer has.
    pub headers: Vec<(&'static str, String)>,
    pub body: Vec<u8>,
}

impl Response {
    /// An answer in one line of text.
    pub fn plain(status: Status, said: &str) -> Response {
        let body = format!("{said}\n").into_bytes();
        Response { status, kind: "text/plain; charset=utf-8", headers: Vec::new(), body }
    }

    pub fn of(status: Status) -> Response {
        Response::plain(status, status.1)
    }

    /// The bytes to send. Nothing is kept, guessed, framed or told to others.
    pub fn bytes(&self) -> Vec<u8> {
        let Status(number, words) = self.status;
        let mut text = format!(
            "HTTP/1.1 {number} {words}\r\nContent-Type: {}\r\nContent-Length: {}\r\n\
             Connection: close\r\nCache-Control: no-store\r\nX-Content-Type-Options: nosniff\r\n\
             X-Frame-Options: DENY\r\nReferrer-Policy: no-referrer\r\n\
             Cross-Origin-Resource-Policy: same-origin\r\n",
            self.kind,
            self.body.len(),
        );
        for (name, value) in &self.headers {
            text.push_str(&format!("{name}: {value}\r\n"));
        }
        text.push_str("\r\n");
        [text.as_bytes(), &self.body].concat()
    }
}
