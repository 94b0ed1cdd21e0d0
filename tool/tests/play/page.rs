//! The program with its page, asked as the page asks it.

use crate::run_support::Folder;
use std::io::{BufRead, BufReader, Read, Write};
use std::net::{Shutdown, TcpStream};
use std::process::{Child, Command, Stdio};

pub const SOURCE: &str = "# </script><b>&\nmembers dora, pete, saw\nrelation owns\n\
    event share, withdraw by anyone\n\
    event load\n  when some owner owns target: not owner withdraw me since owner share me\n\
    first dora owns saw\n";

/// The program with its page, until it is dropped.
pub struct Page {
    child: Child,
    pub host: String,
    pub token: String,
}

impl Drop for Page {
    fn drop(&mut self) {
        let _ = self.child.kill();
        let _ = self.child.wait();
    }
}

impl Page {
    pub fn of(folder: &Folder) -> Page {
        let mut child = Command::new(env!("CARGO_BIN_EXE_cuckooormolu"))
            .args(["play", folder.path()])
            .stdout(Stdio::piped())
            .spawn()
            .unwrap();
        let mut line = String::new();
        BufReader::new(child.stdout.as_mut().unwrap()).read_line(&mut line).unwrap();
        let address = line.trim().strip_prefix("http://").unwrap();
        assert!(address.starts_with("127.0.0.1:"), "{address}");
        let (host, token) = address.trim_end_matches('/').split_once('/').unwrap();
        assert_eq!(token.len(), 32);
        let (host, token) = (host.to_string(), token.to_string());
        Page { child, host, token }
    }

    /// Sends bytes and gives the whole answer.
    pub fn sent(&self, bytes: &[u8]) -> String {
        let mut stream = TcpStream::connect(&self.host).unwrap();
        let _ = stream.write_all(bytes);
        let _ = stream.shutdown(Shutdown::Write);
        let mut said = Vec::new();
        let _ = stream.read_to_end(&mut said);
        String::from_utf8(said).unwrap()
    }

    /// The number of the answer to a request with these headers.
    pub fn status(&self, method: &str, path: &str, headers: &[(&str, &str)]) -> u16 {
        let mut text = format!("{method} {path} HTTP/1.1\r\n");
        headers.iter().for_each(|(name, value)| text.push_str(&format!("{name}: {value}\r\n")));
        let said = self.sent(format!("{text}\r\n").as_bytes());
        said.split(' ').nth(1).unwrap().parse().unwrap()
    }

    /// Posts as the page does; gives the body of an answer that is well.
    pub fn post(&self, path: &str, body: &str) -> String {
        let Page { host, token, .. } = self;
        let said = self.sent(
            format!(
                "POST /{token}/{path} HTTP/1.1\r\nHost: {host}\r\nOrigin: http://{host}\r\n\
                 Content-Length: {}\r\n\r\n{body}",
                body.len()
            )
            .as_bytes(),
        );
        let (head, body) = said.split_once("\r\n\r\n").unwrap();
        assert!(head.starts_with("HTTP/1.1 200 OK\r\n"), "{head}\n{body}");
        body.to_string()
    }

    pub fn told(&self, source: &str, requests: &str, at: usize, rest: &str) -> String {
        let source = source.replace('"', "\\\"").replace('\n', "\\n");
        let body =
            format!("{{\"source\":\"{source}\",\"requests\":{requests},\"at\":{at},{rest}}}");
        self.post("told", &body)
    }
}

pub fn folder() -> Folder {
    let folder = Folder::new();
    folder.write("terms.say", SOURCE);
    folder
}

pub const NOTHING: &str = "\"pair\":null,\"who\":null";
