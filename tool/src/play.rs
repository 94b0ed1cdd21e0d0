//! A page on this machine where terms are edited and tried out. The page keeps the
//! text and the requests; every answer is made afresh from them.
//!
//! * `asked`: what the page asks for; `told`: what it is told
//! * `files`: what the folder has; `saving`: what is saved
//! * `page`: the page itself, one text that loads nothing

pub mod asked;
pub mod files;
pub mod page;
mod saving;
pub mod told;

use crate::http::{self, Request, Response};
use crate::json::Json;
use crate::stop::Stop;
use asked::{Asked, Save};
use files::Files;
use std::fs::File;
use std::io::{self, Read};
use std::net::{Ipv4Addr, SocketAddr, TcpListener};

/// A listener on this machine alone, and the address to be opened. Port 0 is one
/// that is free.
pub fn listen(port: u16) -> io::Result<TcpListener> {
    TcpListener::bind(SocketAddr::from((Ipv4Addr::LOCALHOST, port)))
}

/// A folder with its page.
pub struct Play {
    files: Files,
    /// `127.0.0.1:` and the port.
    host: String,
    /// Who does not know it is not answered.
    token: String,
}

impl Play {
    pub fn new(files: Files, listener: &TcpListener) -> io::Result<Play> {
        Ok(Play { files, host: listener.local_addr()?.to_string(), token: token()? })
    }

    /// What to open in a browser.
    pub fn address(&self) -> String {
        format!("http://{}/{}/", self.host, self.token)
    }

    /// Answers one request.
    pub fn answer(&self, request: &Request) -> Response {
        match self.path(request) {
            Err(refused) => refused,
            Ok(path) => match (request.method.as_str(), path) {
                ("GET", "") => match token() {
                    Ok(nonce) => page::response(&self.files, &nonce),
                    Err(error) => Response::plain(http::FAULT, &error.to_string()),
                },
                ("POST", "told") => {
                    reply(Asked::read(&request.body), |asked| told::told(&self.files, &asked))
                }
                ("POST", "save") => {
                    reply(Save::read(&request.body), |save| Ok(self.files.save(&save)))
                }
                (_, "" | "told" | "save") => Response::plain(http::METHOD, "not by this method"),
                _ => Response::plain(http::NOT_FOUND, "there is no such page"),
            },
        }
    }

    /// The path after the token. A page of another origin, or one that reached us under
    /// another name, gets nothing; and so does whoever has another token.
    fn path<'a>(&self, request: &'a Request) -> Result<&'a str, Response> {
        let refused = |why: &str| Err(Response::plain(http::FORBIDDEN, why));
        if request.header("host") != Some(self.host.as_str()) {
            return refused("this page has no other name than its address");
        }
        let origin = request.header("origin");
        let own = origin.is_some_and(|origin| origin.strip_prefix("http://") == Some(&self.host));
        if !own && (origin.is_some() || request.method != "GET") {
            return refused("only the page itself may ask");
        }
        match request.target[1..].split_once('/') {
            Some((token, path)) if same(token, &self.token) => Ok(path),
            Some((token, _)) if token.len() == self.token.len() => {
                refused("this is the token of another page; open the address as it was printed")
            }
            _ => refused("the address lacks its token; open it as it was printed"),
        }
    }
}

/// An answer as JSON. What has no form is the page's mistake, and a difference between
/// library and keeper is ours.
fn reply<A>(asked: Option<A>, told: impl Fn(A) -> Result<Json, Stop>) -> Response {
    let Some(asked) = asked else {
        return Response::plain(http::BAD, "this is not what the page asks");
    };
    match told(asked) {
        Ok(json) => Response {
            status: http::OK,
            kind: "application/json",
            headers: Vec::new(),
            body: json.to_string().into_bytes(),
        },
        Err(stop) => Response::plain(http::FAULT, &stop.to_string()),
    }
}

/// 128 bits that nobody can guess, in hexadecimal digits.
fn token() -> io::Result<String> {
    let mut bytes = [0; 16];
    File::open("/dev/urandom")?.read_exact(&mut bytes)?;
    Ok(bytes.iter().map(|byte| format!("{byte:02x}")).collect())
}

/// Whether two texts are the same, in a time that does not tell where they differ.
fn same(one: &str, other: &str) -> bool {
    let differ = one.bytes().zip(other.bytes()).fold(0, |differ, (a, b)| differ | (a ^ b));
    one.len() == other.len() && differ == 0
}
