//! What the page asks for, read from JSON.

use crate::json::read::{read, Value};

/// The most requests that a page may keep.
const MOST_REQUESTS: usize = 2_000;

/// An event, who asks and who is asked, each by name. Numbers change while terms are
/// edited.
#[derive(Clone, Debug, PartialEq, Eq)]
pub struct Named {
    pub event: String,
    pub from: String,
    pub to: String,
}

/// What is to be told.
#[derive(Clone, Debug, PartialEq, Eq)]
pub struct Asked {
    pub source: String,
    pub requests: Vec<Named>,
    /// How many of them are made; the others were taken back.
    pub at: usize,
    /// Who would ask, and who would be asked.
    pub pair: Option<(String, String)>,
    /// The event of which it is to be told who may.
    pub who: Option<String>,
}

impl Asked {
    pub fn read(body: &[u8]) -> Option<Asked> {
        let value = read(std::str::from_utf8(body).ok()?)?;
        let requests = requests(value.field("requests")?)?;
        let pair = match value.field("pair")? {
            Value::Null => None,
            pair => match texts(pair)?[..] {
                [ref from, ref to] => Some((from.clone(), to.clone())),
                _ => return None,
            },
        };
        Some(Asked {
            source: value.field("source")?.text()?.to_string(),
            at: value.field("at")?.count()?.min(requests.len()),
            requests,
            pair,
            who: value.field("who")?.text().map(str::to_string),
        })
    }
}

/// What is to be written to the folder.
#[derive(Clone, Debug, PartialEq, Eq)]
pub struct Save {
    pub now: Kept,
    /// What the folder had when the page read it. If it has something else, others have
    /// written to it.
    pub before: Kept,
    /// Write it all the same.
    pub anyway: bool,
}

/// A source and requests.
#[derive(Clone, Debug, Default, PartialEq, Eq)]
pub struct Kept {
    pub source: String,
    pub requests: Vec<Named>,
}

impl Save {
    pub fn read(body: &[u8]) -> Option<Save> {
        let value = read(std::str::from_utf8(body).ok()?)?;
        Some(Save {
            now: kept(value.field("now")?)?,
            before: kept(value.field("before")?)?,
            anyway: *value.field("anyway")? == Value::Bool(true),
        })
    }
}

fn kept(value: &Value) -> Option<Kept> {
    let source = value.field("source")?.text()?.to_string();
    Some(Kept { source, requests: requests(value.field("requests")?)? })
}

fn requests(value: &Value) -> Option<Vec<Named>> {
    let list = value.list().filter(|list| list.len() <= MOST_REQUESTS)?;
    let named = |value: &Value| match <[String; 3]>::try_from(texts(value)?) {
        Ok([event, from, to]) => Some(Named { event, from, to }),
        Err(_) => None,
    };
    list.iter().map(named).collect()
}

fn texts(value: &Value) -> Option<Vec<String>> {
    value.list()?.iter().map(|one| one.text().map(str::to_string)).collect()
}

#[cfg(test)]
mod tests {
    use super::*;

    #[test]
    fn read_or_refused() {
        let body =
            r#"{"source":"a","requests":[["e","f","t"]],"at":9,"pair":["f","t"],"who":null}"#;
        let asked = Asked::read(body.as_bytes()).unwrap();
        assert_eq!((asked.at, asked.requests[0].to.as_str(), asked.who), (1, "t", None));
        for (from, to) in [
            (r#"["e","f","t"]"#, r#"["e","f"]"#),
            (r#"["e","f","t"]"#, r#"["e","f",3]"#),
            (r#""at":9"#, r#""at":-1"#),
            (r#""source":"a","#, ""),
            (r#"["f","t"],"who""#, r#"["f"],"who""#),
            ("}", ""),
        ] {
            assert_eq!(Asked::read(body.replace(from, to).as_bytes()), None, "{to}");
        }
        assert_eq!(Asked::read(b"\xff"), None);
        let many = vec![r#"["e","f","t"]"#; 2_001].join(",");
        assert_eq!(Asked::read(body.replace(r#"["e","f","t"]"#, &many).as_bytes()), None);
    }
}
