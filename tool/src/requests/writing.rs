//! Requests as lines, with names or with numbers.

use crate::bank::Bank;
use crate::folder::Request;
use crate::names::{Kind, Names};
use crate::trial::typed::split;
use keeper::terms::Terms;

/// Requests as lines with names, which are read as the same requests. What has no name
/// has its numbers, and what is no request is left out.
pub fn write(requests: impl Iterator<Item = Request>, names: &Names) -> Vec<String> {
    let written = |request: Request| match request {
        Request::Ask { event, from, to } => {
            let member = |number: usize| names.given(Kind::Member, number);
            let named = || line([names.given(Kind::Event, event)?, member(from)?, member(to)?]);
            named().or_else(|| number(request))
        }
        Request::Malformed => None,
    };
    requests.filter_map(written).collect()
}

/// The same with the bank of each request; none if one cannot be written so that it is
/// read as the same.
pub fn write_banked(
    requests: impl Iterator<Item = (Bank, Request)>,
    terms: &Terms,
    names: &Names,
) -> Option<Vec<String>> {
    let known = |kind: Kind, number: usize, count: usize| {
        let plain = number.to_string();
        let plain = (names.lookup(kind, &plain, count) == Ok(number)).then_some(plain);
        names.given(kind, number).and_then(word).or(plain)
    };
    let member = |number: usize| known(Kind::Member, number, terms.members);
    let written = |(bank, request): (Bank, Request)| match request {
        Request::Ask { event, from, to } => {
            let event = known(Kind::Event, event, terms.events)?;
            Some(format!("{bank} {event} {} {}\n", member(from)?, member(to)?))
        }
        Request::Malformed => None,
    };
    requests.map(written).collect()
}

/// A request as a line with names, those of several words in double quotes; none for a
/// name that cannot stand in such a line.
pub fn line(names: [&str; 3]) -> Option<String> {
    let words = names.into_iter().map(word).collect::<Option<Vec<_>>>()?;
    Some(format!("{}\n", words.join(" ")))
}

/// A name as it stands in a line; none if it cannot.
fn word(name: &str) -> Option<String> {
    match name.is_empty() || name.contains(['"', '\n', '\r']) {
        true => None,
        false if split(name) == [name] && !name.contains('#') => Some(name.to_string()),
        false => Some(format!("\"{name}\"")),
    }
}

/// Requests as lines with numbers, those of requests.tsv.
pub fn numbered(requests: impl Iterator<Item = Request>) -> Vec<String> {
    requests.filter_map(number).collect()
}

fn number(request: Request) -> Option<String> {
    match request {
        Request::Ask { event, from, to } => Some(format!("R\t{event}\t{from}\t{to}\n")),
        Request::Malformed => None,
    }
}
