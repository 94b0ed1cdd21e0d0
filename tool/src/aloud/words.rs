//! Clauses in words: a line, or an outline where a line would be unclear.
//!
//! A line has at most one level of `and` or `or`. Whatever needs more becomes a
//! heading with its parts under it, as in a contract.

use super::clause::Who;
use crate::names::Names;

/// What may follow a line within a longer one.
#[derive(Clone, Copy, Debug, PartialEq, Eq, PartialOrd, Ord)]
pub enum Shape {
    /// Anything.
    Simple,
    /// Nothing: its last part would take in what follows.
    Open,
    /// Nothing, and it has an `and` or `or` of its own.
    Compound,
}

/// A clause in words. Guests are tokens until the whole sentence is there.
#[derive(Clone, Debug)]
pub enum Words {
    Line {
        /// The subject, if it is one member; the text then is the predicate.
        subject: Option<Who>,
        text: String,
        shape: Shape,
    },
    Outline {
        head: String,
        parts: Vec<Words>,
    },
}

/// At most so many parts are joined in one line.
const LONGEST_RUN: usize = 3;

impl Words {
    /// A predicate of a subject.
    pub fn of(subject: Who, text: String) -> Words {
        Words::Line { subject: Some(subject), text, shape: Shape::Simple }
    }

    /// A whole clause.
    pub fn whole(text: String, shape: Shape) -> Words {
        Words::Line { subject: None, text, shape }
    }

    /// The words before a clause, then the clause, which takes in all the rest.
    pub fn after(self, before: &str) -> Words {
        match self {
            Words::Line { subject, text, shape } => {
                Words::whole(format!("{before} {}", full(subject, &text)), shape.max(Shape::Open))
            }
            Words::Outline { head, parts } => {
                Words::Outline { head: format!("{before} {head}"), parts }
            }
        }
    }

    /// The whole clause, if it is a line of a shape no harder than the given.
    pub fn line(&self, hardest: Shape) -> Option<String> {
        match self {
            Words::Line { subject, text, shape } if *shape <= hardest => Some(full(*subject, text)),
            _ => None,
        }
    }

    pub fn shape(&self) -> Option<Shape> {
        match self {
            Words::Line { shape, .. } => Some(*shape),
            Words::Outline { .. } => None,
        }
    }

    /// The predicate, if the subject is this one and isn't mentioned again.
    pub fn predicate(&self, who: Who) -> Option<&str> {
        match self {
            Words::Line { subject: Some(subject), text, .. }
                if *subject == who && !text.contains(&name(who)) =>
            {
                Some(text)
            }
            _ => None,
        }
    }
}

/// Subject and predicate, or the whole clause.
pub fn full(subject: Option<Who>, text: &str) -> String {
    subject.map_or_else(|| text.to_string(), |who| format!("{} {text}", name(who)))
}

/// How a member is called. A guest, somebody given, or a member with a name of its own, is a token
/// between two control characters.
pub fn name(who: Who) -> String {
    match who {
        Who::You => "you".to_string(),
        Who::Target => "the target".to_string(),
        Who::Here => "M".to_string(),
        Who::Given(variable) => format!("\u{1}given {variable}\u{2}"),
        Who::Guest(guest) => format!("\u{1}{guest}\u{2}"),
        Who::Member(member) => format!("\u{3}{member}\u{4}"),
    }
}

/// How a member is called as the object of a subject.
pub fn object(who: Who, subject: Who) -> String {
    match (who == subject, who) {
        (false, _) | (true, Who::Member(_)) => name(who),
        (true, Who::You) => "yourself".to_string(),
        (true, _) => "themselves".to_string(),
    }
}

/// `A, B and C`.
pub fn listed(names: &[String]) -> String {
    match names {
        [] => String::new(),
        [single] => single.clone(),
        [first @ .., last] => format!("{} and {last}", first.join(", ")),
    }
}

/// Joins the parts of an `and` or an `or`, in a line if that is clear.
pub fn join(parts: Vec<Words>, or: bool, held: bool) -> Words {
    if in_line(&parts) {
        return line_of(parts, or);
    }
    let head = match (or, parts.len(), held) {
        (false, 2, false) => "both of these hold",
        (false, 2, true) => "both of these held",
        (false, _, false) => "all of these hold",
        (false, _, true) => "all of these held",
        (true, _, false) => "at least one of these holds",
        (true, _, true) => "at least one of these held",
    };
    Words::Outline { head: head.to_string(), parts }
}

fn in_line(parts: &[Words]) -> bool {
    let (last, first) = parts.split_last().expect("a run has parts");
    parts.len() <= LONGEST_RUN
        && first.iter().all(|part| part.shape() == Some(Shape::Simple))
        && last.shape().is_some_and(|shape| shape <= Shape::Open)
}

fn line_of(parts: Vec<Words>, or: bool) -> Words {
    let lines: Vec<(Option<Who>, String)> = parts
        .into_iter()
        .filter_map(|part| match part {
            Words::Line { subject, text, .. } => Some((subject, text)),
            Words::Outline { .. } => None,
        })
        .collect();
    let shared = lines[0].0.filter(|_| lines.iter().all(|(subject, _)| *subject == lines[0].0));
    let said = |(subject, text): &(Option<Who>, String)| match shared {
        Some(_) => text.clone(),
        None => full(*subject, text),
    };
    let said: Vec<String> = lines.iter().map(said).collect();
    let text = match or {
        true => format!("either {}", said.join(" or ")),
        false => said.join(" and "),
    };
    Words::Line { subject: shared, text, shape: Shape::Compound }
}

/// Names the guests by letters in the order in which they are met. M is left
/// out: numbered clauses speak of a member M.
pub fn letters(text: &str) -> String {
    let mut met: Vec<&str> = Vec::new();
    let mut named = String::new();
    for (index, part) in text.split(['\u{1}', '\u{2}']).enumerate() {
        if index % 2 == 0 {
            named.push_str(part);
            continue;
        }
        let place = met.iter().position(|known| *known == part).unwrap_or_else(|| {
            met.push(part);
            met.len() - 1
        });
        named.push_str(&letter(place));
    }
    named
}

/// Puts the members' own names in.
pub fn named(text: &str, names: &Names) -> String {
    let part = |(index, part): (usize, &str)| match part.parse() {
        Ok(member) if index % 2 == 1 => names.member(member),
        _ => part.to_string(),
    };
    text.split(['\u{3}', '\u{4}']).enumerate().map(part).collect()
}

fn letter(place: usize) -> String {
    const LETTERS: &[u8] = b"ABCDEFGHIJKLNOPQRSTUVWXYZ";
    let letter = char::from(LETTERS[place % LETTERS.len()]);
    match place / LETTERS.len() {
        0 => letter.to_string(),
        round => format!("{letter}{round}"),
    }
}
