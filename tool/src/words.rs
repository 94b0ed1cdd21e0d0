//! Words for edges, requests and answers.

use crate::both::Verdict;
use crate::folder::Request;
use crate::names::{Kind, Labelled, Names};
use keeper::terms::{EventEdge, Terms};

/// A number with a comma before each three digits: 1,204.
pub fn grouped(number: usize) -> String {
    let digits = number.to_string();
    let comma = |(place, digit): (usize, char)| {
        let comma = place > 0 && (digits.len() - place) % 3 == 0;
        comma.then_some(',').into_iter().chain([digit])
    };
    digits.chars().enumerate().flat_map(comma).collect()
}

/// The names of a folder together with its terms.
#[derive(Clone, Copy)]
pub struct Words<'a> {
    pub terms: &'a Terms,
    pub names: &'a Names,
}

impl<'a> Words<'a> {
    pub fn new(terms: &'a Terms, names: &'a Names) -> Words<'a> {
        Words { terms, names }
    }

    /// A member beside an arrow or in a table: the name, or the bare number.
    pub fn member(&self, number: usize) -> String {
        self.names.given(Kind::Member, number).map_or_else(|| number.to_string(), str::to_string)
    }

    /// `share dora → pete`, `denied load pete → saw`; `event 0: 0 → 1` where
    /// nothing has a name.
    pub fn arrow(&self, label: usize, from: &str, to: &str) -> String {
        self.drawn(Labelled::of(self.terms, label), from, to)
    }

    fn drawn(&self, labelled: Labelled, from: &str, to: &str) -> String {
        let (kind, number) = labelled.named();
        let colon = if self.names.given(kind, number).is_some() { "" } else { ":" };
        format!("{}{colon} {from} → {to}", self.names.labelled(labelled))
    }

    /// An edge under a label.
    pub fn edge(&self, label: usize, from: usize, to: usize) -> String {
        self.arrow(label, &self.member(from), &self.member(to))
    }

    /// An event from its initiator to its target, whether or not there is such an
    /// event.
    pub fn event(&self, event: usize, from: usize, to: usize) -> String {
        self.drawn(Labelled::Event(event), &self.member(from), &self.member(to))
    }

    /// The event edge of a moment.
    pub fn happened(&self, edge: EventEdge) -> String {
        self.edge(edge.label(self.terms), edge.from, edge.to)
    }

    /// What a line of requests.tsv asks for.
    pub fn request(&self, request: Request) -> String {
        match request {
            Request::Ask { event, from, to } => self.event(event, from, to),
            Request::Malformed => "not a request line".to_string(),
        }
    }

    /// Why a request was refused.
    pub fn refusal(&self, request: Request, number: u16) -> String {
        let Terms { events, members, .. } = *self.terms;
        match (request, number) {
            (Request::Malformed, _) => {
                "a request is `R`, event, from and to, separated by tabs, with a line feed at its end"
                    .to_string()
            }
            (Request::Ask { event, .. }, 9) if event >= events => {
                format!("there is no event {event}: events are 0 to {}", events - 1)
            }
            (Request::Ask { from, to, .. }, 9) => {
                let wrong = if from >= members { from } else { to };
                format!("there is no member {wrong}: members are 0 to {}", members - 1)
            }
            (_, number) => format!("refused with {number}"),
        }
    }
}

/// `granted`, `denied` or `refused`.
pub fn answered(verdict: Verdict) -> &'static str {
    match verdict {
        Verdict::Grant => "granted",
        Verdict::Deny => "denied",
        Verdict::Refused(_) => "refused",
    }
}
