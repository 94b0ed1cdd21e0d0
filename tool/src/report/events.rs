//! The lines of events in a picture: what just happened, what was asked and denied, and
//! what reasons tell of the past.

use super::cited::Cited;
use crate::words::Words;
use keeper::record::Graph;
use std::collections::BTreeMap;

/// So many past events are drawn in one picture, the last ones, and so many denied requests.
const MOST_PAST: usize = 6;
const MOST_DENIED: usize = 4;

/// What an event's line stands for.
#[derive(Clone, Copy, Debug, PartialEq, Eq, PartialOrd, Ord)]
pub enum Look {
    /// The event that made the moment.
    Now,
    /// The denied try that made the moment.
    NowDenied,
    /// A request that was denied at the moment.
    Denied,
    /// An event of the past.
    Past,
}

impl Look {
    pub fn line(self) -> &'static str {
        match self {
            Look::Now => "event-edge",
            Look::NowDenied => "event-edge denied-edge",
            Look::Denied => "asked-edge",
            Look::Past => "past-edge",
        }
    }

    /// The class of the name on the line.
    pub fn name(self) -> &'static str {
        match self {
            Look::Now | Look::NowDenied => "event-name",
            Look::Denied => "event-name asked-name",
            Look::Past => "event-name past-name",
        }
    }

    /// The end of the line, as `heads` has it.
    pub fn head(self) -> &'static str {
        match self {
            Look::Now | Look::NowDenied => "arrow",
            Look::Denied => "crossed",
            Look::Past => "arrow-past",
        }
    }

    /// Whether it made the moment.
    pub fn is_now(self) -> bool {
        matches!(self, Look::Now | Look::NowDenied)
    }
}

/// An event from one member to another, as it is drawn.
pub struct EventLine {
    pub from: usize,
    pub to: usize,
    pub name: String,
    pub look: Look,
    /// Lines between the same two have different ones.
    pub slot: usize,
}

/// The lines of a moment, what just happened first.
pub fn lines(words: &Words, graphs: &[Graph], moment: usize, cited: &Cited) -> Vec<EventLine> {
    let terms = words.terms;
    let label = |label: usize| words.names.label(terms, label);
    let mut lines = Vec::new();
    if let Some(edge) = graphs[moment].event {
        let look = if edge.denied { Look::NowDenied } else { Look::Now };
        lines.push((look, edge.from, edge.to, label(edge.label(terms))));
    }
    for &(event, from, to) in cited.denied.iter().take(MOST_DENIED) {
        lines.push((Look::Denied, from, to, words.names.event(event)));
    }
    // The same event at several moments is one line.
    let mut past: BTreeMap<(usize, usize, usize), Vec<String>> = BTreeMap::new();
    for &at in cited.past.range(..moment).rev().take(MOST_PAST) {
        if let Some(edge) = graphs[at].event {
            past.entry((edge.label(terms), edge.from, edge.to))
                .or_default()
                .insert(0, at.to_string());
        }
    }
    for ((number, from, to), moments) in past {
        lines.push((Look::Past, from, to, format!("{}, {}", label(number), moments.join(", "))));
    }
    let mut between: BTreeMap<(usize, usize), usize> = BTreeMap::new();
    let line = |(look, from, to, name): (Look, usize, usize, String)| {
        let count = between.entry((from.min(to), from.max(to))).or_default();
        *count += 1;
        EventLine { from, to, name, look, slot: *count - 1 }
    };
    lines.into_iter().map(line).collect()
}
