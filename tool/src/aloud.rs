//! Every policy and effect as a sentence about past events.
//!
//! * `form`: entries as the shapes that people write
//! * `clause`, `resolve`: the same with everybody named of whom something is said
//! * `labels`, `wording`, `verbs`, `grammar`: how relations and events are said
//! * `render`, `words`: clauses in words, in a line or as an outline
//! * `apart`: definitions, and clauses by number
//! * `stored`: what a stored file remembers; `told`: sentences about single members
//! * `tables`: what the past-time entries say
//! * `quote`: the sentences as a document quotes them

mod apart;
pub mod clause;
mod define;
pub mod form;
mod grammar;
pub mod labels;
pub mod quote;
mod render;
pub mod resolve;
mod stored;
pub mod tables;
pub mod told;
pub(crate) mod verbs;
mod wording;
mod words;

use crate::names::Names;
use clause::{Clause, Who};
use form::Forms;
use grammar::Time;
use keeper::record::Record;
use keeper::terms::{Effect, Terms};
use labels::{Labels, Manner};
use render::Speaker;
pub(crate) use words::listed;
use words::{full, letters, Words};

/// Lines of text are broken before this column.
const WIDTH: usize = 110;

/// What is said of an event that is kept.
const KEPT: &str = "If you are denied, the attempt is remembered too.";

/// A sentence; what is under its first line, if anything, is an outline.
#[derive(Clone, Debug, PartialEq, Eq)]
pub struct Sentence {
    /// Each line with its depth in the outline.
    pub lines: Vec<(usize, String)>,
}

impl Sentence {
    fn of(before: &str, words: Words) -> Sentence {
        let words = words.after(before);
        let mut lines = Vec::new();
        let ends = if matches!(words, Words::Line { .. }) { "." } else { "" };
        outline(words, 0, &mut lines);
        let text: Vec<String> = lines.iter().map(|(_, line)| line.clone()).collect();
        let text = letters(&format!("{}{ends}", text.join("\n")));
        let depths = lines.iter().map(|(depth, _)| *depth);
        Sentence { lines: depths.zip(text.lines().map(str::to_string)).collect() }
    }

    fn plain(text: String) -> Sentence {
        Sentence { lines: vec![(0, text)] }
    }

    /// The sentence for a program: a line feed and indentation for each part.
    pub fn text(&self) -> String {
        let shown = |(depth, line): &(usize, String)| format!("{}{line}", bullet(*depth));
        self.lines.iter().map(shown).collect::<Vec<_>>().join("\n")
    }

    /// The sentence for people: long lines are broken.
    pub fn wrapped(&self) -> String {
        let mut text = String::new();
        for (depth, line) in &self.lines {
            let indent = " ".repeat(2 * depth);
            let mut row = bullet(*depth);
            let mut fresh = true;
            for word in line.split(' ') {
                if !fresh && row.chars().count() + 1 + word.chars().count() > WIDTH {
                    text.push_str(&row);
                    text.push('\n');
                    row = indent.clone();
                    fresh = true;
                }
                row.push_str(if fresh { "" } else { " " });
                row.push_str(word);
                fresh = false;
            }
            text.push_str(&row);
            text.push('\n');
        }
        text
    }
}

fn bullet(depth: usize) -> String {
    match depth {
        0 => String::new(),
        depth => format!("{}- ", " ".repeat(2 * (depth - 1))),
    }
}

fn outline(words: Words, depth: usize, lines: &mut Vec<(usize, String)>) {
    match words {
        Words::Line { subject, text, .. } => lines.push((depth, full(subject, &text))),
        Words::Outline { head, parts } => {
            lines.push((depth, format!("{head}:")));
            for part in parts {
                outline(part, depth + 1, lines);
            }
        }
    }
}

/// What is read aloud of an event.
#[derive(Clone, Debug)]
pub struct Spoken {
    pub event: usize,
    pub policy: Sentence,
    pub effects: Option<Sentence>,
    /// That a denied try makes a moment, where it does.
    pub kept: Option<Sentence>,
}

/// All that is read aloud of some terms.
#[derive(Clone, Debug)]
pub struct Aloud {
    pub events: Vec<Spoken>,
    /// What a stored file remembers.
    pub stored: Option<Sentence>,
    /// What is said apart: definitions, each once, and clauses by number.
    pub clauses: Vec<Sentence>,
    /// The number of each of these.
    pub numbers: Vec<usize>,
}

impl Aloud {
    /// Reads terms aloud.
    pub fn of(terms: &Terms, names: &Names) -> Aloud {
        Aloud::with(terms, names, None)
    }

    /// Reads the terms of a record aloud, and what they were stored with.
    pub fn of_record(record: &Record, names: &Names) -> Aloud {
        Aloud::with(record.terms(), names, Some(record))
    }

    fn with(terms: &Terms, names: &Names, record: Option<&Record>) -> Aloud {
        let (forms, labels) = (Forms::new(terms, names), Labels::new(terms, names));
        let mut speaker = Speaker { labels: &labels, names, apart: Vec::new(), numbered: true };
        let mut events = Vec::new();
        for (event, &entry) in terms.policies.iter().enumerate() {
            let clause = resolve::of_policy(&forms, entry);
            let done = format!("{} the target", labels.may(terms.relations + event));
            let policy = match clause {
                Clause::Constant(true) => Sentence::plain(format!("You may always {done}.")),
                Clause::Constant(false) => Sentence::plain(format!("You may never {done}.")),
                clause => {
                    let words = speaker.say(&clause, Time::Now, None);
                    Sentence::of(&format!("You may {done} if"), words)
                }
            };
            let effects = effects(&speaker, &terms.effects[event]);
            let kept = terms.kept.contains(&event).then(|| Sentence::plain(KEPT.to_string()));
            events.push(Spoken { event, policy, effects, kept });
        }
        let stored = record.and_then(|record| stored::stored(record, &forms, &mut speaker, names));
        let (numbers, clauses) = apart::told(&forms, &mut speaker).into_iter().unzip();
        Aloud { events, stored, clauses, numbers }
    }

    /// The text for people: a paragraph for each event.
    pub fn text(&self) -> String {
        let mut paragraphs = Vec::new();
        for spoken in &self.events {
            let mut text = spoken.policy.wrapped();
            for more in spoken.effects.iter().chain(&spoken.kept) {
                text.push_str(&more.wrapped());
            }
            paragraphs.push(text);
        }
        paragraphs.extend(self.stored.iter().chain(&self.clauses).map(Sentence::wrapped));
        paragraphs.join("\n")
    }
}

/// What a grant changes: "From then on you own the target."
fn effects(speaker: &Speaker, effects: &[Effect]) -> Option<Sentence> {
    let said = |effect: &Effect| {
        let ends = (Who::You, Who::Target);
        let (from, to) = if effect.back { (ends.1, ends.0) } else { ends };
        let edge = speaker.edge(effect.relation, from, to, Time::Now, Manner::Plain, None);
        let Words::Line { subject, text, .. } = edge else { return String::new() };
        let text = match (effect.add, text.split_once(' ')) {
            (true, _) => text,
            (false, Some((be @ ("are" | "is"), what))) => format!("{be} no longer {what}"),
            (false, _) => format!("no longer {text}"),
        };
        full(subject, &text)
    };
    let said: Vec<String> = effects.iter().map(said).collect();
    match &said[..] {
        [] => None,
        [single] => Some(Sentence::plain(format!("From then on {single}."))),
        several => {
            let order = "From then on, in this order:";
            Some(Sentence::plain(format!("{order} {}.", several.join("; "))))
        }
    }
}
