//! What a walk over the formulas of a source finds, each place once.

use super::ast::{Source, Span};
use super::mistake::Mistake;

pub struct Seeker<'a> {
    pub source: &'a Source,
    pub text: &'a str,
    found: Vec<Mistake>,
}

impl<'a> Seeker<'a> {
    pub fn new(source: &'a Source, text: &'a str) -> Seeker<'a> {
        Seeker { source, text, found: Vec::new() }
    }

    pub fn warn(&mut self, span: Span, message: String, advice: String) {
        self.found.push(Mistake::new(span, message).advise(advice));
    }

    /// The words of the text that a formula is written in.
    pub fn words(&self, span: Span) -> String {
        span.words(self.text)
    }

    /// What was found, by place. Events that are declared together have one policy.
    pub fn found(mut self) -> Vec<Mistake> {
        self.found.sort_by_key(|warning| warning.span.start);
        self.found.dedup_by(|one, other| {
            one.span.start == other.span.start && one.message == other.message
        });
        self.found
    }
}
