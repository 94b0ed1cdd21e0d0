//! What is wrong with a source, shown at its place.

use super::ast::{Name, Span};
use crate::json::Json;
use std::fmt;

/// A mistake: where it is and what it is.
#[derive(Clone, Debug)]
pub struct Mistake {
    pub span: Span,
    pub message: String,
    /// What could be done about it, on a line of its own.
    pub advice: Option<String>,
    /// The name that nothing is called by, where that is the mistake.
    pub unknown: Option<String>,
}

impl Mistake {
    pub fn new(span: Span, message: impl Into<String>) -> Mistake {
        Mistake { span, message: message.into(), advice: None, unknown: None }
    }

    /// The mistake that nothing is called by a name.
    pub fn unknown(name: &Name, message: impl Into<String>) -> Mistake {
        Mistake { unknown: Some(name.text.clone()), ..Mistake::new(name.span, message) }
    }

    pub fn advise(mut self, advice: impl Into<String>) -> Mistake {
        self.advice = Some(advice.into());
        self
    }

    /// Line and column of the mistake, from 1.
    pub fn place(&self, text: &str) -> (usize, usize) {
        let before = &text[..self.span.start.min(text.len())];
        let line = before.matches('\n').count() + 1;
        let column = before.rsplit('\n').next().unwrap_or("").chars().count() + 1;
        (line, column)
    }

    /// What it is and where, as `--json` prints it; `key` says what sort it is.
    pub fn json(&self, key: &'static str, file: &str, text: &str) -> Json {
        let (line, column) = self.place(text);
        Json::Object(vec![
            (key, self.message.as_str().into()),
            ("file", file.into()),
            ("line", line.into()),
            ("column", column.into()),
            ("advice", self.advice.clone().into()),
        ])
    }

    /// File, line, column, the message, the line with a caret under the place,
    /// and the advice.
    pub fn render(&self, file: &str, text: &str) -> String {
        let (line, column) = self.place(text);
        let shown = text.lines().nth(line - 1).unwrap_or("");
        let number = line.to_string();
        let margin = " ".repeat(number.len());
        let stretch = text.get(self.span.start..self.span.end).unwrap_or("");
        let marked = stretch.lines().next().unwrap_or("").chars().count();
        let (shown, before, marked) = cut(shown, column - 1, marked.max(1));
        // Tabs stay tabs, so that the caret stands under its place.
        let blank = |letter: char| if letter == '\t' { '\t' } else { ' ' };
        let indent: String = shown.chars().take(before).map(blank).collect();
        let carets = "^".repeat(marked);
        let shown: String = shown.chars().map(seen).collect();
        let mut said = format!(
            "{file}:{line}:{column}: {}\n {number} | {shown}\n {margin} | {indent}{carets}\n",
            self.message
        );
        if let Some(advice) = &self.advice {
            said.push_str(&format!(" {margin} = {advice}\n"));
        }
        said
    }
}

/// A character that can be seen.
fn seen(letter: char) -> char {
    match letter {
        '\t' => letter,
        letter if letter.is_control() => '␦',
        letter => letter,
    }
}

/// So much of a long line is shown, and so much of it before the place.
const WIDEST: usize = 100;
const BEFORE: usize = 40;

/// A line cut to a window around a place: the window, how far the place is in
/// it, and how much of the place is.
pub fn cut(line: &str, place: usize, marked: usize) -> (String, usize, usize) {
    let letters: Vec<char> = line.chars().collect();
    if letters.len() <= WIDEST {
        return (line.to_string(), place, marked);
    }
    let first = place.saturating_sub(BEFORE).min(letters.len() - WIDEST.min(letters.len()));
    let end = (first + WIDEST).min(letters.len());
    let mut shown: String = letters[first..end].iter().collect();
    if end < letters.len() {
        shown.push('…');
    }
    if first == 0 {
        return (shown, place, marked.min(end - place.min(end)).max(1));
    }
    (format!("…{shown}"), place - first + 1, marked.min(end.saturating_sub(place)).max(1))
}

/// A source that can't be compiled, with all that is wrong with it.
#[derive(Clone, Debug)]
pub struct Mistaken {
    pub file: String,
    pub text: String,
    pub mistakes: Vec<Mistake>,
}

impl Mistaken {
    /// One object for each mistake, as `--json` prints them.
    pub fn json(&self) -> Vec<Json> {
        self.mistakes.iter().map(|mistake| mistake.json("error", &self.file, &self.text)).collect()
    }
}

impl fmt::Display for Mistaken {
    fn fmt(&self, out: &mut fmt::Formatter<'_>) -> fmt::Result {
        let shown = self.mistakes.iter().map(|mistake| mistake.render(&self.file, &self.text));
        out.write_str(shown.collect::<Vec<_>>().join("\n").trim_end())
    }
}

#[cfg(test)]
mod tests {
    use super::*;

    #[test]
    fn rendered() {
        let text = "members a\n\tevnt b\n";
        let mistake = Mistake::new(Span { start: 11, end: 15 }, "no").advise("say event");
        let shown = "f:2:2: no\n 2 | \tevnt b\n   | \t^^^^\n   = say event\n";
        assert_eq!(mistake.render("f", text), shown);
    }

    #[test]
    fn long_lines_are_cut() {
        let text = format!("{}x{}", "a ".repeat(100), " b".repeat(100));
        let shown = Mistake::new(Span { start: 200, end: 201 }, "no").render("f", &text);
        let lines: Vec<&str> = shown.lines().collect();
        assert!(lines[1].starts_with(" 1 | …") && lines[1].ends_with('…'), "{shown}");
        let place = lines[2].chars().position(|letter| letter == '^').unwrap();
        assert_eq!(lines[1].chars().nth(place), Some('x'), "{shown}");
        assert!(lines[1].chars().count() < 110, "{shown}");
    }
}
