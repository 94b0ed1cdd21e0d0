//! A text cut into statements: one a line, or more where a line ends with a comma.

use crate::source::ast::Span;

/// A word, or a comma. A name of several words is put in double quotes.
#[derive(Clone, Copy, Debug, PartialEq)]
pub struct Word<'a> {
    pub text: &'a str,
    pub span: Span,
    /// Whether it stands in quotes, so that it is a name whatever it says.
    pub quoted: bool,
}

impl Word<'_> {
    pub fn is(&self, word: &str) -> bool {
        !self.quoted && self.text == word
    }
}

/// The statements of a text. `#` begins a comment, but not in quotes.
pub fn statements(text: &str) -> Vec<Vec<Word<'_>>> {
    let mut found: Vec<Vec<Word>> = Vec::new();
    let mut start = 0;
    for line in text.split_inclusive('\n') {
        let words = words(line, start);
        start += line.len();
        match found.last_mut() {
            Some(before) if before.last().is_some_and(|word| word.is(",")) => before.extend(words),
            _ if words.is_empty() => {}
            _ => found.push(words),
        }
    }
    found
}

/// The words of a line that begins at a place of the text.
fn words(line: &str, start: usize) -> Vec<Word<'_>> {
    let mut found = Vec::new();
    let mut place = 0;
    while let Some(letter) = line[place..].chars().next() {
        let rest = &line[place..];
        let (skipped, length, quoted) = match letter {
            '#' => break,
            ',' => (0, 1, false),
            '"' => (1, rest[1..].find('"').unwrap_or(rest[1..].trim_end().len()), true),
            // Some editors begin a file with a byte order mark.
            letter if letter.is_whitespace() || letter == '\u{feff}' => {
                place += letter.len_utf8();
                continue;
            }
            _ => {
                let ends = |letter: char| letter.is_whitespace() || ",#\"".contains(letter);
                (0, rest.find(ends).unwrap_or(rest.len()), false)
            }
        };
        let first = place + skipped;
        let span = Span { start: start + first, end: start + first + length };
        found.push(Word { text: &line[first..first + length], span, quoted });
        let closed = quoted && line[first + length..].starts_with('"');
        place = first + length + usize::from(closed);
    }
    found
}

#[cfg(test)]
mod tests {
    use super::*;

    #[test]
    fn cut() {
        let text = "\u{feff}test a # b\n\ngiven x,\n  \"the # saw\",y\n\"open\n";
        let found = statements(text);
        let told: Vec<Vec<&str>> =
            found.iter().map(|words| words.iter().map(|word| word.text).collect()).collect();
        let wanted: [&[&str]; 3] =
            [&["test", "a"], &["given", "x", ",", "the # saw", ",", "y"], &["open"]];
        assert_eq!(told, wanted);
        for word in found.iter().flatten() {
            assert_eq!(&text[word.span.start..word.span.end], word.text);
        }
    }
}
