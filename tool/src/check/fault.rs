//! A cause with its place in the file, and how both are shown.

use crate::source::mistake::cut;
use std::ops::Range;

/// Why a terms text is refused.
#[derive(Clone, Debug, PartialEq, Eq)]
pub struct Fault {
    /// The refusal's number.
    pub number: u16,
    /// The line from 1; 0 where no line is at fault.
    pub line: usize,
    /// The bytes of the line that are at fault.
    pub place: Range<usize>,
    pub what: String,
    /// What would be right; may be empty.
    pub right: String,
}

impl Fault {
    /// A fault in a line that is yet to be numbered.
    pub fn new(number: u16, place: Range<usize>, what: impl Into<String>) -> Fault {
        Fault { number, line: 0, place, what: what.into(), right: String::new() }
    }

    pub fn without_line(number: u16, what: String, right: String) -> Fault {
        Fault { number, line: 0, place: 0..0, what, right }
    }

    /// With what would be right.
    pub fn right(self, right: impl Into<String>) -> Fault {
        Fault { right: right.into(), ..self }
    }

    /// The faulty line, or what stands around the place in a long one, with the place
    /// marked under it; nothing where the text ends too soon.
    pub fn shown(&self, text: &[u8]) -> Option<[String; 2]> {
        let line = self.line.checked_sub(1)?;
        let line = text.split_inclusive(|&byte| byte == b'\n').nth(line)?;
        let line = line.strip_suffix(b"\n").unwrap_or(line);
        let start = self.place.start.min(line.len());
        let end = self.place.end.clamp(start, line.len());
        let before = visible(&line[..start]).chars().count();
        let marked = visible(&line[start..end]).chars().count().max(1);
        let (shown, before, marked) = cut(&visible(line), before, marked);
        Some([shown, format!("{}{}", " ".repeat(before), "^".repeat(marked))])
    }
}

/// Bytes made visible: tabs and carriage returns as arrows, others escaped.
pub fn visible(bytes: &[u8]) -> String {
    const BYTE_ORDER_MARK: char = '\u{feff}';
    let mut shown = String::new();
    for chunk in bytes.utf8_chunks() {
        for letter in chunk.valid().chars() {
            match letter {
                '\t' => shown.push('→'),
                '\r' => shown.push('↵'),
                BYTE_ORDER_MARK => shown.push_str("\\u{feff}"),
                letter if letter.is_control() => shown.extend(letter.escape_unicode()),
                letter => shown.push(letter),
            }
        }
        for byte in chunk.invalid() {
            shown.push_str(&format!("\\x{byte:02x}"));
        }
    }
    shown
}
