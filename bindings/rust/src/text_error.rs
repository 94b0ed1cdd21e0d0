//! Why a text was refused, and where.

use crate::Refusal;
use alloc::format;
use alloc::string::String;
use core::error::Error;
use core::fmt;

/// A refused terms text: why, and the first faulty line.
///
/// ```
/// let error = cuckooormolu::Monitor::read(b"M\t3\nL\t0\t1\nF\t0\tnot\t0\t0\n").unwrap_err();
/// assert_eq!(error.refusal().number(), 3);
/// assert_eq!(error.line(), 3);
/// assert_eq!(
///     error.to_string(),
///     "line 3: operand not lower than its entry (refusal 3)\n  3 | F\\t0\\tnot\\t0\\t0"
/// );
/// ```
#[derive(Clone, Debug, PartialEq, Eq)]
pub struct TextError {
    refusal: Refusal,
    line: usize,
    shown: Option<String>,
}

impl TextError {
    pub(crate) fn new(refusal: Refusal, line: usize, text: &[u8]) -> TextError {
        let found = text.split_inclusive(|&byte| byte == b'\n').nth(line.wrapping_sub(1));
        let shown = found.map(|line| {
            let body = line.strip_suffix(b"\n").unwrap_or(line);
            let ending = if body.len() == line.len() { " (no line feed)" } else { "" };
            format!("{}{ending}", body.escape_ascii())
        });
        TextError { refusal, line, shown }
    }

    /// Why the text is refused.
    pub fn refusal(&self) -> Refusal {
        self.refusal
    }

    /// The number of the first faulty line, from 1. Where the text ends too
    /// soon it is that of the line after the last.
    pub fn line(&self) -> usize {
        self.line
    }

    /// The faulty line, its tabs and other unprintable bytes escaped; none
    /// where the text ends too soon.
    pub fn shown(&self) -> Option<&str> {
        self.shown.as_deref()
    }
}

impl fmt::Display for TextError {
    fn fmt(&self, out: &mut fmt::Formatter<'_>) -> fmt::Result {
        write!(out, "line {}: {}", self.line, self.refusal)?;
        match &self.shown {
            Some(shown) => write!(out, "\n  {} | {shown}", self.line),
            None => write!(out, "\n  {} | (the end of the text)", self.line),
        }
    }
}

impl Error for TextError {
    fn source(&self) -> Option<&(dyn Error + 'static)> {
        Some(&self.refusal)
    }
}
