//! Reads a text of the old or the stored form.

mod lines;

use super::*;
use lines::Reader;

/// Reads a whole text: what it says, or the first faulty line with the lowest
/// number that fits it. Only where no line is faulty are the tables looked at.
pub fn read(text: &[u8]) -> Result<File, Refusal> {
    let mut reader = Reader::default();
    let mut rest = text;
    let mut line = 0;
    while !rest.is_empty() {
        line += 1;
        let refuse = |number| Refusal { number, line };
        let end = rest.iter().position(|&byte| byte == b'\n');
        let end = end.ok_or(refuse(1))?;
        reader.line(&rest[..end]).map_err(refuse)?;
        rest = &rest[end + 1..];
    }
    if !reader.complete() {
        return Err(Refusal { number: 1, line: line + 1 });
    }
    match reader.partly_filled() {
        Some(line) => Err(Refusal { number: 11, line }),
        None => Ok(reader.file()),
    }
}

/// Reads a text of the old form. Its first line is no S line, a kind that this
/// form doesn't know.
pub fn read_old(text: &[u8]) -> Result<Terms, Refusal> {
    let first = text.split(|&byte| byte == b'\n').next().unwrap_or_default();
    if fields(first)[0] == b"S" {
        return Err(Refusal { number: 1, line: 1 });
    }
    read(text).map(|file| file.terms)
}

/// Reads a number: 1 to 5 decimal digits, leading zeros among them.
pub fn number(field: &[u8]) -> Option<usize> {
    let form = (1..=5).contains(&field.len()) && field.iter().all(u8::is_ascii_digit);
    form.then(|| field.iter().fold(0, |sum, digit| sum * 10 + usize::from(digit - b'0')))
}

/// The fields of a line, separated by tabs.
pub fn fields(line: &[u8]) -> Vec<&[u8]> {
    line.split(|&byte| byte == b'\t').collect()
}
