//! What a line is made of: its bytes, its fields, its numbers.

use super::fault::{visible, Fault};
use keeper::terms::read;
use std::ops::Range;

/// The refusal of whatever isn't the form.
pub const FORM: u16 = 1;

/// So much of a field is shown.
const WIDEST: usize = 60;

const BYTE_ORDER_MARK: &[u8] = b"\xef\xbb\xbf";

/// One field of a line.
#[derive(Clone, Copy, Debug)]
pub struct Field<'a> {
    pub bytes: &'a [u8],
    start: usize,
}

impl Field<'_> {
    pub fn place(&self) -> Range<usize> {
        self.start..self.start + self.bytes.len()
    }

    /// The field as it is shown in a message: the beginning of a long one.
    pub fn shown(&self) -> String {
        let shown = visible(self.bytes);
        match shown.char_indices().nth(WIDEST) {
            Some((end, _)) => format!("{}…", &shown[..end]),
            None => shown,
        }
    }
}

/// The fields of a line, separated by tabs.
pub fn fields(line: &[u8]) -> Vec<Field<'_>> {
    let mut start = 0;
    let split = line.split(|&byte| byte == b'\t');
    let field = |bytes: &'_ [u8]| {
        let place = start;
        start += bytes.len() + 1;
        (place, bytes.len())
    };
    let places: Vec<(usize, usize)> = split.map(field).collect();
    places
        .into_iter()
        .map(|(start, length)| Field { bytes: &line[start..start + length], start })
        .collect()
}

/// A fault of the line as a whole: its ending, its beginning, its gaps.
pub fn form(line: &[u8], first: bool) -> Option<Fault> {
    let whole = 0..line.len();
    let fault = |place: Range<usize>, what: &str| Some(Fault::new(FORM, place, what));
    if first && line.starts_with(BYTE_ORDER_MARK) {
        return fault(0..BYTE_ORDER_MARK.len(), "a byte order mark before the first line")
            .map(|fault| fault.right("save the file as UTF-8 without a byte order mark"));
    }
    if first && (line.starts_with(b"\xff\xfe") || line.starts_with(b"\xfe\xff")) {
        return fault(0..2, "a UTF-16 text").map(|fault| fault.right("save the file as UTF-8"));
    }
    if line.ends_with(b"\r") {
        return fault(line.len() - 1..line.len(), "a carriage return before the line feed")
            .map(|fault| fault.right("let lines end with a line feed alone (Unix line endings)"));
    }
    if line.iter().all(|byte| b" \t".contains(byte)) {
        let what = if line.is_empty() { "a blank line" } else { "a line of spaces or tabs only" };
        return fault(whole, what).map(|fault| fault.right("delete it"));
    }
    let comment = [&b"#"[..], b"//", b";", b"--", b"%", b"/*"];
    if comment.iter().any(|start| line.trim_ascii_start().starts_with(start)) {
        return fault(whole, "a comment: comments are not part of the format")
            .map(|fault| fault.right("delete it; the source language has comments"));
    }
    let spaced = |bytes: &[u8]| bytes.split(|&byte| byte == b' ').filter(|f| !f.is_empty()).count();
    if !line.contains(&b'\t') && spaced(line) > 1 {
        let what = format!("{} fields separated by spaces", spaced(line));
        return Some(Fault::new(FORM, whole, what).right("use tabs: one between two fields"));
    }
    let space = line.iter().position(|&byte| byte == b' ')?;
    let end = space + line[space..].iter().take_while(|&&byte| byte == b' ').count();
    let near_tab = |place: Option<&u8>| place.is_none_or(|&byte| byte == b'\t');
    let beside = near_tab(space.checked_sub(1).and_then(|at| line.get(at)));
    if beside || near_tab(line.get(end)) {
        return fault(space..end, "a space beside a field")
            .map(|fault| fault.right("part fields by exactly one tab and nothing else"));
    }
    fault(space..end, "a space between two fields").map(|fault| fault.right("use a tab"))
}

/// The number in a field, or why it is none.
pub fn number(field: Field) -> Result<usize, Fault> {
    read::number(field.bytes).ok_or_else(|| {
        let (what, right) = no_number(field);
        Fault::new(FORM, field.place(), what).right(right)
    })
}

fn no_number(field: Field) -> (String, String) {
    let shown = field.shown();
    let digits = |bytes: &[u8]| !bytes.is_empty() && bytes.iter().all(u8::is_ascii_digit);
    match field.bytes {
        [] => ("an empty field where a number is due".into(), "two tabs stand side by side".into()),
        [b'-', rest @ ..] if digits(rest) => {
            (format!("`{shown}` is below 0"), "numbers are 0 and up, without a sign".into())
        }
        [b'+', rest @ ..] if digits(rest) => {
            (format!("`{shown}` has a sign"), "numbers are written without one".into())
        }
        bytes if digits(bytes) => {
            let zeros = if bytes[0] == b'0' { ", leading zeros among them" } else { "" };
            let count = if bytes.len() == 6 { "six".into() } else { bytes.len().to_string() };
            (format!("`{shown}` has {count} digits"), format!("at most five{zeros}"))
        }
        _ => (
            format!("`{shown}` where a number is due"),
            "numbers are decimal, of one to five digits".into(),
        ),
    }
}

/// A field is missing or one too many: which, by the names of those due.
pub fn counted(fields: &[Field], due: &[&str], length: usize) -> Result<(), Fault> {
    let given = fields.len();
    if given == due.len() {
        return Ok(());
    }
    let right = format!("due are {}: {}", due.len(), due.join(", "));
    if let Some(empty) = fields.iter().position(|field| field.bytes.is_empty()) {
        let (place, what) = match empty + 1 == given {
            true => (fields[empty].place().start - 1, "a tab at the end of the line"),
            false => (fields[empty].place().start, "two tabs side by side"),
        };
        return Err(Fault::new(FORM, place..place + 1, what).right(right));
    }
    let fields_given = if given == 1 { "1 field".to_string() } else { format!("{given} fields") };
    Err(match due.get(given) {
        Some(missing) => {
            let what = format!("{fields_given}: field {}, {missing}, is missing", given + 1);
            Fault::new(FORM, length..length, what).right(right)
        }
        None => {
            let what = format!("{fields_given}: too many");
            Fault::new(FORM, fields[due.len()].place().start..length, what).right(right)
        }
    })
}
