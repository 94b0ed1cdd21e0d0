//! Padding, and damage to the lines, fields and bytes of a text.

use super::Rng;
use crate::terms::read::number;
use crate::terms::Terms;

pub(super) type Lines = Vec<Vec<Vec<u8>>>;

/// The text as lines of fields.
pub(super) fn split(text: &[u8]) -> Lines {
    let body = text.strip_suffix(b"\n").unwrap_or(text);
    let lines = body.split(|&byte| byte == b'\n');
    lines.map(|line| line.split(|&byte| byte == b'\t').map(<[u8]>::to_vec).collect()).collect()
}

pub(super) fn join(lines: &Lines) -> Vec<u8> {
    let mut text = Vec::new();
    for line in lines {
        text.extend(line.join(&b'\t'));
        text.push(b'\n');
    }
    text
}

/// The places of the lines of a kind.
pub(super) fn places(lines: &Lines, kind: &[u8]) -> Vec<usize> {
    (0..lines.len()).filter(|&place| lines[place][0] == kind).collect()
}

/// One of these places, or any.
pub(super) fn some(rng: &mut Rng, places: &[usize], count: usize) -> usize {
    match places {
        [] => rng.below(count),
        places => rng.pick(places),
    }
}

/// A line of a kind and numbers.
pub(super) fn line(kind: &str, numbers: &[usize]) -> Vec<Vec<u8>> {
    let numbers = numbers.iter().map(|number| number.to_string().into_bytes());
    std::iter::once(kind.as_bytes().to_vec()).chain(numbers).collect()
}

/// Pads number fields, up to five digits: few of them, or all.
pub fn pad(rng: &mut Rng, text: &mut Vec<u8>) {
    let mut lines = split(text);
    let share = rng.pick(&[4, 30, 100]);
    for field in lines.iter_mut().flatten() {
        if number(field).is_some() && field.len() < 5 && rng.percent(share) {
            let zeros = rng.between(1, 5 - field.len());
            field.splice(0..0, vec![b'0'; zeros]);
        }
    }
    if !text.is_empty() {
        *text = join(&lines);
    }
}

/// Puts another number, an ill-formed number or another word into one field.
pub fn damage_field(rng: &mut Rng, terms: &Terms, text: &mut Vec<u8>) {
    let mut lines = split(text);
    let index = rng.below(lines.len());
    let line = &mut lines[index];
    let field = rng.below(line.len());
    let old = String::from_utf8_lossy(&line[field]).into_owned();
    let new = match (field, old.parse::<usize>()) {
        (0, _) => other_kind(rng),
        (_, Ok(number)) if rng.percent(65) => other_number(rng, terms, number).to_string(),
        (_, Ok(_)) => ill_formed(rng, &old),
        (_, Err(_)) => other_word(rng, &old),
    };
    line[field] = new.into_bytes();
    *text = join(&lines);
}

fn other_kind(rng: &mut Rng) -> String {
    let kinds = [
        "M", "L", "F", "P", "K", "E", "G", "S", "T", "V", "R", "X", "m", "f", "k", "MM", "", " M",
        "F ",
    ];
    rng.pick(&kinds).to_string()
}

fn other_number(rng: &mut Rng, terms: &Terms, number: usize) -> usize {
    let own = [number + 1, number.saturating_sub(1), number * 2];
    let of_terms = [
        terms.members,
        terms.relations,
        terms.relations + terms.events,
        terms.labels(),
        terms.events,
        terms.events + 16,
        terms.entries.len(),
    ];
    let fixed = [0, 1, 2, 15, 16, 17, 31, 32, 63, 64, 65, 255, 256, 4_096, 65_535, 65_536, 99_999];
    match rng.below(3) {
        0 => rng.pick(&own),
        1 => rng.pick(&of_terms),
        _ => rng.pick(&fixed),
    }
}

fn ill_formed(rng: &mut Rng, old: &str) -> String {
    match rng.below(12) {
        0 => format!("{old:0>6}"),
        1 => format!("+{old}"),
        2 => format!("-{old}"),
        3 => String::new(),
        4 => format!(" {old}"),
        5 => format!("{old} "),
        6 => format!("{old}\r"),
        7 => format!("{old}x"),
        8 => "100000".to_string(),
        9 => "000000".to_string(),
        10 => format!("{old}.0"),
        _ => "0x1".to_string(),
    }
}

fn other_word(rng: &mut Rng, old: &str) -> String {
    let words = [
        "top", "var", "not", "or", "out", "in", "prev", "since", "bind", "at", "reach", "many",
        "add", "del", "fwd", "back", "and", "once", "0", "",
    ];
    match rng.below(6) {
        0 => format!("{old}x"),
        1 => old.to_uppercase(),
        2 => old.chars().skip(1).collect(),
        _ => rng.pick(&words).to_string(),
    }
}

/// Changes the lines themselves: their order, number, fields or endings.
pub fn damage_line(rng: &mut Rng, text: &mut Vec<u8>) {
    let mut lines = split(text);
    let index = rng.below(lines.len());
    let other = rng.below(lines.len());
    match rng.below(14) {
        0 => lines.swap(index, other),
        1 if index > 0 => lines.swap(index, index - 1),
        2 => lines.insert(index, lines[index].clone()),
        3 => {
            let line = lines.remove(index);
            lines.insert(other, line);
        }
        4 => {
            lines.remove(index);
        }
        5 => lines.truncate(index),
        6 => lines.insert(index, vec![Vec::new()]),
        7 => lines[index].push(rng.pick(&["0", "", "1", " "]).into()),
        8 => {
            lines[index].pop();
        }
        9 => {
            let field = rng.below(lines[index].len());
            lines[index].insert(field, Vec::new());
        }
        10 => lines[index].iter_mut().for_each(|field| field.push(b' ')),
        11 => {
            let field = lines[index].len() - 1;
            lines[index][field].push(b'\r');
        }
        12 => {
            let extra = rng.pick(&[
                "P\t0\t0",
                "K\t0",
                "E\t0\tadd\t0\tfwd",
                "F\t0\ttop\t0\t0",
                "G\t0\t0\t0",
                "S\t2",
                "T\t0\t0\t0",
                "V\t0\t0\t0",
            ]);
            let extra = split(extra.as_bytes()).remove(0);
            lines.insert(rng.pick(&[index, other]), extra);
        }
        _ => {
            *text = join(&lines);
            text.pop();
            return;
        }
    }
    *text = join(&lines);
}

/// Takes a field from a line of six or puts a seventh to it.
pub fn damage_long(rng: &mut Rng, text: &mut Vec<u8>) {
    let mut lines = split(text);
    let long = (0..lines.len()).filter(|&index| lines[index].len() == 6);
    let long: Vec<usize> = long.collect();
    if !long.is_empty() {
        let line = &mut lines[rng.pick(&long)];
        match rng.below(3) {
            0 => line.push(b"1".to_vec()),
            1 => line.extend([b"0".to_vec(), b"0".to_vec()]),
            _ => line.truncate(5),
        }
        *text = join(&lines);
    }
}

/// Changes, puts in or takes out one byte, or cuts the text.
pub fn damage_byte(rng: &mut Rng, text: &mut Vec<u8>) {
    let place = rng.below(text.len());
    let likely = rng.pick(b"\t\n\r 0123456789MLFPKEGSTV-+");
    let byte = if rng.percent(70) { likely } else { rng.below(256) as u8 };
    match rng.below(6) {
        0 | 1 => text[place] = byte,
        2 => text.insert(place, byte),
        3 => {
            text.remove(place);
        }
        4 => text.truncate(place),
        _ => text.push(byte),
    }
}
