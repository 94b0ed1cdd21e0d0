//! Requests and tests of renumbered members. What goes by name stays as it is
//! written; what goes by number gets the new ones.

use crate::folder::{Folder, Request};
use crate::requests;
use crate::source::mistake::{Mistake, Mistaken};
use crate::stop::Stop;
use crate::testing::read::read;
use crate::testing::{Call, Said, Test};
use keeper::renumber::Numbering;
use std::path::Path;

/// Lines of requests.tsv by the new numbers. What is no request, or names nobody,
/// stays.
pub fn renumbered(lines: &[u8], numbering: &Numbering) -> Vec<u8> {
    let written = |line: &[u8]| match Request::read(line) {
        Request::Ask { event, from, to } => {
            let (from, to) = (numbering.member(from), numbering.member(to));
            format!("R\t{event}\t{from}\t{to}\n").into_bytes()
        }
        Request::Malformed => line.to_vec(),
    };
    lines.split_inclusive(|&byte| byte == b'\n').flat_map(written).collect()
}

/// Stops where requests by name are not those of the renumbered members: then they
/// name somebody by number.
pub fn same_requests(file: &Path, text: &[u8], new: &Folder) -> Result<(), Stop> {
    let both = new.accepted()?;
    let text = String::from_utf8_lossy(text);
    let shown = file.display().to_string();
    let asked = requests::read(&shown, &text, both.terms(), &new.names)?;
    match asked.lines == new.requests {
        true => Ok(()),
        false => Err(by_number(file)),
    }
}

/// The same of tests.
pub fn same_tests(
    file: &Path,
    text: &[u8],
    (old, new): (&Folder, &Folder),
    numbering: &Numbering,
) -> Result<(), Stop> {
    let text = String::from_utf8_lossy(text).into_owned();
    let tests = |folder: &Folder| -> Result<Vec<Test>, Stop> {
        read(&text, &folder.accepted()?, &folder.names).map_err(|mistakes: Vec<Mistake>| {
            let file = file.display().to_string();
            Stop::Mistaken(Mistaken { file, text: text.clone(), mistakes })
        })
    };
    let unchanged = Numbering::of(numbering.numbers().len(), &identity(numbering));
    let unchanged = unchanged.unwrap_or_else(|_| numbering.clone());
    let wanted: Vec<Test> = tests(old)?.iter().map(|test| of(test, numbering)).collect();
    let got: Vec<Test> = tests(new)?.iter().map(|test| of(test, &unchanged)).collect();
    match wanted == got {
        true => Ok(()),
        false => Err(by_number(file)),
    }
}

/// The list by which everybody keeps their number.
fn identity(numbering: &Numbering) -> Vec<u8> {
    (0..numbering.numbers().len() as u8).collect()
}

/// A test by other numbers. In which order a statement asks for several things does
/// not count.
fn of(test: &Test, numbering: &Numbering) -> Test {
    let call = |call: &Call| Call {
        from: numbering.member(call.from),
        to: numbering.member(call.to),
        ..*call
    };
    let mut test = test.clone();
    for statement in &mut test.statements {
        match &mut statement.said {
            Said::First { edges, .. } => {
                edges.iter_mut().for_each(|(_, from, to)| {
                    (*from, *to) = (numbering.member(*from), numbering.member(*to));
                });
                edges.sort_unstable();
            }
            Said::Made { call: made, .. } => *made = call(made),
            Said::Asked { calls, .. } => {
                calls.iter_mut().for_each(|(asked, _)| *asked = call(asked));
                calls.sort_by_key(|(asked, may)| (asked.event, asked.from, asked.to, *may));
            }
        }
    }
    test
}

fn by_number(file: &Path) -> Stop {
    Stop::Failed(format!(
        "{} names a member by number, which is another's then; write the name instead",
        file.display()
    ))
}
