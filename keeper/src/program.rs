//! What the program must print for a terms text and a requests text.

use crate::record::{Answer, Record};
use crate::terms::memory::SCRATCH_WORDS;
use crate::terms::{self, read, Refusal};
use std::fs::File;
use std::io::Read;
use std::path::Path;

/// The most bytes a file may have.
pub const MOST_BYTES: usize = 65_536;

/// What the program prints for the two files of a directory.
pub fn run(directory: &Path) -> String {
    let terms = contents(&directory.join("terms.tsv"));
    let requests = contents(&directory.join("requests.tsv"));
    output(&terms, &requests)
}

/// What is stored after the requests of a directory; the refusal where its
/// terms are refused.
pub fn stored(directory: &Path) -> Result<Vec<u8>, Refusal> {
    played(directory).map(|record| terms::store(record.terms(), &record.state()))
}

/// What is stored after the requests of a directory and a revision to the terms
/// of another; the refusal where terms are refused or the sizes differ.
pub fn revised(directory: &Path, new: &Path) -> Result<Vec<u8>, Refusal> {
    let mut record = played(directory)?;
    record.revise(&terms::read(&contents(&new.join("terms.tsv")))?.terms)?;
    Ok(terms::store(record.terms(), &record.state()))
}

/// What is stored after the requests of a directory and a renumbering of the
/// members; the refusal where the terms or the list are refused.
pub fn renumbered(directory: &Path, numbers: &[u8]) -> Result<Vec<u8>, Refusal> {
    let mut record = played(directory)?;
    record.renumber(numbers)?;
    Ok(terms::store(record.terms(), &record.state()))
}

/// The record after the requests of a directory.
fn played(directory: &Path) -> Result<Record, Refusal> {
    let mut record = Record::of(terms::read(&contents(&directory.join("terms.tsv")))?);
    for line in contents(&directory.join("requests.tsv")).split_inclusive(|&byte| byte == b'\n') {
        if let Some([event, from, to]) = request(line) {
            record.call(false, event, from, to, SCRATCH_WORDS);
        }
    }
    Ok(record)
}

/// A file's bytes, one more than allowed at most. A file that can't be opened
/// counts as empty.
fn contents(path: &Path) -> Vec<u8> {
    let mut bytes = Vec::new();
    let most = MOST_BYTES as u64 + 1;
    let done = File::open(path).and_then(|file| file.take(most).read_to_end(&mut bytes));
    if done.is_err() {
        bytes.clear();
    }
    bytes
}

/// What the program prints for the bytes of the two files.
pub fn output(terms: &[u8], requests: &[u8]) -> String {
    let refused =
        |name: &str, refusal: Refusal| format!("{name}\t{}\t{}\n", refusal.number, refusal.line);
    if terms.len() > MOST_BYTES {
        return refused("terms", Refusal::plain(6));
    }
    let file = match terms::read(terms) {
        Ok(file) => file,
        Err(refusal) => return refused("terms", refusal),
    };
    if requests.len() > MOST_BYTES {
        return refused("requests", Refusal::plain(6));
    }
    let mut record = Record::of(file);
    let mut printed = String::new();
    for (index, line) in requests.split_inclusive(|&byte| byte == b'\n').enumerate() {
        let answer = match request(line) {
            Some([event, from, to]) => record.call(false, event, from, to, SCRATCH_WORDS),
            None => Answer::Refused(Refusal::plain(1)),
        };
        let shown = match answer {
            Answer::Grant => "grant".to_string(),
            Answer::Deny => "deny".to_string(),
            Answer::Refused(refusal) => format!("refuse\t{}", refusal.number),
        };
        printed.push_str(&format!("{}\t{shown}\n", index + 1));
    }
    printed
}

/// Event, from and to of an R line that ends with its line feed.
fn request(line: &[u8]) -> Option<[usize; 3]> {
    let line = line.strip_suffix(b"\n")?;
    match read::fields(line)[..] {
        [b"R", event, from, to] => {
            Some([read::number(event)?, read::number(from)?, read::number(to)?])
        }
        _ => None,
    }
}
