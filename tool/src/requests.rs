//! Requests by name, one a line: `load ben warm-pad`, or `ben load warm-pad`. So they stand
//! in requests.say, and come from standard input. Each may name its bank first, or none
//! does: `left load ben warm-pad`.

mod meant;
#[cfg(test)]
mod tests;
mod writing;

pub use writing::{line, numbered, write, write_banked};

use crate::bank::Bank;
use crate::json::Json;
use crate::names::{did_you_mean, Kind, Names};
use crate::stop::Stop;
use crate::trial::typed::split;
use keeper::terms::Terms;

/// What a file of requests asks for.
#[derive(Clone, Debug, Default, PartialEq, Eq)]
pub struct Requests {
    /// Lines of requests.tsv.
    pub lines: Vec<u8>,
    /// The bank of each line; empty if they name none.
    pub banks: Vec<Bank>,
}

/// The requests that lines with names stand for. `#` begins a comment, blank lines are
/// passed over, and lines of requests.tsv stay what they are. Every line that can't be
/// read is told, and the first that names a bank where the first of all does not, or
/// the other way round.
pub fn read(file: &str, text: &str, terms: &Terms, names: &Names) -> Result<Requests, Stop> {
    let (mut requests, mut wrong) = (Requests::default(), Vec::new());
    let (mut first, mut mixed) = (None, false);
    for (index, line) in text.lines().enumerate() {
        let asked = match line.starts_with("R\t") {
            true => Ok(Some((None, format!("{line}\n")))),
            false => spoken(line, terms, names),
        };
        match asked {
            Ok(Some((bank, line))) => {
                let why = mistaken(*first.get_or_insert((index + 1, bank)), bank);
                // One line that differs is enough to be told.
                let why = why.filter(|_| !mixed);
                mixed |= why.is_some();
                wrong.extend(why.map(|why| (index + 1, why)));
                requests.lines.extend(line.into_bytes());
                requests.banks.extend(bank);
            }
            Ok(None) => {}
            Err(why) => wrong.push((index + 1, why)),
        }
    }
    if wrong.is_empty() {
        return Ok(requests);
    }
    let lines = wrong.iter().map(|(line, why)| format!("{file}:{line}: {why}"));
    let object = |(line, why): &(usize, String)| {
        let fields = vec![("error", why.as_str().into()), ("file", file.into())];
        Json::Object([fields, vec![("line", (*line).into())]].concat())
    };
    let objects = wrong.iter().map(object).collect();
    Err(Stop::Told(lines.collect::<Vec<_>>().join("\n"), objects))
}

/// What is wrong where a bank, or none, is named after a first request with none, or one.
fn mistaken((line, first): (usize, Option<Bank>), bank: Option<Bank>) -> Option<String> {
    match (first, bank) {
        (Some(_), None) => Some(format!(
            "no bank is named here, but one is in line {line}: put left or right before the event, or \
             name a bank in no line"
        )),
        (None, Some(bank)) => Some(format!(
            "the bank {bank} is named here, but none in line {line}: name a bank in every line, or in none"
        )),
        _ => None,
    }
}

/// The bank of a line with names and the line of requests.tsv that it stands for; none
/// for a line without words.
fn spoken(
    line: &str,
    terms: &Terms,
    names: &Names,
) -> Result<Option<(Option<Bank>, String)>, String> {
    let words = split(bare(line));
    let words: Vec<&str> = words.iter().map(String::as_str).collect();
    let (bank, words) = Bank::before(&words, 3);
    let asked = ask(words, terms, names)?;
    Ok(asked.map(|[event, from, to]| (bank, format!("R\t{event}\t{from}\t{to}\n"))))
}

/// The numbers of a request by name; none for a line without words.
fn ask(words: &[&str], terms: &Terms, names: &Names) -> Result<Option<[usize; 3]>, String> {
    let [event, from, to] = words[..] else {
        return match words {
            [] => Ok(None),
            [bank, ..] => Err(match did_you_mean(bank, Bank::BOTH.map(Bank::word)) {
                _ if meant::meant(words, terms, names).is_some() => {
                    meant::meant(words, terms, names).unwrap_or_default()
                }
                hint if words.len() == 4 && !hint.is_empty() => format!("no bank `{bank}`{hint}"),
                _ => "a request is an event, who asks and who is asked: `load pete saw` or `pete load saw`; \
                      its bank may come first: `left load pete saw`"
                    .into(),
            }),
        };
    };
    let asked = names.asked([event, from, to], terms).map_err(|said| {
        let is_bank = Bank::named(event).is_some() && names.find(Kind::Member, event).is_none();
        match is_bank && names.find(Kind::Event, event).is_none() {
            true => {
                format!("after the bank come an event, who asks and who is asked: `{event} load pete saw`")
            }
            false => said,
        }
    })?;
    Ok(Some(asked))
}

/// A line without its comment. In double quotes `#` begins none.
fn bare(line: &str) -> &str {
    let mut quoted = false;
    let comment = line.find(|letter| {
        quoted ^= letter == '"';
        letter == '#' && !quoted
    });
    &line[..comment.unwrap_or(line.len())]
}
