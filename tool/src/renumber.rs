//! A folder whose members get new numbers. Everybody keeps what they have and have
//! done, and all answers stay.
//!
//! * `order`: the members in their new order, as people write it
//! * `source`: a source that declares them in that order
//! * `asked`: requests and tests of the renumbered members

mod asked;
pub mod order;
mod source;

use crate::folder::{self, Folder, DEFINITIONS, NAMES, REQUESTS, SOURCE, SPOKEN, TERMS};
use crate::json::Json;
use crate::names::Names;
use crate::replay::{Replay, Step};
use crate::stop::Stop;
use keeper::renumber::Numbering;
use std::fs;
use std::path::Path;

/// What a folder has besides that people expect of it.
const EXPECTED: &str = "expected.tsv";
const TESTS: &str = "tests.say";

/// A folder with renumbered members.
pub struct Renumbered {
    numbering: Numbering,
    /// The names by the old numbers.
    names: Names,
    /// How many requests get the same answers.
    requests: usize,
    /// The lines of the source with a comment that names a member.
    commented: Vec<usize>,
    /// The files of the folder, by name.
    files: Vec<(&'static str, Vec<u8>)>,
}

/// Renumbers the members of a folder: its terms with all that they remember, its
/// source if there is one, names, requests and tests.
pub fn renumber(old: &Folder, numbering: Numbering) -> Result<Renumbered, Stop> {
    old.of_one_bank()?;
    let mut both = old.accepted()?;
    refused(both.renumber(numbering.numbers())?)?;
    let terms = match both.is_stored() {
        true => both.store()?,
        false => refused(both.write()?)?,
    };
    let names = old.names.renumbered(&numbering);
    let source = old.source.as_ref().map(|sourced| source::reordered(old, sourced, &numbering));
    let source = source.transpose()?;
    if let Some(text) = &source {
        let compiled = old.with_source(text).ok();
        if !compiled.is_some_and(|new| new.terms == terms && new.names.write() == names.write()) {
            return Err(wrong("the source compiles to other terms"));
        }
    }
    let requests = asked::renumbered(&old.requests, &numbering);
    let new = Folder { terms, names, requests, ..old.clone() };
    let requests = same_answers(old, &new, &numbering)?;
    let commented =
        source.as_ref().map(|text| source::commented(text, &old.names)).unwrap_or_default();
    let files = files(old, &new, source, &numbering)?;
    Ok(Renumbered { numbering, names: old.names.clone(), requests, commented, files })
}

/// How many requests there are, once they get the same answers with the old numbers
/// and with the new ones, and leave the same.
fn same_answers(old: &Folder, new: &Folder, numbering: &Numbering) -> Result<usize, Stop> {
    let (mut before, after) = (Replay::of(old)?, Replay::of(new)?);
    refused(before.both.renumber(numbering.numbers())?)?;
    let verdicts = |replay: &Replay| -> Vec<_> {
        replay.steps.iter().map(|step: &Step| (step.verdict, step.made)).collect()
    };
    if verdicts(&before) != verdicts(&after) || before.both.store()? != after.both.store()? {
        return Err(wrong("answers differ with the new numbers"));
    }
    Ok(after.steps.len())
}

/// The files of the renumbered folder.
fn files(
    old: &Folder,
    new: &Folder,
    source: Option<String>,
    numbering: &Numbering,
) -> Result<Vec<(&'static str, Vec<u8>)>, Stop> {
    let read = |name: &str| fs::read(old.path.join(name)).ok();
    let mut files: Vec<(&'static str, Vec<u8>)> = Vec::new();
    files.extend(source.map(|text| (SOURCE, text.into_bytes())));
    files.push((TERMS, new.terms.clone()));
    let names = new.names.write();
    if !names.is_empty() {
        files.push((NAMES, names.into_bytes()));
    }
    // Formulas name no member.
    files
        .extend(read(DEFINITIONS).filter(|_| new.source.is_none()).map(|told| (DEFINITIONS, told)));
    if let Some(spoken) = read(SPOKEN) {
        asked::same_requests(&old.path.join(SPOKEN), &spoken, new)?;
        files.push((SPOKEN, spoken));
    }
    files.extend(read(REQUESTS).map(|lines| (REQUESTS, asked::renumbered(&lines, numbering))));
    files.extend(read(EXPECTED).map(|lines| (EXPECTED, lines)));
    if let Some(tests) = read(TESTS) {
        asked::same_tests(&old.path.join(TESTS), &tests, (old, new), numbering)?;
        files.push((TESTS, tests));
    }
    Ok(files)
}

/// What a numbering cannot be refused.
fn refused<T>(outcome: Result<T, keeper::terms::Refusal>) -> Result<T, Stop> {
    outcome.map_err(|refusal| wrong(&format!("refused with {}", refusal.number)))
}

fn wrong(why: &str) -> Stop {
    Stop::Failed(format!("internal error, please report it: {why}"))
}

impl Renumbered {
    /// Writes the files to a folder, which is made if need be. Nothing that is there
    /// is written over.
    pub fn write(&self, place: &Path) -> Result<(), Stop> {
        // A source that stands there would run in the place of what is written.
        let names = self.files.iter().map(|(name, _)| *name).chain([SOURCE]);
        let there = names.map(|name| place.join(name)).find(|file| file.exists());
        if let Some(file) = there {
            return Err(Stop::Failed(format!(
                "{} is there already, and nothing is written over; name another folder",
                file.display()
            )));
        }
        fs::create_dir_all(place)
            .map_err(|error| Stop::Failed(format!("cannot make {}: {error}", place.display())))?;
        self.files.iter().try_for_each(|(name, bytes)| folder::write(&place.join(name), bytes))
    }

    /// The names of the files.
    pub fn written(&self) -> Vec<&'static str> {
        self.files.iter().map(|(name, _)| *name).collect()
    }

    /// Everybody's name, old and new number.
    fn members(&self) -> impl Iterator<Item = (String, usize, usize)> + '_ {
        let numbers = self.numbering.numbers().iter().enumerate();
        numbers.map(|(was, &number)| (self.names.member(was), was, number.into()))
    }

    /// All of it for people.
    pub fn text(&self) -> String {
        let widest = self.members().map(|(name, ..)| name.chars().count()).max().unwrap_or(0);
        let digits = self.members().count().saturating_sub(1).to_string().len();
        let mut text = String::new();
        for (name, was, number) in self.members() {
            text.push_str(&format!("{name:widest$}  {was:digits$} → {number}\n"));
        }
        let list: Vec<String> =
            self.numbering.numbers().iter().map(|number| number.to_string()).collect();
        text.push_str(&format!("\nFor hosts, the new number of each: {}\n", list.join(" ")));
        if self.members().all(|(_, was, number)| was == number) {
            text.push_str("These are the numbers that they have: nothing changes.\n");
        }
        match self.requests {
            0 => {}
            1 => text.push_str("The one request gets the same answer.\n"),
            many => text.push_str(&format!("All {many} requests get the same answers.\n")),
        }
        let lines: Vec<String> = self.commented.iter().map(|line| line.to_string()).collect();
        if !lines.is_empty() {
            text.push_str(&format!(
                "Comments in {SOURCE} name members and stay as they are; see that they are still true: line {}\n",
                lines.join(", ")
            ));
        }
        text
    }

    /// All of it, one object a line.
    pub fn json(&self) -> Vec<Json> {
        let member = |(name, was, number): (String, usize, usize)| {
            Json::Object(vec![
                ("member", name.into()),
                ("was", was.into()),
                ("number", number.into()),
            ])
        };
        let numbers: Vec<usize> = self.numbering.numbers().iter().map(|&n| n.into()).collect();
        let mut all = vec![("numbers", numbers.into()), ("requests", self.requests.into())];
        if !self.commented.is_empty() {
            all.push(("comments", self.commented.clone().into()));
        }
        self.members().map(member).chain([Json::Object(all)]).collect()
    }
}
