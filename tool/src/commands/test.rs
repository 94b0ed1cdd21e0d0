//! `cuckooormolu test`: the tests that people write, and where they fail.

use crate::arguments::Arguments;
use crate::folder::{folder_of, Folder};
use crate::json::Json;
use crate::source::ast::Span;
use crate::source::mistake::{Mistake, Mistaken};
use crate::stop::{Stop, FAILING, UNUSABLE, WELL};
use crate::testing::read::read;
use crate::testing::run::{run, Failure, Outcome};
use crate::testing::{Test, TESTS};
use crate::watch::watch;
use std::fs;
use std::io::{ErrorKind, Write};
use std::path::Path;

pub const HELP: &str = "\
usage: cuckooormolu test DIR... [--all] [--json] [--watch]

Runs the tests in each folder's tests.say under its terms:

  test a share lasts until it is withdrawn
    given dora owns pad                first edges, besides those of the terms
    given dora share pete              a request, which must be granted
    pete may load pad                  a question; makes no moment
    then dora withdraw pete            another request
    pete may not load pad because dora withdraw

Each test begins at moment 0, without the requests of the folder. Of stored terms that
is where they were stored: their past counts in every test, and no edges can be given.
After `because` come words that one reason of `why --all` must have, in this order;
others may stand between them, and the name of an event, a relation or a definition
stands for all its forms. `nobody`, `anyone` and `only pete and quin` may stand for a
member. `dora denied share pete` is a request that must be denied. A test is about one
bank.

Prints what was expected and what came for each unexpected answer, with the first two
reasons, and a summary. Of several folders, one without tests is reported, and the
others are tested all the same.

  --all    list passing tests too
  --json   one JSON object per line: each test, then the summary
  --watch  run again whenever a file of the folders changes, until stopped

Exit status: 0 if all tests pass; 1 if one fails; 3 if a file cannot be read or has a
mistake.
";

pub fn main(arguments: &[String], out: &mut dyn Write) -> Result<i32, Stop> {
    let arguments = Arguments::read(arguments, &["--all", "--json", "--watch"], &[])?;
    if arguments.rest.is_empty() {
        return Err(Stop::Usage("give DIR, one or more".into()));
    }
    if !arguments.has("--watch") {
        return tested(&arguments, out);
    }
    let json = arguments.has("--json");
    let paths: Vec<&Path> = arguments.rest.iter().map(Path::new).collect();
    watch(&paths, || {
        match tested(&arguments, out) {
            Err(Stop::Closed) => return Err(Stop::Closed),
            Err(stop) if json => stop.json().iter().try_for_each(|line| writeln!(out, "{line}"))?,
            Err(stop) => writeln!(out, "{stop}")?,
            Ok(_) => {}
        }
        if !json {
            writeln!(out, "-- {} is watched; Ctrl-C ends", arguments.rest.join(", "))?;
        }
        Ok(out.flush()?)
    })
}

/// Makes all tests once. Of several folders, one that has none or can't be used is
/// told, and the others are tested all the same.
fn tested(arguments: &Arguments, out: &mut dyn Write) -> Result<i32, Stop> {
    let (json, all) = (arguments.has("--json"), arguments.has("--all"));
    let mut count = Count::default();
    for given in &arguments.rest {
        let tested = match Tested::of(Path::new(given)) {
            Ok(tested) => tested,
            Err(stop @ (Stop::Failed(_) | Stop::Mistaken(_) | Stop::Told(..)))
                if arguments.rest.len() > 1 =>
            {
                count.unusable += 1;
                match json {
                    true => stop.json().iter().try_for_each(|line| writeln!(out, "{line}"))?,
                    false => writeln!(out, "UNUSABLE  {given}\n{}", indented(&stop.to_string()))?,
                }
                continue;
            }
            Err(stop) => return Err(stop),
        };
        for (test, outcome) in &tested.outcomes {
            count.add(outcome);
            match json {
                true => writeln!(out, "{}", tested.line(given, test, outcome))?,
                false => write!(out, "{}", tested.told(test, outcome, all))?,
            }
        }
    }
    match json {
        true => writeln!(out, "{}", count.json())?,
        false => writeln!(out, "{}", count.told())?,
    }
    Ok(match (count.unusable, count.failed) {
        (0, 0) => WELL,
        (0, _) => FAILING,
        _ => UNUSABLE,
    })
}

/// A message under a line.
fn indented(text: &str) -> String {
    text.trim_end().lines().map(|line| format!("  {line}")).collect::<Vec<_>>().join("\n")
}

/// A folder's tests and what came of them.
struct Tested {
    file: String,
    text: String,
    outcomes: Vec<(Test, Outcome)>,
}

impl Tested {
    fn of(path: &Path) -> Result<Tested, Stop> {
        let folder = Folder::opening(path)?;
        let file = folder_of(path).join(TESTS);
        let name = file.display().to_string();
        let text = fs::read_to_string(&file).map_err(|error| {
            Stop::Failed(match error.kind() {
                ErrorKind::NotFound => format!(
                    "{} has no {TESTS} yet; `cuckooormolu test --help` shows how to write one",
                    folder_of(path).display()
                ),
                _ => format!("cannot read {name}: {error}"),
            })
        })?;
        let both = folder.accepted()?;
        let tests = match read(&text, &both, &folder.names) {
            Ok(tests) => tests,
            Err(mistakes) => {
                return Err(Stop::Mistaken(Mistaken { file: name, text, mistakes }));
            }
        };
        if tests.is_empty() {
            let advice = "`cuckooormolu test --help` shows one";
            return Err(Stop::Failed(format!("{name} has no test; {advice}")));
        }
        let mut outcomes = Vec::new();
        for test in tests {
            let outcome = run(&test, &both, &folder.terms, &folder.names)?;
            outcomes.push((test, outcome));
        }
        Ok(Tested { file: name, text, outcomes })
    }

    /// The line that a stretch of the text begins at.
    fn at(&self, span: Span) -> usize {
        Mistake::new(span, "").place(&self.text).0
    }

    /// A test that fails, with what was expected and got; one that passes in a line, if all are asked for.
    fn told(&self, test: &Test, outcome: &Outcome, all: bool) -> String {
        let (file, line, title) = (&self.file, self.at(test.span), &test.title);
        if outcome.passed() {
            return if all { format!("passed  {file}:{line}: {title}\n") } else { String::new() };
        }
        let mut text = format!("FAILED  {file}:{line}: {title}\n");
        for failure in &outcome.failures {
            text.push_str(&format!("  line {}\n", self.at(failure.span)));
            text.push_str(&format!("    expected: {}\n", failure.expected));
            text.push_str(&format!("    got:      {}, because\n", failure.found));
            let more = match failure.more {
                0 => None,
                1 => Some("(and 1 more reason)".to_string()),
                more => Some(format!("(and {more} more reasons)")),
            };
            for line in failure.reasons.iter().chain(&more).chain(&failure.missing) {
                text.push_str(&format!("      {line}\n"));
            }
        }
        match outcome.skipped {
            0 => {}
            1 => text.push_str("  1 statement after it was left out\n"),
            many => text.push_str(&format!("  {many} statements after it were left out\n")),
        }
        text
    }

    fn line(&self, folder: &str, test: &Test, outcome: &Outcome) -> Json {
        let failure = |failure: &Failure| {
            Json::Object(vec![
                ("line", self.at(failure.span).into()),
                ("expected", failure.expected.as_str().into()),
                ("found", failure.sentence().into()),
            ])
        };
        Json::Object(vec![
            ("folder", folder.into()),
            ("test", test.title.as_str().into()),
            ("line", self.at(test.span).into()),
            ("passed", outcome.passed().into()),
            ("answers", outcome.answers.into()),
            ("failures", outcome.failures.iter().map(failure).collect::<Vec<_>>().into()),
            ("skipped", outcome.skipped.into()),
        ])
    }
}

/// How many tests and answers there were in all folders.
#[derive(Default)]
struct Count {
    passed: usize,
    failed: usize,
    answers: usize,
    /// The folders without a test that could be made.
    unusable: usize,
}

impl Count {
    fn add(&mut self, outcome: &Outcome) {
        self.passed += usize::from(outcome.passed());
        self.failed += usize::from(!outcome.passed());
        self.answers += outcome.answers;
    }

    fn told(&self) -> String {
        let Count { passed, failed, answers, unusable } = self;
        let plural = |count: usize, word: &str| match count {
            1 => format!("1 {word}"),
            count => format!("{count} {word}s"),
        };
        let tests = plural(passed + failed, "test");
        let answers = plural(*answers, "answer");
        let unusable = match unusable {
            0 => String::new(),
            count => format!("; {} not tested", plural(*count, "folder")),
        };
        format!("{tests} with {answers}: {passed} passed, {failed} failed{unusable}")
    }

    fn json(&self) -> Json {
        Json::Object(vec![
            ("tests", (self.passed + self.failed).into()),
            ("passed", self.passed.into()),
            ("failed", self.failed.into()),
            ("answers", self.answers.into()),
            ("unusable", self.unusable.into()),
        ])
    }
}
