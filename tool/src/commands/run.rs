//! `cuckooormolu run`: what the proved program prints, with words.

use crate::arguments::Arguments;
use crate::both::Verdict;
use crate::folder::{stored, Folder, Request};
use crate::json::Json;
use crate::replay::Step;
use crate::session::Session;
use crate::stop::{Stop, FAILING, WELL};
use crate::storing::{store, told};
use crate::words::{answered, Words};
use keeper::terms::Refusal;
use std::io::{self, Write};
use std::path::{Path, PathBuf};

pub const HELP: &str = "\
usage: cuckooormolu run DIR [- | --requests FILE] [--strict] [--json] [--store FILE]
           [--write FILE]

Makes the requests of a folder under its terms, and prints each with its answer.
Requests are in DIR/requests.say, one per line by name, such as `load pete saw` or
`pete load saw`, or else in DIR/requests.tsv. With `-` they are read from standard
input, in either form; `run -` means `run . -`. The terms are those of DIR/terms.say,
or else of DIR/terms.tsv, with the names of DIR/names.tsv if there is one. Stored
terms continue where they were stored.

Two banks share terms and relations, each with its own past: then every request by
name begins with its bank, such as `left load pete saw` or `right load pete saw`.

  --requests FILE
                 make the requests of FILE, in either form, instead of the folder's;
                 `-` is standard input
  --strict       exit with 1 if a request is denied or refused, with 3 if there is none,
                 from standard input too
  --json         one JSON object per line; `made` is the moment a request made; with
                 --store the last one says which file is `stored`
  --store FILE   store terms, state and what they remember in FILE, before any answer
                 is printed, creating its folder if need be; if FILE is called
                 terms.tsv, the names are stored beside it and its folder can be run.
                 If that is DIR itself, the next run makes the same requests again:
                 empty or replace them first. A file that is cut at the end of a line
                 is accepted as another state, which may grant what was denied: keep
                 its length or a checksum with it. One run at a time: nothing locks the
                 folder. Of two banks nothing is stored or written
  --write FILE   afterwards, write terms and relations as new terms to begin with;
                 refused with 12 if anything has happened. Not over a stored file

Exit status: 0; 1 if --strict finds a request denied or refused; 3 if --strict finds
no request, or a file cannot be read, written or compiled.
";

pub fn main(arguments: &[String], out: &mut dyn Write) -> Result<i32, Stop> {
    let options = ["--requests", "--store", "--write"];
    let arguments = Arguments::read(arguments, &["--json", "--strict"], &options)?;
    let (directory, input) = match &arguments.rest[..] {
        [only] if only == "-" => (".", true),
        [directory, dash] if dash == "-" => (directory.as_str(), true),
        _ => (arguments.one("DIR")?, false),
    };
    let folder = asked(directory, input, arguments.option("--requests"))?;
    let stored = arguments.option("--store").or(arguments.option("--write")).is_some();
    if stored && !folder.banks.is_empty() {
        let why = "names banks, and a terms file has what one bank remembers";
        let asked = folder.asked.display();
        return Err(Stop::Failed(format!(
            "{asked} {why}: of two banks nothing is stored or written"
        )));
    }
    let session = Session::of(&folder)?;
    let steps = session.steps();
    // An answer is shown once nothing can be lost any more.
    if let (Some(file), Some(both)) = (arguments.option("--store"), session.one()) {
        store(Path::new(file), &both.store()?, &folder)?;
    }
    let words = Words::new(session.terms(), &folder.names);
    let file = arguments.option("--store");
    told(file, print(steps, &words, file, arguments.has("--json"), out))?;
    let input = input || arguments.option("--requests") == Some("-");
    if arguments.has("--strict") && steps.is_empty() {
        return Err(Stop::Failed(match (input, arguments.option("--requests")) {
            (true, _) => "there are no requests on standard input".to_string(),
            (false, Some(file)) => format!("there are no requests in {file}"),
            (false, None) => {
                format!("there are no requests in {directory}; `-` reads them from standard input")
            }
        }));
    }
    if !input && !stored {
        hint(steps, directory);
    }
    if let (Some(file), Some(both)) = (arguments.option("--write"), session.one()) {
        let text = both.write()?.map_err(|refusal| Stop::Failed(no_fresh_start(refusal)))?;
        stored::not_over(Path::new(file), "write to another file")?;
        store(Path::new(file), &text, &folder)?;
    }
    let all_granted = steps.iter().all(|step| step.verdict == Verdict::Grant);
    Ok(if arguments.has("--strict") && !all_granted { FAILING } else { WELL })
}

/// Prints the answers, and then which file is stored.
fn print(
    steps: &[Step],
    words: &Words,
    file: Option<&str>,
    json: bool,
    out: &mut dyn Write,
) -> Result<(), Stop> {
    let widths = Widths::of(steps, words);
    for step in steps {
        match json {
            true => writeln!(out, "{}", Json::Object(fields(step, words)))?,
            false => writeln!(out, "{}", widths.line(step, words))?,
        }
    }
    match (file, json) {
        (Some(file), true) => writeln!(out, "{}", Json::Object(vec![("stored", file.into())]))?,
        (Some(file), false) => writeln!(out, "\n{file} written")?,
        (None, _) => {}
    }
    Ok(out.flush()?)
}

/// A folder with its own requests, or those of standard input or of a file.
pub fn asked(directory: &str, input: bool, file: Option<&str>) -> Result<Folder, Stop> {
    let folder = Folder::opening(Path::new(directory))?;
    let (input, file) = match file {
        Some("-") => (true, None),
        file => (input, file),
    };
    match (input, file) {
        (true, Some(_)) => Err(Stop::Usage("give - or --requests FILE, not both".into())),
        (true, None) => {
            let text = io::read_to_string(io::stdin())
                .map_err(|error| Stop::Failed(format!("cannot read standard input: {error}")))?;
            folder.asking(PathBuf::from("standard input"), &text)
        }
        (false, Some(file)) => folder.asking_file(Path::new(file)),
        (false, None) => Ok(folder),
    }
}

/// Says on standard error what to do where there are no requests.
pub fn hint(steps: &[Step], directory: &str) {
    if steps.is_empty() {
        eprintln!("no requests yet; `cuckooormolu try {directory}` makes some");
    }
}

/// Why the old form is not written.
fn no_fresh_start(refusal: Refusal) -> String {
    format!(
        "refused with {}: something has passed that terms to begin with cannot say; --store keeps it",
        refusal.number
    )
}

/// How wide the columns of line numbers, banks and requests are.
pub struct Widths {
    line: usize,
    bank: usize,
    request: usize,
}

impl Widths {
    pub fn of(steps: &[Step], words: &Words) -> Widths {
        let request = steps.iter().map(|step| words.request(step.request).chars().count());
        let bank = |step: &Step| step.bank.map(|bank| bank.word().len());
        Widths {
            line: steps.last().map_or(1, |step| step.line.to_string().len()),
            bank: steps.iter().filter_map(bank).max().unwrap_or(0),
            request: request.max().unwrap_or(0),
        }
    }

    /// `3  load pete → saw  granted`, `3  left   load pete → saw  granted`
    pub fn line(&self, step: &Step, words: &Words) -> String {
        let request = words.request(step.request);
        let (line, wide) = (self.line, self.request);
        let bank = step.bank.map_or(String::new(), |bank| format!("{bank:0$}  ", self.bank));
        let answer = match step.verdict {
            Verdict::Refused(number) => {
                format!("refused: {}", words.refusal(step.request, number))
            }
            verdict => answered(verdict).to_string(),
        };
        format!("{:line$}  {bank}{request:wide$}  {answer}", step.line)
    }

    /// The blanks before what is said below a line.
    pub fn indent(&self) -> String {
        " ".repeat(self.line + 4)
    }
}

/// A step's fields as `--json` prints them.
pub fn fields(step: &Step, words: &Words) -> Vec<(&'static str, Json)> {
    let mut fields = vec![("line", step.line.into())];
    fields.extend(step.bank.map(|bank| ("bank", bank.word().into())));
    if let Request::Ask { event, from, to } = step.request {
        fields.push(("request", vec![event, from, to].into()));
        fields.push(("event", words.names.event(event).into()));
        fields.push(("from", words.names.member(from).into()));
        fields.push(("to", words.names.member(to).into()));
    }
    let made = step.made.then_some(step.moment + 1);
    match step.verdict {
        Verdict::Grant => fields.push(("answer", "grant".into())),
        Verdict::Deny => fields.push(("answer", "deny".into())),
        Verdict::Refused(number) => {
            fields.push(("answer", "refuse".into()));
            fields.push(("number", usize::from(number).into()));
            fields.push(("because", vec![words.refusal(step.request, number)].into()));
        }
    }
    fields.extend(made.map(|moment| ("made", moment.into())));
    fields
}
