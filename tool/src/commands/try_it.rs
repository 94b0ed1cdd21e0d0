//! `cuckooormolu try`: requests at a prompt.

use crate::arguments::Arguments;
use crate::editing::terminal::{self, Raw};
use crate::editing::Editor;
use crate::folder::Folder;
use crate::stop::{Stop, USAGE, WELL};
use crate::trial::{Reply, Trial};
use std::io::{self, BufRead, IsTerminal, Write};
use std::path::Path;

pub const HELP: &str = "\
usage: cuckooormolu try DIR [--requests FILE] [--first]

Reads lines from standard input and answers each:

  share dora pete        make a request
  look load pete saw     what the answer would be; makes no moment
  why                    why the last answer is what it is
  why load pete saw      why it would be granted or denied
  who load               who may do it to whom
  list, members          the requests so far; the names of members, relations, events
  undo                   take back the last request or revision
  revise NEW             continue with the terms of NEW, and say what changes
  save [FILE]            write the requests to FILE, by default the folder's own:
                         by name beside a terms.say or in a .say, else by number
  help, quit

It begins after the requests of DIR. Put a name of several words in double quotes.
At a terminal, Tab completes a word, the left and right arrows move within the line,
and up and down bring back earlier lines.

Two banks share members and relations, each with its own past. To try them, name the
bank from the first request on: `left share dora pete`, `look right load pete saw`,
`why left load pete saw`, `who right load`. A moment made in one bank is a moment in
the other too, without the event there. `revise` changes the terms of both.

  --requests FILE   begin after the requests of FILE, not of DIR; `save` writes there
  --first           begin at moment 0, before the requests

Exit status: 0; if input is not a terminal, 2 if a line could not be understood or
carried out.
";

pub fn main(arguments: &[String], out: &mut dyn Write) -> Result<i32, Stop> {
    let arguments = Arguments::read(arguments, &["--first"], &["--requests"])?;
    let folder = Folder::opening(Path::new(arguments.one("DIR")?))?;
    let folder = match arguments.option("--requests") {
        Some(file) => folder.asking_file(Path::new(file))?,
        None => folder,
    };
    let mut trial = Trial::new(folder, arguments.has("--first"))?;
    let terminal = io::stdin().is_terminal();
    if terminal {
        writeln!(out, "{}", trial.greeting())?;
    }
    let raw = if terminal && io::stdout().is_terminal() { Raw::new() } else { None };
    match raw {
        Some(_raw) => edited(&mut trial, out),
        None => converse(&mut trial, io::stdin().lock(), if terminal { PROMPT } else { "" }, out),
    }
}

const PROMPT: &str = "> ";

/// The same at a terminal in raw mode, where lines are edited, completed with Tab
/// and come back with the arrow keys.
fn edited(trial: &mut Trial, out: &mut dyn Write) -> Result<i32, Stop> {
    let (mut editor, mut input) = (Editor::default(), io::stdin().lock());
    loop {
        let line = terminal::line(&mut editor, PROMPT, &mut input, out, &|text| trial.next(text));
        let line = line.map_err(|error| Stop::Failed(format!("cannot read: {error}")))?;
        let Some(line) = line else { return Ok(WELL) };
        match trial.line(&line)? {
            Reply::Quit => return Ok(WELL),
            Reply::Said(text) if text.is_empty() => {}
            Reply::Said(text) => writeln!(out, "{text}")?,
            Reply::Wrong(text) => writeln!(out, "? {text}")?,
        }
    }
}

/// Answers every line until there are no more or one says quit.
pub fn converse(
    trial: &mut Trial,
    mut input: impl BufRead,
    prompt: &str,
    out: &mut dyn Write,
) -> Result<i32, Stop> {
    let mut status = WELL;
    loop {
        write!(out, "{prompt}")?;
        out.flush()?;
        let mut line = Vec::new();
        let read = input.read_until(b'\n', &mut line);
        if read.map_err(|error| Stop::Failed(format!("cannot read: {error}")))? == 0 {
            return Ok(status);
        }
        match trial.line(&String::from_utf8_lossy(&line))? {
            Reply::Quit => return Ok(status),
            Reply::Said(text) if text.is_empty() => {}
            Reply::Said(text) => writeln!(out, "{text}")?,
            Reply::Wrong(text) => {
                status = if prompt.is_empty() { USAGE } else { WELL };
                writeln!(out, "? {text}")?;
            }
        }
    }
}
