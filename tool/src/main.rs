//! `cuckooormolu COMMAND ...`: finds the sub-command and runs it.

use cuckooormolu_tool::commands::{Command, COMMANDS};
use cuckooormolu_tool::names::did_you_mean;
use cuckooormolu_tool::pages;
use cuckooormolu_tool::stop::{Stop, USAGE, WELL};
use std::io::{self, Write};

fn main() {
    let arguments: Vec<String> =
        std::env::args_os().skip(1).map(|word| word.to_string_lossy().into_owned()).collect();
    let mut out = io::BufWriter::new(io::stdout());
    let status = match dispatch(&arguments, &mut out) {
        Ok(status) => {
            out.flush().map_or_else(|error| report("", &error.into(), false, &mut out), |()| status)
        }
        Err((name, stop)) => report(name, &stop, given(&arguments, &["--json"]), &mut out),
    };
    std::process::exit(status);
}

/// Whether one of some flags is among the arguments. After `--` there are none.
fn given(arguments: &[String], flags: &[&str]) -> bool {
    arguments.iter().take_while(|word| *word != "--").any(|word| flags.contains(&word.as_str()))
}

/// Runs the sub-command that the first argument names.
fn dispatch<'a>(arguments: &'a [String], out: &mut dyn Write) -> Result<i32, (&'a str, Stop)> {
    let Some((name, rest)) = arguments.split_first() else {
        eprint!("{}", pages::overview());
        return Ok(USAGE);
    };
    match name.as_str() {
        "help" | "--help" | "-h" => match rest {
            [] => show(out, &pages::overview()),
            [about] if about == "--man" => show(out, &pages::manual()),
            [option, shell] if option == "--completion" => {
                show(out, &pages::completion(shell).map_err(|stop| ("", stop))?)
            }
            [about, ..] => show(out, find(about).map_err(|stop| ("", stop))?.help),
        },
        "--version" | "-V" => show(out, concat!("cuckooormolu ", env!("CARGO_PKG_VERSION"))),
        name => {
            let command = find(name).map_err(|stop| ("", stop))?;
            if given(rest, &["--help", "-h"]) {
                return show(out, command.help);
            }
            (command.main)(rest, out).map_err(|stop| (name, stop))
        }
    }
}

fn show<'a>(out: &mut dyn Write, text: &str) -> Result<i32, (&'a str, Stop)> {
    writeln!(out, "{}", text.trim_end()).map_err(|error| ("", error.into()))?;
    Ok(WELL)
}

fn find(name: &str) -> Result<&'static Command, Stop> {
    COMMANDS.iter().find(|command| command.name == name).ok_or_else(|| {
        if name == "install" {
            let script = "`./cuckooormolu install [--prefix DIR]`";
            return Stop::Usage(format!("a checkout installs the tool, by its script: {script}"));
        }
        if name == "version" {
            return Stop::Usage("`cuckooormolu --version` says it".into());
        }
        let hint = did_you_mean(name, COMMANDS.iter().map(|command| command.name));
        Stop::Usage(format!("no command `{name}`{hint}"))
    })
}

/// Says why a sub-command stopped: on standard error, or as JSON after whatever was
/// printed before, if that can be printed. Gives the exit status.
fn report(name: &str, stop: &Stop, json: bool, out: &mut dyn Write) -> i32 {
    let who = if name.is_empty() { "cuckooormolu".into() } else { format!("cuckooormolu {name}") };
    let written = match json {
        true => stop.json().iter().try_for_each(|line| writeln!(out, "{line}")),
        false => Ok(()),
    };
    let flushed = out.flush();
    match stop {
        _ if json && written.is_ok() && flushed.is_ok() => {}
        Stop::Closed => {}
        Stop::Usage(_) => eprintln!("{who}: {stop}\n`{who} --help` says more."),
        Stop::Mistaken(_) | Stop::Told(..) => eprintln!("{stop}"),
        Stop::Failed(_) | Stop::Differ(_) => eprintln!("{who}: {stop}"),
    }
    stop.status()
}
