//! A worker: answers requests to the circles of a server. `circles --help` says how it is called.

mod serve;

use circles::libpq::Connection;
use circles::{report, Circles, Patient, LIMIT, SCHEMA, UPGRADE};
use cuckooormolu::{Monitor, WithinError};
use std::error::Error;
use std::io::{self, Write};
use std::process::ExitCode;

const HELP: &str = "\
usage: circles schema TO
       circles upgrade TO
       circles create [--effort ROWS] TO CIRCLE TERMS
       circles revise [--effort ROWS] TO CIRCLE KEY TERMS
       circles show TO CIRCLE
       circles check [--effort ROWS] TO
       circles serve TO
       circles --help | --version

  schema    makes the tables, in an empty database
  upgrade   brings tables of earlier versions to the present form
  create    makes a circle that stands as a file of terms says, stored or not
  revise    gives a circle the terms of such a file; says `done`, or `refuse 13` if the
            numbers of members, relations or events differ
  show      prints a circle in the stored form, which `cuckooormolu` and `create` read
  check     reads every circle, and names those that are damaged or cost too much
  serve     answers the lines of standard input

TO is a connection string of libpq, CIRCLE a number, KEY 32 hexadecimal digits with or
without dashes. TERMS is a terms.tsv: `cuckooormolu compile` makes it from a terms.say.

A line is `R`, circle, key, event, from and to, separated by tabs. Its answer is the key
and `grant`, `deny`, `refuse` and a number, or `error` and why, separated by tabs. While
the server is away, `serve` and `revise` ask again with the same key, for a minute. A
client that sends the next line before it has the answer saves a round trip.

`create` and `revise` refuse terms under which a single request may compute more than
1,000,000 rows; --effort sets another limit.

Exit status: 0; 1 if it was not done, terms are refused, a circle is damaged (check), or
there is no way to the circles any more (serve).
";

type Done = Result<(), Box<dyn Error>>;

fn main() -> ExitCode {
    let arguments = std::env::args().skip(1).collect::<Vec<_>>();
    match run(&arguments.iter().map(String::as_str).collect::<Vec<_>>()) {
        Ok(()) => ExitCode::SUCCESS,
        Err(error) => {
            report(error);
            ExitCode::FAILURE
        }
    }
}

fn run(words: &[&str]) -> Done {
    match *words {
        ["--help" | "-h" | "help"] => print(HELP.as_bytes()),
        ["--version" | "-V"] => {
            print(concat!("circles ", env!("CARGO_PKG_VERSION"), "\n").as_bytes())
        }
        ["schema", to] => script(to, SCHEMA),
        ["upgrade", to] => script(to, UPGRADE),
        ["create", "--effort", rows, to, circle, terms] => create(limit(rows)?, to, circle, terms),
        ["create", to, circle, terms] => create(LIMIT, to, circle, terms),
        ["revise", "--effort", rows, to, circle, key, terms] => {
            revise(limit(rows)?, to, circle, key, terms)
        }
        ["revise", to, circle, key, terms] => revise(LIMIT, to, circle, key, terms),
        ["show", to, circle] => show(to, circle),
        ["check", "--effort", rows, to] => check(limit(rows)?, to),
        ["check", to] => check(LIMIT, to),
        ["serve", to] => serve::serve(to),
        _ => Err("a call that is none of these:\n".to_string()
            + HELP.split("\n\n").next().unwrap_or_default())?,
    }
}

fn print(bytes: &[u8]) -> Done {
    Ok(io::stdout().write_all(bytes)?)
}

fn script(to: &str, script: &str) -> Done {
    Ok(Connection::script(to, script).map_err(|lost| lost.to_string())?)
}

fn limit(rows: &str) -> Result<usize, &'static str> {
    rows.parse().map_err(|_| "--effort takes a number of rows")
}

fn number(circle: &str) -> Result<i64, String> {
    circle.parse().map_err(|_| format!("{circle} is not the number of a circle"))
}

/// The monitor of a file, where the limit allows its terms.
fn read(limit: usize, file: &str) -> Result<Monitor, Box<dyn Error>> {
    if file.ends_with(".say") {
        Err(format!("{file} is a source: `cuckooormolu compile` makes a terms.tsv from it"))?;
    }
    let text = std::fs::read(file).map_err(|error| format!("{file}: {error}"))?;
    match Monitor::read_within(&text, limit) {
        Err(WithinError::Costly(rows)) => Err(circles::Error::Costly { rows, limit })?,
        read => Ok(read.map_err(|error| format!("{file}: {error}"))?),
    }
}

fn create(limit: usize, to: &str, circle: &str, terms: &str) -> Done {
    let circle = number(circle)?;
    let monitor = read(limit, terms)?;
    let mut circles = Circles::connect(to)?.within(limit);
    Ok(circles.create(circle, &monitor).map_err(|error| error.of(circle))?)
}

fn revise(limit: usize, to: &str, circle: &str, key: &str, terms: &str) -> Done {
    let (circle, key) = (number(circle)?, serve::key(key).ok_or(serve::KEY)?);
    let monitor = read(limit, terms)?;
    let mut client = Patient::new(to).within(limit);
    match client.revise(circle, key, monitor.terms()).map_err(|error| error.of(circle))? {
        Ok(()) => print(b"done\n"),
        Err(refusal) => {
            print(format!("refuse\t{}\n", refusal.number()).as_bytes())?;
            Err(format!("circle {circle} keeps its terms: {refusal}"))?
        }
    }
}

fn show(to: &str, circle: &str) -> Done {
    let circle = number(circle)?;
    print(&Circles::connect(to)?.stored(circle).map_err(|error| error.of(circle))?.store())
}

/// Every row, since a circle that nobody asks would not be noticed.
fn check(limit: usize, to: &str) -> Done {
    let mut circles = Circles::connect(to)?;
    let mut out = io::stdout().lock();
    let [mut all, mut damaged, mut costly] = [0; 3];
    let mut first = Some(i64::MIN);
    while let Some(from) = first {
        let some = circles.stored_from(from)?;
        first = some.last().and_then(|(circle, _)| circle.checked_add(1));
        for (circle, stored) in some {
            all += 1;
            match stored.map(|monitor| monitor.terms().effort()) {
                Ok(rows) if rows > limit => {
                    costly += 1;
                    let why = circles::Error::Costly { rows, limit };
                    writeln!(out, "circle {circle}: {why}")?;
                }
                Ok(_) => {}
                Err(error) => {
                    damaged += 1;
                    writeln!(out, "{}", error.of(circle))?;
                }
            }
        }
    }
    writeln!(out, "circles: {all}; damaged: {damaged}; above the limit of {limit} rows: {costly}")?;
    match damaged {
        0 => Ok(()),
        _ => Err("damaged circles")?,
    }
}
