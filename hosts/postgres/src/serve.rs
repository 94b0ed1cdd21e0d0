//! `circles serve`: the lines of standard input, and their answers.

use crate::Done;
use circles::{report, Error, Key, Patient};
use cuckooormolu::{Event, Member, Request};
use std::collections::BTreeSet;
use std::io::{self, BufRead, BufReader, Write};

pub const KEY: &str = "a key has 32 hexadecimal digits, with or without dashes";

/// Answers line by line. A request that fails has its answer, too, and the next line is read; only where there is no
/// way to the circles any more, the worker ends after that answer, since all others would be the same.
pub fn serve(to: &str) -> Done {
    let mut client = Patient::new(to);
    let mut input = BufReader::new(io::stdin());
    let mut out = io::stdout().lock();
    let mut reported = BTreeSet::new();
    let mut line = Vec::new();
    while input.read_until(b'\n', &mut line)? > 0 {
        let asked = line.strip_suffix(b"\n").unwrap_or(&line);
        match parse(asked) {
            Err(wrong) => {
                out.write_all(asked)?;
                writeln!(out, "\terror\tno request: {wrong}")?;
            }
            Ok((circle, shown, key, request)) => {
                match client.request_before(circle, key, request, next_circle(input.buffer())) {
                    Ok(Ok(answer)) => writeln!(out, "{shown}\t{answer}")?,
                    Ok(Err(refusal)) => writeln!(out, "{shown}\trefuse\t{}", refusal.number())?,
                    Err(error) => {
                        let why = error.of(circle);
                        writeln!(out, "{shown}\terror\t{why}")?;
                        out.flush()?;
                        match error {
                            Error::Away(_) => Err(why)?,
                            Error::NoCircle | Error::OtherRequest => {}
                            // Once, however often the circle is asked.
                            _ if reported.insert(why.clone()) => report(why),
                            _ => {}
                        }
                    }
                }
            }
        }
        out.flush()?;
        line.clear();
    }
    Ok(())
}

/// The circle of the next request, where its whole line has come already.
fn next_circle(coming: &[u8]) -> Option<i64> {
    let feed = coming.iter().position(|&byte| byte == b'\n')?;
    let (circle, ..) = parse(&coming[..feed]).ok()?;
    Some(circle)
}

/// Circle, key as it stands there, key and request of a line; or what is wrong with it.
fn parse(line: &[u8]) -> Result<(i64, &str, Key, Request), &'static str> {
    let line = std::str::from_utf8(line).map_err(|_| "the line is not UTF-8")?;
    if line.ends_with('\r') {
        return Err("the line ends with a carriage return");
    }
    let fields = line.split('\t').collect::<Vec<_>>();
    let ["R", circle, shown, event, from, to] = fields[..] else {
        return Err("a line is R, circle, key, event, from and to, separated by tabs");
    };
    let name = |field: &str| field.parse().map_err(|_| "events and members are numbers up to 255");
    let request =
        Request { event: Event(name(event)?), from: Member(name(from)?), to: Member(name(to)?) };
    let circle = circle.parse().map_err(|_| "a circle is a number")?;
    Ok((circle, shown, key(shown).ok_or(KEY)?, request))
}

pub fn key(shown: &str) -> Option<Key> {
    let digits = shown.replace('-', "");
    let form = digits.len() == 32 && digits.bytes().all(|byte| byte.is_ascii_hexdigit());
    form.then(|| u128::from_str_radix(&digits, 16).ok()).flatten().map(u128::to_be_bytes)
}
