//! What a typed line asks for.

use crate::bank::Bank;
use crate::names::{did_you_mean, Kind, Names};
use keeper::terms::Terms;

pub const HELP: &str = "\
EVENT FROM TO        make a request:  share dora pete, or dora share pete
look EVENT FROM TO   what the answer would be; makes no moment
why [all]            why the last answer is what it is; with all, every fact
why EVENT FROM TO    why it would be granted or denied
who EVENT            who may do it to whom
list                 the requests so far, with their answers
members              the names of members, relations and events
undo                 take back the last request or revision
revise DIR           continue with the terms of DIR, and say what changes
save [FILE]          write the requests to FILE, by default the folder's own:
                     by name beside a terms.say or in a .say, else by number
help                 show this
quit                 end

To try two banks, which share members and relations, each with its own past, name the
bank before every event from the first on: left share dora pete; look right load pete saw;
why left load pete saw; who right load. A moment made in one bank is a moment in the
other too, without the event there.";

const WORDS: [&str; 10] =
    ["look", "why", "who", "undo", "list", "members", "revise", "save", "help", "quit"];

/// The words that may stand where a line ends.
pub fn next(before: &str, terms: &Terms, names: &Names) -> Vec<String> {
    let all = |kind: Kind, count: usize| -> Vec<String> {
        let named = (0..count).filter_map(|number| names.given(kind, number));
        let quoted = |name: &str| match name.contains(' ') {
            true => format!("\"{name}\""),
            false => name.to_string(),
        };
        named.map(quoted).collect()
    };
    let mut words = split(before);
    if !before.ends_with(' ') {
        words.pop();
    }
    let words: Vec<&str> = words.iter().map(String::as_str).collect();
    let (asked, rest) = match words[..] {
        [asked @ ("look" | "why" | "who"), ref rest @ ..] => (Some(asked), rest),
        ref rest => (None, rest),
    };
    // A bank may come before the event.
    let (bank, rest) = match rest {
        [first, rest @ ..] if Bank::named(first).is_some() => (true, rest),
        rest => (false, rest),
    };
    let events = all(Kind::Event, terms.events);
    let is_member = |word: &str| {
        names.find(Kind::Member, word).is_some() && names.find(Kind::Event, word).is_none()
    };
    let banks = Bank::BOTH.map(|bank| bank.word().to_string()).to_vec();
    match (asked, rest.len()) {
        (None, 0) if !bank => {
            let commands = WORDS.map(str::to_string).to_vec();
            [events, commands, banks].concat()
        }
        (Some("why"), 0) if !bank => [events, vec!["all".into()], banks].concat(),
        (Some(_), 0) if !bank => [events, banks].concat(),
        (_, 0) => events,
        (asked, 1) if asked != Some("who") && is_member(rest[0]) => events,
        (asked, 1 | 2) if asked != Some("who") => all(Kind::Member, terms.members),
        _ => Vec::new(),
    }
}

/// An event, its initiator and its target, and the bank if one is named.
#[derive(Clone, Copy, Debug, PartialEq, Eq)]
pub struct Call {
    pub bank: Option<Bank>,
    pub event: usize,
    pub from: usize,
    pub to: usize,
}

/// A line that was understood.
#[derive(Clone, Debug, PartialEq, Eq)]
pub enum Typed {
    Nothing,
    Request(Call),
    Look(Call),
    /// Why the last answer was as it was; all of it or the beginning.
    Why(bool),
    WhyNot(Call),
    Who(Option<Bank>, usize),
    List,
    Members,
    Undo,
    /// The folder of the new terms, and whether their names are other names of the
    /// same.
    Revise(String, bool),
    Save(Option<String>),
    Help,
    Quit,
}

/// Understands a line, or says what is wrong with it.
pub fn read(line: &str, terms: &Terms, names: &Names) -> Result<Typed, String> {
    let words = split(line);
    let words: Vec<&str> = words.iter().map(String::as_str).collect();
    let event = |word: &str| {
        let known = names.events(terms);
        names.lookup(Kind::Event, word, terms.events).map_err(|_| unknown(word, &known))
    };
    let call = |bank: Option<Bank>, of: &str, from: &str, to: &str| {
        let [of, from, to] = names.event_first([of, from, to], terms);
        let event = event(of)?;
        let from = names.lookup(Kind::Member, from, terms.members)?;
        let to = names.lookup(Kind::Member, to, terms.members)?;
        Ok::<Call, String>(Call { bank, event, from, to })
    };
    let is_bank = |word: &str| Bank::named(word).is_some();
    Ok(match words[..] {
        [] => Typed::Nothing,
        ["quit" | "exit" | "q"] => Typed::Quit,
        ["help" | "?"] => Typed::Help,
        ["list"] => Typed::List,
        ["members"] => Typed::Members,
        ["undo"] => Typed::Undo,
        ["revise", folder] => Typed::Revise(folder.to_string(), false),
        ["revise", folder, "--renamed"] => Typed::Revise(folder.to_string(), true),
        ["save"] => Typed::Save(None),
        ["save", file] => Typed::Save(Some(file.to_string())),
        ["why"] => Typed::Why(false),
        ["why", "all"] => Typed::Why(true),
        ["why", of, from, to] => Typed::WhyNot(call(None, of, from, to)?),
        ["why", bank, of, from, to] if is_bank(bank) => {
            Typed::WhyNot(call(Bank::named(bank), of, from, to)?)
        }
        ["who", of] => Typed::Who(None, event(of)?),
        ["who", bank, of] if is_bank(bank) => Typed::Who(Bank::named(bank), event(of)?),
        ["look", of, from, to] => Typed::Look(call(None, of, from, to)?),
        ["look", bank, of, from, to] if is_bank(bank) => {
            Typed::Look(call(Bank::named(bank), of, from, to)?)
        }
        ["who"] => {
            let events = names.events(terms).join(", ");
            return Err(format!("{}; events: {events}", usage("who")));
        }
        [word, ..] if WORDS.contains(&word) => return Err(usage(word)),
        [bank, of, from, to] if is_bank(bank) => {
            Typed::Request(call(Bank::named(bank), of, from, to)?)
        }
        [bank, ..] if is_bank(bank) && names.find(Kind::Event, bank).is_none() => {
            return Err(format!("like this: {bank} EVENT FROM TO"));
        }
        [of, from, to] => Typed::Request(call(None, of, from, to)?),
        [member, ..] if names.find(Kind::Member, member).is_some() && event(member).is_err() => {
            return Err(format!("like this: {member} EVENT TO, or EVENT {member} TO"));
        }
        [word, ..] => {
            event(word)?;
            return Err(format!("like this: {word} FROM TO"));
        }
    })
}

fn unknown(word: &str, events: &[String]) -> String {
    let banks = Bank::BOTH.map(Bank::word);
    let known = events.iter().map(String::as_str).chain(WORDS).chain(banks);
    match did_you_mean(word, known) {
        hint if hint.is_empty() => {
            format!(
                "no event or command `{word}`; events: {}; `help` has the commands",
                events.join(", ")
            )
        }
        hint => format!("no event or command `{word}`{hint}"),
    }
}

/// How a command is used, from the help.
fn usage(word: &str) -> String {
    let table = HELP.lines().take_while(|line| !line.is_empty());
    let lines = table.filter(|line| line.split(' ').next() == Some(word));
    let usages: Vec<&str> = lines.filter_map(|line| line.split("  ").next()).collect();
    format!("like this: {}", usages.join(", or "))
}

/// The words of a line; what stands in double quotes is one word, arrows are none.
pub(crate) fn split(line: &str) -> Vec<String> {
    let mut words = Vec::new();
    for (index, part) in line.split('"').enumerate() {
        if index % 2 == 1 {
            words.push(part.to_string());
            continue;
        }
        let plain = part.split_whitespace().filter(|word| !["→", "->"].contains(word));
        words.extend(plain.map(str::to_string));
    }
    words
}

#[cfg(test)]
mod tests;
