//! The words after `because`, held against what `why` says.

use crate::aloud::verbs::verb;
use crate::names::{Kind, Names};
use crate::why::Because;

/// Whether a reason, with what is told under it, has the words in this order. Others may
/// stand between them, and a declared name stands for all its forms.
pub fn says(because: &Because, wanted: &str, names: &Names) -> bool {
    let wanted: Vec<Vec<String>> = words(wanted).map(|word| forms(word, names)).collect();
    reasons(because).iter().any(|reason| {
        let mut said = reason.iter();
        wanted.iter().all(|forms| said.any(|word| forms.contains(word)))
    })
}

/// Which of the words no reason has, or that they stand in another order.
pub fn missing(because: &Because, wanted: &str, names: &Names) -> String {
    let said = reasons(because).concat();
    let is_said = |word: &&str| forms(word, names).iter().any(|form| said.contains(form));
    let missing: Vec<&str> = words(wanted).filter(|word| !is_said(word)).collect();
    match missing.is_empty() {
        true => format!("not found in this order: {wanted}"),
        false => format!("not found: {}", missing.join(" ")),
    }
}

/// The words of each reason: a line, and those that are told under it.
fn reasons(because: &Because) -> Vec<Vec<String>> {
    let mut reasons: Vec<Vec<String>> = Vec::new();
    for line in &because.lines {
        let said = words(line).map(str::to_lowercase);
        match reasons.last_mut() {
            Some(reason) if line.starts_with(' ') => reason.extend(said),
            _ => reasons.push(said.collect()),
        }
    }
    reasons
}

/// The words of a line, without signs.
fn words(line: &str) -> impl Iterator<Item = &str> {
    let part = |letter: char| !(letter.is_alphanumeric() || letter == '-' || letter == '_');
    line.split(part).filter(|word| !word.is_empty())
}

/// A word in small letters, and the forms in which it is said if it is the name of an
/// event, a relation or a definition.
fn forms(word: &str, names: &Names) -> Vec<String> {
    let mut forms = vec![word.to_lowercase()];
    let event = names.find(Kind::Event, word);
    if let Some(spoken) = event.and_then(|event| names.spoken(event)) {
        let first = |text: &str| words(text).next().map(str::to_lowercase);
        forms.extend(first(&spoken.may).into_iter().chain(first(&spoken.has)));
        return forms;
    }
    let is_relation = names.find(Kind::Relation, word).is_some();
    if event.is_some() || is_relation || names.is_definition(word) {
        let said = verb(word).map(|verb| [verb.base, verb.third, verb.past, verb.participle]);
        forms.extend(said.into_iter().flatten());
    }
    forms
}

#[cfg(test)]
mod tests {
    use super::*;
    use crate::names::{Called, Spoken};

    #[test]
    fn words_of_a_reason() {
        let lines = [
            "dora owns saw, but Dora shared with pete",
            "  pete is Suspended",
            "quin peers at saw",
        ];
        let lines = lines.map(str::to_string).to_vec();
        let because = Because { granted: false, lines, ..Because::default() };
        let mut names =
            Names::read("event\t0\tshare\nevent\t1\tpeek\nrelation\t0\towns\n").unwrap();
        names.say(1, Spoken::of("peek", "peers at / peered at"));
        names.define(0, Called::new("gets".into(), vec![None, Some(0)]));
        let says = |wanted: &str| super::says(&because, wanted, &names);
        for wanted in
            ["suspended", "dora shared pete", "dora share pete", "share SUSPENDED", "peek saw"]
        {
            assert!(says(wanted), "{wanted}");
        }
        for wanted in ["pend", "pete shared dora", "withdraw", "suspended quin", "gets"] {
            assert!(!says(wanted), "{wanted}");
        }
        assert_eq!(forms("gets", &names), ["gets", "get", "gets", "got", "got"]);
        let missing = |wanted: &str| super::missing(&because, wanted, &names);
        assert_eq!(missing("Pete is banned again"), "not found: banned again");
        assert_eq!(missing("pete share"), "not found in this order: pete share");
    }
}
