//! What was meant by a line that is no request: `Dora shares with Kim`, `load Tom Glass Pad`.

use super::{Names, Terms};
use crate::aloud::verbs::verb;

/// Words between the three that a request leaves out.
const LEFT_OUT: [&str; 12] =
    ["with", "to", "from", "for", "on", "the", "a", "may", "can", "has", "have", "not"];

/// Words that begin a statement of terms.say.
const STATEMENTS: [&str; 8] =
    ["members", "member", "relation", "relations", "event", "events", "define", "first"];

/// What to write in the place of some words; none where no guess is good.
pub fn meant(words: &[&str], terms: &Terms, names: &Names) -> Option<String> {
    if words.first().is_some_and(|word| STATEMENTS.contains(word)) {
        return Some("this belongs in terms.say; a request is `load pete saw`".to_string());
    }
    if words.first().is_some_and(|word| ["test", "given", "then", "only", "nobody"].contains(word))
    {
        return Some("this belongs in tests.say; a request is `load pete saw`".to_string());
    }
    let joined = joined(words, terms, names);
    let event = |word: &str| {
        (0..terms.events).map(|event| names.event(event)).find(|name| is_form(name, word))
    };
    let kept = joined.iter().filter(|word| !LEFT_OUT.contains(&word.as_str()));
    let kept: Vec<String> = kept.map(|word| event(word).unwrap_or_else(|| word.clone())).collect();
    let [one, two, three] = &kept[..] else { return None };
    names.asked([one, two, three], terms).ok()?;
    let said = format!("did you mean `{one} {two} {three}`?");
    Some(match words.iter().any(|word| ["may", "can"].contains(word)) {
        true => format!("{said} Who may do what goes into tests.say"),
        false => said,
    })
}

/// The words, two of them joined where that is the name of a member.
fn joined(words: &[&str], terms: &Terms, names: &Names) -> Vec<String> {
    let mut joined: Vec<String> = Vec::new();
    for word in words {
        let both = joined.last().map(|last| format!("{last}-{word}"));
        let member = both.and_then(|both| {
            let mut members = (0..terms.members).map(|member| names.member(member));
            members.find(|name| name.to_lowercase() == both.to_lowercase())
        });
        match member {
            Some(member) => *joined.last_mut().expect("it was joined") = member,
            None => joined.push(word.to_string()),
        }
    }
    joined
}

/// Whether a word is a form of an event's name.
fn is_form(name: &str, word: &str) -> bool {
    let forms = verb(name).map(|verb| [verb.base, verb.third, verb.past, verb.participle]);
    name == word || forms.is_some_and(|forms| forms.iter().any(|form| form == word))
}
