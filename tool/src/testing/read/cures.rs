//! Words of everyday speech that a test does not have, and what to write instead.

use crate::source::mistake::Mistake;
use crate::testing::lines::Word;

/// What to write instead of a word that stands where a member is due.
pub fn of_member(word: &Word, rest: &[Word]) -> Option<String> {
    let next = rest.first().map_or("kick", |next| next.text);
    Some(match word.text.to_lowercase().as_str() {
        "everyone" | "everybody" | "all" | "anybody" => "write `anyone`".into(),
        "no" | "noone" | "no-one" | "none" => "write `nobody`".into(),
        "the" | "a" | "an" => format!("leave out `{}`: write `{next}`", word.text),
        _ => return None,
    })
}

/// What is wrong with `nobody except pete`, whose first word was read.
pub fn of_exception(rest: &[Word]) -> Option<Mistake> {
    let [except, more @ ..] = rest else { return None };
    if !["except", "but", "besides"].iter().any(|word| except.is(word)) {
        return None;
    }
    let who = more.first().map_or("pete", |who| who.text);
    let message = format!("`nobody` takes no `{}`", except.text);
    Some(Mistake::new(except.span, message).advise(format!("write `only {who}`")))
}

/// What is wrong with `expect pete may load saw` and `then pete may load saw`: a question with a
/// word before it.
pub fn of_first(words: &[Word]) -> Option<Mistake> {
    const FIRST: [&str; 9] =
        ["expect", "assert", "check", "ensure", "verify", "and", "so", "then", "given"];
    let first = words.first().filter(|word| !word.quoted && FIRST.contains(&word.text))?;
    // `given dora may pete` may be an event of that name.
    let asks = matches!(words.get(2), Some(word) if word.is("may")) && words.len() > 4;
    let question: Vec<&str> = words[1..].iter().map(|word| word.text).collect();
    let message = "a question stands alone";
    let advice = format!("leave out `{}`: `{}`", first.text, question.join(" "));
    asks.then(|| Mistake::new(first.span, message).advise(advice))
}

/// What is wrong with `pete may not load saw since dora`, from the `since` on.
pub fn of_reason(rest: &[Word]) -> Option<Mistake> {
    let first = rest.first().filter(|word| !word.quoted)?;
    let two = rest.get(1).map_or("", |word| word.text);
    let (last, reason) = match (first.text, two) {
        ("due", "to") | ("thanks", "to") => (&rest[1], &rest[2..]),
        ("since" | "as" | "for" | "cause" | "cos" | "why" | "reason", _) => (first, &rest[1..]),
        _ => return None,
    };
    let reason: Vec<&str> = reason.iter().map(|word| word.text).collect();
    let words = if last.text == first.text { String::new() } else { format!(" {}", last.text) };
    let message = format!("a reason begins with `because`, not with `{}{words}`", first.text);
    let advice = format!("write `{}`", format!("because {}", reason.join(" ")).trim_end());
    Some(Mistake::new(first.span.to(last.span), message).advise(advice))
}

/// What is wrong with a statement that says `can` or `cannot` for `may`.
pub fn of_question(words: &[Word]) -> Option<Mistake> {
    let (word, instead) = words.iter().find_map(|word| {
        let instead = match word.text {
            _ if word.quoted => return None,
            "can" | "might" | "should" | "must" | "is-allowed" => "may",
            "cannot" | "can't" | "can’t" | "mayn't" | "mustn't" | "shouldn't" => "may not",
            _ => return None,
        };
        Some((word, instead))
    })?;
    let message = format!("a question has `{instead}`, not `{}`", word.text);
    Some(Mistake::new(word.span, message).advise(format!("write `{instead}`")))
}
