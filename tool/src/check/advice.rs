//! What would be right in the place of a word that isn't one.

use super::fault::Fault;
use super::line::{Field, FORM};
use crate::names::did_you_mean;
use keeper::terms::read::number;
use keeper::terms::OPERATORS;

/// Words that people write, and what says the same.
const DERIVED: &[(&[&str], &str)] = &[
    (&["and", "both", "&", "&&"], "not (or (not f) (not g)) says it"),
    (&["|", "||", "either"], "or f g says it"),
    (&["!", "no", "~"], "not f says it"),
    (&["once", "ever", "sometime", "past"], "since top f says it, with an entry `top`"),
    (
        &["always", "historically", "throughout"],
        "not (since top (not f)) says it, with an entry `top`",
    ),
    (&["never"], "not (since top f) says it, with an entry `top`"),
    (
        &["all", "every", "each", "forall", "box"],
        "not (out l (not f)) says it; `in` for edges that lead here",
    ),
    (
        &["some", "exists", "any", "diamond", "edge"],
        "out l f says it; in l f for edges that lead here",
    ),
    (
        &["count", "least", "atleast", "number", "enough"],
        "many l f k says that at least k neighbours satisfy f",
    ),
    (&["none", "nobody"], "not (out l f) says it; `in` for edges that lead here"),
    (&["implies", "if", "then", "imp", "->"], "or (not f) g says it"),
    (&["true", "1", "yes", "t"], "top says it"),
    (&["false", "bottom", "bot", "f"], "not (top) says it"),
    (&["yesterday", "before", "previously", "previous", "last", "y"], "prev f says it"),
    (&["down", "as", "let", "name", "me"], "bind x f says it"),
    (&["@", "goto"], "at x f says it"),
    (
        &["is", "target", "self", "eq", "x"],
        "var x says that here is x; var 0, that here is the target",
    ),
    (
        &["next", "until", "eventually", "finally", "future"],
        "formulas speak of the past only: prev and since",
    ),
];

/// An F line whose word is none.
pub fn no_word(word: Field, operands: [Field; 2], entry: usize) -> Fault {
    let shown = word.shown();
    let fault = |what: String| Fault::new(FORM, word.place(), what);
    let words = OPERATORS.map(|operator| operator.word);
    let all = format!("the words are {}", words.join(", "));
    let lower = shown.to_lowercase();
    if shown.is_empty() {
        return fault("an empty field where a word is due".into()).right(all);
    }
    if words.contains(&lower.as_str()) {
        return fault(format!("no word `{shown}`")).right(format!("words are lower case: {lower}"));
    }
    if number(word.bytes).is_some() {
        let moved =
            operands.iter().any(|field| words.iter().any(|name| name.as_bytes() == field.bytes));
        let what = format!("the number {shown} where a word is due");
        let right =
            if moved { "entry number, word, operands is the order".to_string() } else { all };
        return fault(what).right(right);
    }
    let derived = DERIVED.iter().find(|(known, _)| known.contains(&lower.as_str()));
    if let Some((_, says)) = derived {
        let lines = if lower == "and" { conjunction(operands, entry) } else { String::new() };
        return fault(format!("no word `{shown}`")).right(format!("{says}{lines}"));
    }
    fault(format!("no word `{shown}`{}", nearest_word(&shown, &words))).right(all)
}

/// The four lines that say "f and g" in the place of one.
fn conjunction([f, g]: [Field; 2], entry: usize) -> String {
    let (Some(f), Some(g)) = (number(f.bytes), number(g.bytes)) else { return String::new() };
    let [first, second, third, fourth] = [entry, entry + 1, entry + 2, entry + 3];
    format!(
        ": F {first} not {f} 0, F {second} not {g} 0, F {third} or {first} {second}, F {fourth} not {third} 0, and entries after it count on from there"
    )
}

/// `; did you mean ...?` for a word of a few.
pub fn nearest_word(shown: &str, words: &[&str]) -> String {
    let long = [
        ("remove", "del"),
        ("delete", "del"),
        ("insert", "add"),
        ("forward", "fwd"),
        ("forth", "fwd"),
        ("backward", "back"),
        ("backwards", "back"),
        ("bwd", "back"),
    ];
    let lower = shown.to_lowercase();
    let known = long.iter().find(|(long, short)| *long == lower && words.contains(short));
    match known {
        Some((_, short)) => format!("; did you mean `{short}`?"),
        None => did_you_mean(shown, words.iter().copied()),
    }
}
