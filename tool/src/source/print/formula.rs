//! Writes formulas, on one line or on several.

use crate::source::ast::*;

/// Formulas up to this many letters stand on one line.
pub(super) const WIDTH: usize = 92;

/// A formula on one line.
pub fn flat(formula: &Formula) -> String {
    match &formula.kind {
        Kind::True => "true".into(),
        Kind::False => "false".into(),
        Kind::Is(one, other) => format!("{} is {}", person(one), person(other)),
        Kind::Edge(from, label, to) => format!("{} {} {}", end(from), label.text, end(to)),
        Kind::Defined(name, people) if people.is_empty() => name.text.clone(),
        Kind::Defined(name, people) => {
            let people: Vec<String> = people.iter().map(person).collect();
            format!("{}({})", name.text, people.join(", "))
        }
        Kind::And(f, g) | Kind::Or(f, g) | Kind::Since(f, g) => {
            let word = operator(&formula.kind);
            format!("{} {word} {}", left(f, &formula.kind), operand(g))
        }
        Kind::Not(f) if matches!(f.kind, Kind::Is(..)) => flat(f).replacen(" is ", " is not ", 1),
        Kind::Not(f) | Kind::Once(f) | Kind::Always(f) | Kind::Never(f) | Kind::Previously(f) => {
            format!("{} {}", operator(&formula.kind), operand(f))
        }
        Kind::Walk(walk) if goes_without_saying(walk) => head(walk),
        Kind::Walk(walk) => format!("{}: {}", head(walk), flat(&walk.body)),
        Kind::Step(step) => format!("{}: {}", start(step), flat(&step.body)),
        Kind::At(whom, f) => format!("at {}: {}", person(whom), flat(f)),
        Kind::As(name, f) => format!("as {}: {}", name.text, flat(f)),
    }
}

/// A formula on as many lines as it takes, each but the first indented.
pub(super) fn laid(formula: &Formula, indent: usize) -> String {
    let line = flat(formula);
    if indent + line.len() < WIDTH {
        return line;
    }
    let start = format!("\n{}", " ".repeat(indent));
    match &formula.kind {
        Kind::And(f, g) | Kind::Or(f, g) | Kind::Since(f, g) => {
            let word = operator(&formula.kind);
            let chained = same(&f.kind, &formula.kind);
            let first = if chained { laid(f, indent) } else { laid_operand(f, indent) };
            format!("{first}{start}{word} {}", laid_operand(g, indent + word.len() + 1))
        }
        Kind::Not(f) | Kind::Once(f) | Kind::Always(f) | Kind::Never(f) | Kind::Previously(f) => {
            let word = operator(&formula.kind);
            format!("{word} {}", laid_operand(f, indent + word.len() + 1))
        }
        Kind::Walk(walk) => format!("{}:{start}  {}", head(walk), laid(&walk.body, indent + 2)),
        Kind::Step(step) => {
            format!("{}:{start}  {}", self::start(step), laid(&step.body, indent + 2))
        }
        Kind::At(whom, f) => format!("at {}:{start}  {}", person(whom), laid(f, indent + 2)),
        Kind::As(name, f) => format!("as {}:{start}  {}", name.text, laid(f, indent + 2)),
        _ => line,
    }
}

fn laid_operand(formula: &Formula, indent: usize) -> String {
    if stands_alone(formula) {
        laid(formula, indent)
    } else {
        format!("({})", laid(formula, indent + 1))
    }
}

fn operand(formula: &Formula) -> String {
    if stands_alone(formula) {
        flat(formula)
    } else {
        format!("({})", flat(formula))
    }
}

/// The left of two: a chain of the same operator needs no parentheses.
fn left(formula: &Formula, outer: &Kind) -> String {
    if same(&formula.kind, outer) {
        flat(formula)
    } else {
        operand(formula)
    }
}

fn same(inner: &Kind, outer: &Kind) -> bool {
    matches!((inner, outer), (Kind::And(..), Kind::And(..)) | (Kind::Or(..), Kind::Or(..)))
}

/// Whether a formula can be part of another without parentheses.
fn stands_alone(formula: &Formula) -> bool {
    match &formula.kind {
        Kind::And(..) | Kind::Or(..) | Kind::Since(..) => false,
        Kind::At(..) | Kind::As(..) | Kind::Step(_) => false,
        Kind::Walk(walk) => goes_without_saying(walk),
        _ => true,
    }
}

fn goes_without_saying(walk: &Walk) -> bool {
    walk.body.kind == Kind::True && walk.quantifier != Quantifier::Every
}

/// A step up to its colon. What has a colon of its own, or could take this one,
/// gets parentheses.
fn start(step: &Step) -> String {
    let quantifier = if step.every { "every" } else { "some" };
    let leads = flat(&step.leads);
    let walks = |word: &str| ["some", "every", "least"].contains(&word);
    let takes = leads.contains(':') || leads.split([' ', '(', ')']).any(walks);
    let leads = if takes { format!("({leads})") } else { leads };
    format!("{quantifier} {} such that {leads}", step.name.text)
}

fn head(walk: &Walk) -> String {
    let quantifier = match walk.quantifier {
        Quantifier::Some => "some".to_string(),
        Quantifier::Every => "every".to_string(),
        Quantifier::AtLeast(count) => format!("at least {count}"),
    };
    let whom = person(&walk.person);
    let name = walk.name.as_ref().map_or_else(String::new, |name| format!(" {}", name.text));
    if walk.outwards {
        format!("{whom} {} {quantifier}{name}", walk.label.text)
    } else {
        format!("{quantifier}{name} {} {whom}", walk.label.text)
    }
}

fn operator(kind: &Kind) -> &'static str {
    match kind {
        Kind::And(..) => "and",
        Kind::Or(..) => "or",
        Kind::Since(..) => "since",
        Kind::Not(_) => "not",
        Kind::Once(_) => "once",
        Kind::Always(_) => "always",
        Kind::Never(_) => "never",
        Kind::Previously(_) => "previously",
        _ => "",
    }
}

fn end(end: &Option<Person>) -> String {
    end.as_ref().map_or_else(|| "someone".into(), person)
}

pub(super) fn person(person: &Person) -> String {
    match &person.who {
        Who::Me => "me".into(),
        Who::Target => "target".into(),
        Who::Here => "here".into(),
        Who::Named(name) => name.clone(),
    }
}
