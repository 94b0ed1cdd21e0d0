//! Verbs of two words, such as `take-back`.

use super::{single, Verb};

/// Words that belong to the verb before them.
const PARTICLES: &[&str] = &["away", "back", "down", "off", "out", "over", "up"];

/// `take-back`: has taken back from.
pub fn with_particle(name: &str) -> Option<Verb> {
    let (first, particle) = name.split_once(['-', '_'])?;
    let verb = single(first).filter(|_| PARTICLES.contains(&particle))?;
    let preposition = match (verb.base.as_str(), particle) {
        ("take", "back") => "from",
        ("give", "back") => "to",
        _ => "",
    };
    let with = |form: String| format!("{form} {particle}");
    Some(Verb {
        base: with(verb.base),
        third: with(verb.third),
        past: with(verb.past),
        participle: with(verb.participle),
        preposition,
    })
}
