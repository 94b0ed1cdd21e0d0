//! Tenses, persons, and the words around an object.

/// The moment that a part speaks of: the present one, or one found before.
#[derive(Clone, Copy, Debug, PartialEq, Eq)]
pub enum Time {
    Now,
    Then,
}

/// The words around the object of a predicate.
#[derive(Clone, Debug, PartialEq, Eq)]
pub struct Linking {
    pub before: String,
    pub after: String,
}

impl Linking {
    /// With an object: "owns the target", "has you as a friend".
    pub fn with(&self, object: &str) -> String {
        let of_yours = object == "you" && self.before.ends_with(" of");
        let object = if of_yours { "yours" } else { object };
        format!("{} {object}{}", self.before, self.after)
    }

    /// Whether the object may be a long phrase.
    pub fn takes_phrases(&self) -> bool {
        self.after.is_empty()
    }
}

impl From<String> for Linking {
    fn from(before: String) -> Linking {
        Linking { before, after: String::new() }
    }
}

pub fn with(verb: &str, preposition: &str) -> String {
    if preposition.is_empty() {
        verb.to_string()
    } else {
        format!("{verb} {preposition}")
    }
}

pub fn article(name: &str) -> &'static str {
    if name.starts_with(['a', 'e', 'i', 'o', 'u', 'A', 'E', 'I', 'O', 'U']) {
        "an"
    } else {
        "a"
    }
}

pub fn have(you: bool, time: Time) -> &'static str {
    match (time, you) {
        (Time::Now, true) => "have",
        (Time::Now, false) => "has",
        (Time::Then, _) => "had",
    }
}

pub fn do_(you: bool, time: Time) -> &'static str {
    match (time, you) {
        (Time::Now, true) => "do",
        (Time::Now, false) => "does",
        (Time::Then, _) => "did",
    }
}

pub fn be(you: bool, time: Time) -> &'static str {
    match (time, you) {
        (Time::Now, true) => "are",
        (Time::Now, false) => "is",
        (Time::Then, true) => "were",
        (Time::Then, false) => "was",
    }
}
