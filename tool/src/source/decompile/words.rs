//! Names that the language accepts, for whatever names a folder gives.

use super::super::tokens::{tokens, Token, WORDS};
use crate::names::{Kind, Names};
use keeper::terms::Terms;

pub struct Words {
    pub members: Vec<String>,
    /// Relations, then events, then `denied` with each event.
    pub labels: Vec<String>,
}

impl Words {
    pub fn new(terms: &Terms, names: &Names) -> Words {
        let mut members = Vec::new();
        for number in 0..terms.members {
            members.push(word(&names.member(number), Kind::Member, number, &members));
        }
        let mut labels = Vec::new();
        for number in 0..terms.relations {
            labels.push(word(&names.relation(number), Kind::Relation, number, &labels));
        }
        for number in 0..terms.events {
            labels.push(word(&names.event(number), Kind::Event, number, &labels));
        }
        let denied = |event: &String| format!("denied {event}");
        let denied: Vec<String> = labels[terms.relations..].iter().map(denied).collect();
        labels.extend(denied);
        Words { members, labels }
    }

    /// A word that is no label, made from a wish.
    pub fn unlike_labels(&self, wish: &str) -> String {
        let mut word = wish.to_string();
        while self.labels.contains(&word) {
            word.push('_');
        }
        word
    }
}

/// The name as one word that isn't taken; else its kind and number.
fn word(name: &str, kind: Kind, number: usize, taken: &[String]) -> String {
    let joined = name.trim().replace(char::is_whitespace, "-");
    let fits = |word: &str| {
        let alone = matches!(&tokens(word).0[..], [(Token::Word(read), _), _] if read == word);
        alone && !WORDS.contains(&word) && !taken.iter().any(|other| other == word)
    };
    let mut word = if fits(&joined) { joined } else { format!("{kind}-{number}") };
    while !fits(&word) {
        word.push('_');
    }
    word
}
