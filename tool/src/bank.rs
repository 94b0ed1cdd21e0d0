//! The two banks that share members and relations, each with a past of its own.

use std::fmt;

#[derive(Clone, Copy, Debug, PartialEq, Eq)]
pub enum Bank {
    Left,
    Right,
}

impl Bank {
    pub const BOTH: [Bank; 2] = [Bank::Left, Bank::Right];

    /// Its word in requests and in messages.
    pub fn word(self) -> &'static str {
        match self {
            Bank::Left => "left",
            Bank::Right => "right",
        }
    }

    /// The bank that a word names.
    pub fn named(word: &str) -> Option<Bank> {
        Bank::BOTH.into_iter().find(|bank| bank.word() == word)
    }

    pub fn other(self) -> Bank {
        match self {
            Bank::Left => Bank::Right,
            Bank::Right => Bank::Left,
        }
    }

    /// The bank that begins a line of so many words after it, and these words.
    pub fn before<'a, 'b>(words: &'b [&'a str], after: usize) -> (Option<Bank>, &'b [&'a str]) {
        match words {
            [first, rest @ ..] if rest.len() == after => match Bank::named(first) {
                None => (None, words),
                bank => (bank, rest),
            },
            _ => (None, words),
        }
    }
}

impl fmt::Display for Bank {
    fn fmt(&self, out: &mut fmt::Formatter<'_>) -> fmt::Result {
        out.pad(self.word())
    }
}
