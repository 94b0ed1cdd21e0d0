//! Short ways to texts, records, refusals, memory and impostors.

use keeper::generate;
use keeper::record::{Answer, Call, Record};
use keeper::terms::{self, File, Refusal, Terms};

/// The impostors of a kind: `Fault`, with `None` for what is right, and `ALL`, the others.
macro_rules! faults {
    ($($(#[$note:meta])* $fault:ident),* $(,)?) => {
        #[derive(Clone, Copy, PartialEq, Debug)]
        pub enum Fault {
            None,
            $($(#[$note])* $fault,)*
        }

        impl Fault {
            /// All but `None`.
            pub const ALL: &'static [Fault] = &[$(Fault::$fault),*];
        }
    };
}
pub(crate) use faults;

/// The preset terms, spaces for tabs.
pub const PRESET: &str = "\
M 3
L 1 3
F 0 var 1 0
F 1 out 1 0
F 2 out 2 0
F 3 not 2 0
F 4 since 3 1
F 5 in 0 4
F 6 at 0 5
F 7 bind 1 6
F 8 top 0 0
P 0 8
P 1 8
P 2 7
G 0 0 2
";

/// A text with its spaces turned into tabs.
pub fn tabs(text: &str) -> Vec<u8> {
    text.replace(' ', "\t").into_bytes()
}

/// A text whose lines are separated by slashes, for short texts.
pub fn slashes(text: &str) -> Vec<u8> {
    tabs(&format!("{}\n", text.replace('/', "\n")))
}

/// What an accepted text says.
pub fn file(text: &[u8]) -> File {
    terms::read(text).unwrap_or_else(|refusal| panic!("{}: {refusal:?}", text.escape_ascii()))
}

pub fn accepted(text: &[u8]) -> Terms {
    file(text).terms
}

/// The record of a text of either form.
pub fn opened(text: &[u8]) -> Record {
    Record::of(file(text))
}

pub fn record(text: &str) -> Record {
    opened(&slashes(text))
}

pub fn preset() -> Record {
    opened(&tabs(PRESET))
}

/// The number and line a text is refused with.
pub fn refused(text: &[u8]) -> (u16, usize) {
    match terms::read(text) {
        Ok(_) => panic!("accepted: {}", text.escape_ascii()),
        Err(Refusal { number, line }) => (number, line),
    }
}

pub fn request(record: &mut Record, event: usize, from: usize, to: usize) -> Answer {
    record.answer(&Call::request(event, from, to))
}

pub fn look(record: &mut Record, event: usize, from: usize, to: usize) -> Answer {
    record.answer(&Call::look(event, from, to))
}

/// Memory after some calls, sound or damaged, or terms with a state that is true of no record.
pub fn any_memory(seed: u64) -> (Vec<u16>, Vec<u64>) {
    match seed % 2 {
        0 => generate::damaged_memory(seed),
        _ => generate::drawn_memory(seed),
    }
}
