//! Refusals: for each memory, and in their order.

use super::{accepted, Given, LARGER, NEW, TEXT};
use keeper::banks::lent::Part;
use keeper::banks::step::{Deed, Harm, Step};
use keeper::record::Call;
use keeper::set_list::Item;
use keeper::terms::memory::TERMS_WORDS;

/// The place of the event among a bank's own words.
const EVENT: usize = 2_048;

/// Words that break the layout: of relations and of either bank's own.
fn bad_words() -> Vec<Harm> {
    let mut words = vec![
        // A member, and a relation, that there is not.
        Harm::Word(Part::Relations, 0, 1 << 3),
        Harm::Word(Part::Relations, 3, 1),
        Harm::Word(Part::Relations, 64, 1),
        Harm::Word(Part::Relations, 1_023, 1 << 63),
    ];
    for bank in [0, 1] {
        let own = Part::Own(bank);
        // A word with unequal bits, a member and a table that there are not.
        words.push(Harm::Word(own, 0, 0b011));
        words.push(Harm::Word(own, 64, 0b1111));
        words.push(Harm::Word(own, 3 * 64, 0b111));
        words.push(Harm::Word(own, EVENT - 1, 1));
        // An event, a member, an event of a denial that there are not, and too much.
        words.push(Harm::Word(own, EVENT, 1 + 8 * 4_096));
        words.push(Harm::Word(own, EVENT, 1 + 3 * 64));
        words.push(Harm::Word(own, EVENT, 1 + 24 * 4_096));
        words.push(Harm::Word(own, EVENT, 1 << 32));
    }
    words
}

/// Terms that no accepted file yields: no entries.
fn bad_terms(part: Part) -> Harm {
    Harm::Word(part, 3, 0)
}

/// Calls and set lists of each bank. None has a wrong number.
fn good_deeds() -> Vec<Deed> {
    let item = Item { event: 0, from: 0, to: 1, answer: 77 };
    let of = |bank| {
        [
            Deed::Call(bank, Call::request(0, 0, 1)),
            Deed::Call(bank, Call::look(0, 0, 1)),
            Deed::List(bank, vec![item]),
            Deed::List(bank, Vec::new()),
        ]
    };
    [of(0), of(1)].concat()
}

/// Requests and looks of each bank that are refused with 9.
fn wrong_numbers() -> Vec<Deed> {
    let numbers = [(8, 0, 1), (0, 3, 1), (0, 0, 3)];
    let calls = numbers
        .map(|(event, from, to)| [Call::request(event, from, to), Call::look(event, from, to)]);
    let of = |bank| calls.concat().into_iter().map(move |call| Deed::Call(bank, call));
    of(0).chain(of(1)).collect()
}

/// Each label with a step and the number that refuses it.
pub fn all() -> Vec<(String, Step, u16)> {
    let mut all = Vec::new();
    for deed in good_deeds().into_iter().chain(wrong_numbers()) {
        of_deed(&mut all, &deed, &Part::OF_CALLS, &[Part::Terms]);
    }
    for deed in wrong_numbers() {
        all.push(("a wrong number".into(), Step::of(deed), 9));
    }
    let terms = [Part::Terms, Part::NewTerms];
    for text in [NEW, LARGER] {
        let deed = Deed::revision(&accepted(text));
        of_deed(&mut all, &deed, &Part::OF_REVISIONS, &terms);
    }
    all.push(("another size".into(), Step::of(Deed::revision(&accepted(LARGER))), 13));
    all
}

/// The refusals 6, 7 and 8 of a deed; each finds what would be refused later wrong
/// as well, or not.
fn of_deed(all: &mut Vec<(String, Step, u16)>, deed: &Deed, parts: &[Part], terms: &[Part]) {
    let mut push = |harms: Vec<Harm>, number| {
        all.push((format!("{deed} with {harms:?}"), Step { deed: deed.clone(), harms }, number));
    };
    let bad_state = Harm::Word(Part::Own(1), EVENT, 1 + 8 * 4_096);
    for &part in parts {
        for words in [0, part.words() - 1] {
            push(vec![Harm::Short(part, words)], 6);
            let mut later = vec![Harm::Short(part, words), bad_state.clone()];
            later.extend(terms.iter().map(|&part| bad_terms(part)));
            push(later, 6);
        }
    }
    for &part in terms {
        push(vec![bad_terms(part)], 7);
        push(vec![Harm::Word(part, TERMS_WORDS - 1, 1)], 7);
        push(vec![bad_terms(part), bad_state.clone()], 7);
    }
    for word in bad_words() {
        push(vec![word], 8);
    }
}

/// What is wrong with memory that is to be opened, and what that gives. Own words
/// may hold anything.
pub fn openings() -> Vec<(Vec<Harm>, Given)> {
    let mut all = vec![(Vec::new(), Ok(()))];
    let mut push = |harms: Vec<Harm>, given| all.push((harms, given));
    for part in [Part::Terms, Part::Relations, Part::Own(0), Part::Own(1)] {
        let short = Harm::Short(part, part.words() - 1);
        push(vec![short.clone()], Err((6, 0)));
        push(vec![bad_terms(Part::Terms), short], Err((6, 0)));
    }
    push(vec![bad_terms(Part::Terms)], Err((7, 0)));
    push(vec![bad_terms(Part::Terms), Harm::Word(Part::Relations, 64, 1)], Err((7, 0)));
    for word in bad_words() {
        let is_own = matches!(word, Harm::Word(Part::Own(_), _, _));
        push(vec![word], if is_own { Ok(()) } else { Err((8, 0)) });
    }
    all
}

/// Each label with a text, the part that is a word too short, if any, and what
/// reading gives.
pub fn readings() -> Vec<(&'static str, String, Option<Part>, Given)> {
    let stored = format!("S 2/{TEXT}");
    let twice = format!("S 2/{TEXT}T 0 0 0/V 0 0 1/");
    let mut all = vec![
        ("the old form", TEXT.to_string(), None, Ok(())),
        ("first edges", format!("{TEXT}G 0 1 2/"), None, Ok(())),
        ("the stored form", stored.clone(), None, Err((1, 1))),
        ("the stored form with a past", twice, None, Err((1, 1))),
        ("the stored form of another version", "S 3/M 3/".into(), None, Err((1, 1))),
        ("an S line alone", "S 2/".into(), None, Err((1, 1))),
        ("an S line later", "M 3/S 2/".into(), None, Err((1, 2))),
        ("a T line", format!("{TEXT}T 0 0 0/"), None, Err((1, 21))),
        ("a V line", format!("{TEXT}V 0 0 1/"), None, Err((1, 21))),
        ("nothing", String::new(), None, Err((1, 1))),
        ("a fault further on", "M 3/L 1 17/".into(), None, Err((2, 2))),
    ];
    for part in [Part::Terms, Part::Relations, Part::Own(0), Part::Own(1)] {
        all.push(("short memory", TEXT.to_string(), Some(part), Err((6, 0))));
        all.push(("short memory, the stored form", stored.clone(), Some(part), Err((6, 0))));
    }
    all
}
