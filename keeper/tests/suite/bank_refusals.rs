//! Refusals over the memory of two banks, in their order.

use crate::help::{accepted, slashes};
use keeper::banks::expect;
use keeper::banks::lent::{Lent, Loan, Part};
use keeper::banks::step::{Deed, Harm, Outcome};
use keeper::banks::Banks;
use keeper::generate::banks::harm_loan;
use keeper::generate::Rng;
use keeper::record::{Answer, Call};
use keeper::terms::{Refusal, Terms};

const TEXT: &str = "M 2/L 1 1/F 0 top 0 0/F 1 prev 0 0/P 0 0";

fn lent() -> Lent {
    let mut lent = Lent::noise(&mut Rng::new(7));
    lent.put(&Banks::new(accepted(&slashes(TEXT))).words());
    lent
}

/// What is lent for a deed, harmed.
fn loan(deed: &Deed, harms: &[Harm]) -> Loan {
    let mut loan = Loan::of(&lent(), &mut Rng::new(8));
    if let Deed::Revision(words) = deed {
        loan.second.terms[..words.len()].copy_from_slice(words);
    }
    harm_loan(&mut loan, harms, &Terms::default());
    loan
}

/// The number that refuses a deed, 0 where none does.
fn number(deed: &Deed, harms: &[Harm]) -> u16 {
    let outcome = match expect::ready(deed, &loan(deed, harms)) {
        Ok(mut banks) => banks.take(deed),
        Err(refusal) => deed.refused(refusal),
    };
    match outcome {
        Outcome::Answered(Answer::Refused(refusal)) => refusal.number,
        Outcome::Listed(Err(refusal), _) | Outcome::Revised(Err(refusal)) => refusal.number,
        _ => 0,
    }
}

/// A short part, bad terms and bad states: of the relations, of either bank.
fn harms(part: Part) -> [Harm; 5] {
    [
        Harm::Short(part, part.words() - 1),
        Harm::Word(Part::Terms, 3, 0),
        Harm::Word(Part::Relations, 0, 0b100),
        Harm::Word(Part::Own(0), 0, 0b01),
        Harm::Word(Part::Own(1), 2_048, 1 + 4_096),
    ]
}

#[test]
fn checks_look_at_both_banks() {
    for bank in [0, 1] {
        let deeds = [
            Deed::Call(bank, Call::request(0, 0, 1)),
            Deed::Call(bank, Call::look(0, 0, 1)),
            Deed::List(bank, Vec::new()),
        ];
        for deed in &deeds {
            assert_eq!(number(deed, &[]), 0);
            for part in Part::OF_CALLS {
                let harms = harms(part);
                assert_eq!(number(deed, &harms), 6);
                assert_eq!(number(deed, &harms[..1]), 6);
                assert_eq!(number(deed, &harms[1..]), 7);
                for harm in &harms[2..] {
                    assert_eq!(number(deed, std::slice::from_ref(harm)), 8);
                }
            }
        }
        let far = Deed::Call(bank, Call::request(1, 0, 0));
        assert_eq!(number(&far, &[]), 9);
        assert_eq!(number(&far, &harms(Part::Own(1))[4..]), 8);
    }
}

#[test]
fn revisions_look_at_all_memory() {
    let larger = accepted(&slashes("M 3/L 1 1/F 0 top 0 0/P 0 0"));
    let deeds = [&accepted(&slashes(TEXT)), &larger].map(Deed::revision);
    for deed in &deeds {
        for part in Part::OF_REVISIONS {
            let harms = harms(part);
            assert_eq!(number(deed, &harms), 6);
            assert_eq!(number(deed, &harms[..1]), 6);
            assert_eq!(number(deed, &harms[1..]), 7);
            let new = Harm::Word(Part::NewTerms, 3, 0);
            assert_eq!(number(deed, &[new, harms[4].clone()]), 7);
            for harm in &harms[2..] {
                assert_eq!(number(deed, std::slice::from_ref(harm)), 8);
            }
        }
    }
    assert_eq!(deeds.map(|deed| number(&deed, &[])), [0, 13]);
}

#[test]
fn reading_takes_the_old_form_only() {
    let read = |text: &str, lent: &Lent| {
        let line = |refusal: Refusal| (refusal.number, refusal.line);
        expect::reading(&slashes(text), lent).map_or_else(line, |_| (0, 0))
    };
    let lent = Lent::noise(&mut Rng::new(3));
    assert_eq!(read(TEXT, &lent), (0, 0));
    assert_eq!(read(&format!("S 2/{TEXT}"), &lent), (1, 1));
    assert_eq!(read(&format!("S 2/{TEXT}/V 0 0 1"), &lent), (1, 1));
    assert_eq!(read("S 2/M 65", &lent), (1, 1));
    assert_eq!(read("S 9", &lent), (1, 1));
    assert_eq!(read("M 2/S 2", &lent), (1, 2));
    assert_eq!(read(&format!("{TEXT}/T 0 0 0"), &lent), (1, 6));
    assert_eq!(read("M 65", &lent), (2, 1));
    for part in [Part::Terms, Part::Relations, Part::Own(0), Part::Own(1)] {
        let mut short = lent.clone();
        short.cut(part, part.words() - 1);
        assert_eq!(read(TEXT, &short), (6, 0));
        assert_eq!(read("S 2", &short), (6, 0));
    }
}

#[test]
fn opening_asks_nothing_of_own_words() {
    let open = |harms: &[Harm]| {
        let mut loan = Loan::of(&lent(), &mut Rng::new(4));
        for bank in [0, 1] {
            loan.lent.own[bank].fill(u64::MAX);
        }
        harm_loan(&mut loan, harms, &Terms::default());
        expect::opening(&loan.lent).map(|banks| banks.words()).map_err(|refusal| refusal.number)
    };
    let edge = open(&[Harm::Word(Part::Relations, 1, 0b10)]).unwrap();
    assert_eq!((edge.relations[1], &edge.own[0]), (0b10, &edge.own[1]));
    assert!(edge.own[0].iter().all(|&word| word == 0));
    for part in [Part::Terms, Part::Relations, Part::Own(0), Part::Own(1)] {
        assert_eq!(open(&harms(part)), Err(6));
    }
    assert_eq!(open(&harms(Part::Terms)[1..]), Err(7));
    assert_eq!(open(&harms(Part::Terms)[2..]), Err(8));
}
