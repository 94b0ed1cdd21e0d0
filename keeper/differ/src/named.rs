//! Named cases of two banks, and of members renumbered. What each step gives stands
//! in the table, and the keeper and the library must both give it.

mod refusals;
pub mod renumbered;
mod scripts;

use crate::banks::Library;
use crate::tally::Tally;
use keeper::banks::lent::{Lent, Loan, Part};
use keeper::banks::step::{Harm, Outcome, Step};
use keeper::banks::Banks;
use keeper::compare::banks::{self as compare, Other};
use keeper::generate::banks::harm_loan;
use keeper::generate::{Case, Rng};
use keeper::terms::{self, Refusal, Terms};

/// The terms of the cases: spaces for tabs, slashes for line feeds.
///
/// Events 0 and 7 are free to all, and 0 adds its edge. The others ask, at the
/// initiator, for: 1 an event 0 ever, 2 nothing that there is, 3 a moment before,
/// 4 a denied event 2 ever, 5 an edge of the relation, 6 an event 0 now. Denials
/// of event 2 are kept.
const TEXT: &str = "M 3/L 1 8/F 0 top 0 0/F 1 out 1 0/F 2 since 0 1/F 3 prev 0 0/F 4 not 0 0/\
    F 5 out 11 0/F 6 since 0 5/F 7 out 0 0/P 0 0/P 1 2/P 2 4/P 3 3/P 4 6/P 5 7/P 6 1/P 7 0/K 2/\
    E 0 add 0 fwd/";

/// New terms: event 1 asks for an event 7 ever, event 3 for an event 0 ever.
const NEW: &str = "M 3/L 1 8/F 0 top 0 0/F 1 out 8 0/F 2 since 0 1/F 3 out 1 0/F 4 since 0 3/\
    P 0 0/P 1 2/P 2 0/P 3 4/P 4 0/P 5 0/P 6 0/P 7 0/";

/// New terms with a member more.
const LARGER: &str = "M 4/L 1 8/F 0 top 0 0/P 0 0/P 1 0/P 2 0/P 3 0/P 4 0/P 5 0/P 6 0/P 7 0/";

fn bytes(text: &str) -> Vec<u8> {
    text.replace(' ', "\t").replace('/', "\n").into_bytes()
}

fn accepted(text: &str) -> Terms {
    terms::read(&bytes(text)).expect("the terms of the cases are accepted").terms
}

/// Runs every case.
pub fn all(tally: &mut Tally) -> Result<(), String> {
    for (label, steps) in scripts::all() {
        check(&steps, tally).map_err(|wrong| format!("{label}: {wrong}"))?;
    }
    for (label, step, number) in refusals::all() {
        let outcome = step.deed.refused(Refusal::plain(number));
        check(&[(step, outcome)], tally).map_err(|wrong| format!("{label}: {wrong}"))?;
    }
    for (harms, wanted) in refusals::openings() {
        open(&harms, wanted, tally).map_err(|wrong| format!("opening with {harms:?}: {wrong}"))?;
    }
    for (label, text, short, wanted) in refusals::readings() {
        let text = bytes(&text);
        read(&text, short, wanted, tally).map_err(|wrong| format!("reading {label}: {wrong}"))?;
    }
    Ok(())
}

/// The library gives what is wanted, and so does the keeper, since they agree.
fn check(steps: &[(Step, Outcome)], tally: &mut Tally) -> Result<(), String> {
    let (steps, wanted): (Vec<Step>, Vec<Outcome>) = steps.iter().cloned().unzip();
    let text = bytes(TEXT);
    let mut library = Library::new(tally);
    let played = compare::played(&mut library, &text, &steps);
    equal(played, Ok(wanted))?;
    compare::case(&mut library, &Case { seed: 1, text, steps })?;
    library.agrees()
}

/// Opens memory of moment 0 that was harmed.
fn open(harms: &[Harm], wanted: Given, tally: &mut Tally) -> Result<(), String> {
    let mut rng = Rng::new(1);
    let mut lent = Lent::noise(&mut rng);
    lent.put(&Banks::new(accepted(TEXT)).words());
    let mut loan = Loan::of(&lent, &mut rng);
    harm_loan(&mut loan, harms, &Terms::default());
    let mut library = Library::new(tally);
    equal(library.open(&mut loan.lent.clone()).map_err(given), wanted)?;
    compare::open(&mut library, &loan.lent)
}

/// Reads a text, where a part is named into memory with a word less there.
fn read(text: &[u8], short: Option<Part>, wanted: Given, tally: &mut Tally) -> Result<(), String> {
    let mut lent = Lent::noise(&mut Rng::new(1));
    if let Some(part) = short {
        lent.cut(part, part.words() - 1);
    }
    let mut library = Library::new(tally);
    equal(library.read(text, &mut lent.clone()).map_err(given), wanted)?;
    compare::read(&mut library, text, &mut lent)
}

/// Number and line of a refusal; nothing where there is none.
type Given = Result<(), (u16, usize)>;

fn given(refusal: Refusal) -> (u16, usize) {
    (refusal.number, refusal.line)
}

fn equal<T: PartialEq + std::fmt::Debug>(got: T, wanted: T) -> Result<(), String> {
    if got == wanted {
        Ok(())
    } else {
        Err(format!("got {got:?}, wanted {wanted:?}"))
    }
}

#[cfg(test)]
mod tests {
    #[test]
    fn named_cases_give_what_they_say() {
        assert_eq!(super::all(&mut super::Tally::default()), Ok(()));
    }
}
