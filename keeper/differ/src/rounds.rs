//! The rounds of one run: accepted terms with calls, damaged texts, damaged
//! and short memory.

mod banks;
mod plans;
mod renumbered;

use crate::library::Library;
use crate::options::Options;
use crate::tally::{Tallies, Tally};
use keeper::compare;
use keeper::expect;
use keeper::generate::{self, revised, Case, Rng};
use keeper::record::Call;
use keeper::set_list::Item;
use keeper::shrink::{shrink, Shrinks};
use keeper::terms::memory::{SCRATCH_WORDS, STATE_WORDS, TERMS_WORDS};
use std::fmt::Display;

/// What differed, with its seed and the case made small.
type Report = String;

/// Numbers of a call reach this far; the library takes any.
const LARGEST: usize = usize::MAX;

/// Runs every round and stops at the first difference.
pub fn all(options: &Options, tallies: &mut Tallies) -> Result<(), Report> {
    one_bank(options, &mut tallies.one)?;
    plans::all(options, &mut tallies.one)?;
    renumbered::all(options, &mut tallies.one)?;
    banks::all(options, &mut tallies.two)
}

fn one_bank(options: &Options, tally: &mut Tally) -> Result<(), Report> {
    let mut seed = options.seed;
    while tally.calls() < options.calls {
        let case = generate::case(seed, LARGEST);
        shrunk(&case, tally, one_case)?;
        seed += 1;
    }
    for seed in (options.seed..).take(options.files) {
        let text = generate::damaged_text(seed);
        shrunk(&Case { seed, text, steps: Vec::new() }, tally, one_text)?;
        one_memory(seed, tally).map_err(|wrong| format!("damaged memory, seed {seed}: {wrong}"))?;
        one_revision(seed, tally).map_err(|wrong| format!("revision, seed {seed}: {wrong}"))?;
    }
    Ok(())
}

/// Compares a case; what differs is made as small as it gets.
fn shrunk<S: Shrinks + Display>(
    case: &Case<S>,
    tally: &mut Tally,
    compared: fn(&Case<S>, &mut Tally) -> Result<(), String>,
) -> Result<(), Report> {
    let Err(wrong) = compared(case, tally) else {
        return Ok(());
    };
    tally.stop();
    let with = |text: &[u8], steps: &[S]| Case {
        seed: case.seed,
        text: text.to_vec(),
        steps: steps.to_vec(),
    };
    let (text, steps) =
        shrink(&case.text, &case.steps, |text, steps| compared(&with(text, steps), tally).is_err());
    let small = with(&text, &steps);
    let small_wrong = compared(&small, tally).unwrap_err();
    Err(format!("seed {}: {wrong}\nmade small: {small_wrong}\n{small}", case.seed))
}

/// An accepted text and its steps, answer and every word after each, calls one by
/// one and as set lists; then what the library stored last is read back.
fn one_case(case: &Case, tally: &mut Tally) -> Result<(), String> {
    let mut library = Library::new(tally);
    compare::lists(&mut library, case)?;
    library.agrees()?;
    let mut library = Library::new(tally);
    compare::case(&mut library, case)?;
    let stored = library.agrees()?;
    if stored.is_empty() {
        return Ok(());
    }
    let mut library = Library::new(tally);
    compare::read(&mut library, &stored, TERMS_WORDS + 1, STATE_WORDS + 1)?;
    library.agrees().map(drop)
}

/// A damaged text, read into memory that is long enough, and into memory that
/// is too short in one or both parts.
fn one_text(case: &Case, tally: &mut Tally) -> Result<(), String> {
    let mut rng = Rng::new(case.seed);
    let short = match rng.below(4) {
        0 => (TERMS_WORDS - 1, STATE_WORDS),
        1 => (TERMS_WORDS, STATE_WORDS - 1),
        2 => (rng.below(TERMS_WORDS), rng.below(STATE_WORDS)),
        _ => (TERMS_WORDS, STATE_WORDS),
    };
    let longer = (TERMS_WORDS + rng.below(9), STATE_WORDS + rng.below(9));
    for (terms, state) in [longer, short] {
        let mut library = Library::new(tally);
        compare::read(&mut library, &case.text, terms, state)?;
        library.agrees()?;
    }
    Ok(())
}

/// Damaged memory under requests, looks, set lists, writing, checking and
/// opening, whole and cut short.
fn one_memory(seed: u64, tally: &mut Tally) -> Result<(), String> {
    let (mut terms, mut state) = generate::damaged_memory(seed);
    let mut rng = Rng::new(!seed);
    match rng.below(12) {
        0 => terms.truncate(TERMS_WORDS - 1),
        1 => state.truncate(STATE_WORDS - 1),
        2 => terms.truncate(rng.below(TERMS_WORDS)),
        3 => state.truncate(rng.below(STATE_WORDS)),
        4 | 5 => {
            terms.extend((0..rng.below(5)).map(|_| 9));
            state.extend((0..rng.below(5)).map(|_| 9));
        }
        _ => {}
    }
    let (event, from, to) = (rng.below(3), rng.below(4), rng.below(4));
    for scratch_words in [SCRATCH_WORDS, SCRATCH_WORDS + 3, SCRATCH_WORDS - 1] {
        for look in [true, false] {
            let call = Call { look, event, from, to, scratch_words };
            compare::call(&mut Library::new(tally), &call, &terms, &state)?;
        }
    }
    for scratch_words in [SCRATCH_WORDS, SCRATCH_WORDS + 3, rng.below(SCRATCH_WORDS)] {
        let mut library = Library::new(tally);
        let items = items(&mut rng);
        compare::set_list(&mut library, &items, scratch_words, &terms, &state)?;
        library.agrees()?;
    }
    compare::write(&mut Library::new(tally), &terms, &state)?;
    checked(&terms, &state)?;
    opened(&terms, &state)
}

/// New terms for memory that was damaged, or whose tables are drawn.
fn one_revision(seed: u64, tally: &mut Tally) -> Result<(), String> {
    for (terms, state) in [generate::damaged_memory(seed), generate::drawn_memory(seed)] {
        let revision = revised::of_words(&mut Rng::new(seed), &terms);
        let mut library = Library::new(tally);
        compare::revise(&mut library, &revision, &terms, &state)?;
        library.agrees()?;
    }
    Ok(())
}

/// A short set list, or none, most of it of small numbers.
fn items(rng: &mut Rng) -> Vec<Item> {
    let count = rng.below(6);
    let mut item = || {
        let mut number = || if rng.percent(90) { rng.below(4) } else { LARGEST };
        let call = Call::request(number(), number(), number());
        generate::item(rng, &call)
    };
    (0..count).map(|_| item()).collect()
}

fn code(result: Result<(), cuckooormolu::Refusal>) -> usize {
    result.map_or_else(cuckooormolu::Refusal::number, |()| 0)
}

fn wanted<T>(result: &Result<T, keeper::terms::Refusal>) -> usize {
    result.as_ref().map_or_else(|refusal| refusal.number.into(), |_| 0)
}

fn checked(terms: &[u16], state: &[u64]) -> Result<(), String> {
    let wanted = wanted(&expect::lent(terms, state));
    let got = code(cuckooormolu::raw::check(terms, state));
    (got == wanted).then_some(()).ok_or(format!("check: got {got}, wanted {wanted}"))
}

/// Opening takes the relations and no other word; the state that comes of it
/// is the one that a fresh record of the same terms and relations has.
fn opened(terms: &[u16], state: &[u64]) -> Result<(), String> {
    let mut relations = state.to_vec();
    let blank = relations.iter_mut().take(STATE_WORDS).skip(keeper::terms::memory::FIRST_TABLE);
    blank.for_each(|word| *word = 0);
    let lent = expect::lent(terms, &relations);
    let wanted_code = wanted(&lent);
    let mut wanted_state = state.to_vec();
    if let Ok((terms, state)) = lent {
        let terms = keeper::terms::Terms { edges: state.edges, ..terms };
        let fresh = keeper::record::Record::new(terms).state_words();
        wanted_state[..STATE_WORDS].copy_from_slice(&fresh);
    }
    let mut got_state = state.to_vec();
    let got = code(cuckooormolu::raw::open(terms, &mut got_state));
    if (got, &got_state) == (wanted_code, &wanted_state) {
        return Ok(());
    }
    let place = got_state.iter().zip(&wanted_state).position(|(got, wanted)| got != wanted);
    Err(format!("open: got {got}, wanted {wanted_code}; first other word {place:?}"))
}

#[cfg(test)]
mod tests {
    use super::*;

    #[test]
    fn a_short_run_finds_no_difference() {
        let options = Options { calls: 400, files: 60, plans: 200, seed: 7 };
        assert_eq!(all(&options, &mut Tallies::default()), Ok(()));
    }

    #[test]
    fn a_difference_is_reported_with_its_seed_and_made_small() {
        let wrong = |case: &Case, _: &mut Tally| {
            let since = case.text.windows(5).any(|word| word == b"since");
            let failing = since && keeper::terms::read(&case.text).is_ok();
            if failing {
                Err("a since".to_string())
            } else {
                Ok(())
            }
        };
        let mut tally = Tally::default();
        let reports = (0..50).filter_map(|seed| {
            let case = generate::case(seed, LARGEST);
            shrunk(&case, &mut tally, wrong).err().map(|report| (seed, report))
        });
        let (seed, report) = reports.into_iter().next().unwrap();
        assert!(report.starts_with(&format!("seed {seed}: a since\nmade small: a since\n")));
        assert!(report.lines().count() < 14, "{report}");
    }
}
