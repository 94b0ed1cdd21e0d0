//! The rounds of members renumbered: named cases, memory that was damaged or whose
//! tables are drawn, and the same steps before and after.

use super::{shrunk, Report, LARGEST};
use crate::library::Library;
use crate::named::renumbered as named;
use crate::options::Options;
use crate::tally::Tally;
use keeper::compare;
use keeper::expect;
use keeper::generate::{self, renumbered, revised, Case, Rng};
use keeper::step::Step;
use keeper::terms::memory;

pub fn all(options: &Options, tally: &mut Tally) -> Result<(), Report> {
    named::all(tally)?;
    for seed in (options.seed..).take(options.files) {
        let named = |what: &'static str| {
            move |wrong: String| format!("{what} renumbered, seed {seed}: {wrong}")
        };
        one_memory(seed, tally).map_err(named("memory"))?;
        shrunk(&generate::case(seed, LARGEST), tally, one_case)?;
        one_drawn(seed, tally).map_err(named("drawn memory"))?;
    }
    Ok(())
}

/// Other numbers for memory that was damaged, or whose tables are drawn.
fn one_memory(seed: u64, tally: &mut Tally) -> Result<(), String> {
    let mut rng = Rng::new(seed);
    for (mut terms, mut state) in [generate::damaged_memory(seed), generate::drawn_memory(seed)] {
        terms.extend((0..rng.below(5)).map(|_| 9));
        state.extend((0..rng.below(5)).map(|_| 9));
        let renumbering = renumbered::of_words(&mut rng, &terms);
        compare::renumber(&mut Library::new(tally), &renumbering, &terms, &state)?;
    }
    Ok(())
}

/// The steps of an accepted text, and the same renumbered.
fn one_case(case: &Case, tally: &mut Tally) -> Result<(), String> {
    match expect::reading(&case.text, memory::TERMS_WORDS, memory::STATE_WORDS) {
        Ok((terms, state)) => both_ways(case.seed, &case.steps, &terms, &state, tally),
        Err(_) => Ok(()),
    }
}

/// Steps over a state that is mostly true of no record, and the same renumbered.
fn one_drawn(seed: u64, tally: &mut Tally) -> Result<(), String> {
    let (terms, state) = generate::drawn_memory(seed);
    let said = memory::terms_of_words(&terms).ok_or("its terms are not sound")?;
    let mut rng = Rng::new(!seed);
    let calls = generate::calls(&mut rng, &said, 10, LARGEST);
    let steps = revised::steps(&mut rng, &said, calls);
    both_ways(seed, &steps, &terms, &state, tally)
}

/// Takes steps over a state and, renumbered, over its renumbering; then the calls as
/// one set list.
fn both_ways(
    seed: u64,
    steps: &[Step],
    terms: &[u16],
    state: &[u64],
    tally: &mut Tally,
) -> Result<(), String> {
    let mut rng = Rng::new(seed);
    let numbering = renumbered::numbering(&mut rng, terms[0].into());
    let mut library = Library::new(tally);
    let answers = compare::renumbered_steps(&mut library, &numbering, steps, terms, state)?;
    let items: Vec<_> = steps
        .iter()
        .filter_map(|step| match step {
            Step::Call(call) => Some(generate::item(&mut rng, call)),
            _ => None,
        })
        .collect();
    compare::renumbered_list(&mut library, &numbering, &items, terms, state)?;
    library.agrees()?;
    answers.into_iter().for_each(|answer| tally.later(answer));
    Ok(())
}
