//! The rounds of plans and questions: named cases, among other calls over accepted
//! terms, and over memory that was damaged, cut short or drawn.

use super::{shrunk, Report, LARGEST};
use crate::library::Library;
use crate::options::Options;
use crate::plans::named;
use crate::tally::Tally;
use keeper::compare::plans as compare;
use keeper::generate::plans as generate;
use keeper::generate::{damaged_memory, drawn_memory, Case, Rng};
use keeper::plan::turn::Turn;
use keeper::terms::memory::{STATE_WORDS, TERMS_WORDS};

pub fn all(options: &Options, tally: &mut Tally) -> Result<(), Report> {
    named::all(tally)?;
    let (mut seed, named) = (options.seed, tally.plans());
    while tally.plans() - named < options.plans {
        shrunk(&generate::case(seed, LARGEST), tally, one_case)?;
        seed += 1;
    }
    for seed in (options.seed..).take(options.files) {
        let of_seed = |wrong| format!("plan over memory, seed {seed}: {wrong}");
        one_memory(seed, tally).map_err(of_seed)?;
    }
    Ok(())
}

/// An accepted text and its turns.
fn one_case(case: &Case<Turn>, tally: &mut Tally) -> Result<(), String> {
    let mut library = Library::new(tally);
    compare::case(&mut library, case)?;
    library.agrees().map(drop)
}

/// A plan and a question over memory that was damaged, or whose tables are drawn.
fn one_memory(seed: u64, tally: &mut Tally) -> Result<(), String> {
    for (mut terms, mut state) in [damaged_memory(seed), drawn_memory(seed)] {
        let mut rng = Rng::new(!seed);
        let (plan, question) = generate::of_words(&mut rng, &terms, LARGEST);
        match rng.below(20) {
            0 => terms.truncate(TERMS_WORDS - 1),
            1 => state.truncate(STATE_WORDS - 1),
            2 => terms.truncate(rng.below(TERMS_WORDS)),
            3 => state.truncate(rng.below(STATE_WORDS)),
            4..=7 => {
                terms.extend((0..rng.below(5)).map(|_| 9));
                state.extend((0..rng.below(5)).map(|_| 9));
            }
            _ => {}
        }
        let mut library = Library::new(tally);
        compare::plan(&mut library, &plan, &terms, &state)?;
        compare::tell(&mut library, &question, &terms, &state)?;
    }
    Ok(())
}
