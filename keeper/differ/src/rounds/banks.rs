//! The rounds of two banks: named cases, accepted terms with steps, damaged
//! texts, states that are drawn, and pairs of runs.

use super::{shrunk, Report, LARGEST};
use crate::banks::Library;
use crate::named;
use crate::options::Options;
use crate::tally::Tally;
use keeper::banks::lent::{Lent, Part};
use keeper::banks::step::Step;
use keeper::compare::banks as compare;
use keeper::generate::banks as generate;
use keeper::generate::two_runs::runs;
use keeper::generate::{damaged_text, Case, Rng};
use keeper::terms::write;

/// One in so many seeds has a pair of runs.
const RUNS: u64 = 4;

pub fn all(options: &Options, tally: &mut Tally) -> Result<(), Report> {
    named::all(tally)?;
    let mut seed = options.seed;
    while tally.calls() < options.calls {
        shrunk(&generate::case(seed, LARGEST), tally, one_case)?;
        seed += 1;
    }
    for seed in (options.seed..).take(options.files) {
        let named = |what: &'static str| {
            move |wrong: String| format!("{what} of two banks, seed {seed}: {wrong}")
        };
        let text = Case { seed, text: damaged_text(seed), steps: Vec::new() };
        shrunk(&text, tally, one_text)?;
        one_state(seed, tally).map_err(named("drawn state"))?;
        if seed % RUNS == 0 {
            one_pair(seed, tally).map_err(named("runs"))?;
        }
    }
    Ok(())
}

/// An accepted text and its steps.
fn one_case(case: &Case<Step>, tally: &mut Tally) -> Result<(), String> {
    let mut library = Library::new(tally);
    compare::case(&mut library, case)?;
    library.agrees()
}

/// A damaged text, read into memory that is long enough, and into memory of which
/// one part is too short.
fn one_text(case: &Case<Step>, tally: &mut Tally) -> Result<(), String> {
    let mut rng = Rng::new(case.seed);
    let mut library = Library::new(tally);
    let mut lent = Lent::noise(&mut rng);
    compare::read(&mut library, &case.text, &mut lent)?;
    let short = match rng.below(4) {
        0 => Part::Terms,
        1 => Part::Relations,
        bank => Part::Own(bank - 2),
    };
    lent.cut(short, short.words() - 1);
    compare::read(&mut library, &case.text, &mut lent)
}

/// States that are drawn, and steps from there on.
fn one_state(seed: u64, tally: &mut Tally) -> Result<(), String> {
    let (banks, steps) = generate::drawn(seed, LARGEST);
    let mut rng = Rng::new(!seed);
    let mut lent = Lent::noise(&mut rng);
    lent.put(&banks.words());
    let mut library = Library::new(tally);
    compare::steps(&mut library, &steps, banks, lent, &mut rng)?;
    library.agrees()
}

/// Two runs that differ in the second bank's calls only: the first bank gets the
/// same answers.
fn one_pair(seed: u64, tally: &mut Tally) -> Result<(), String> {
    let runs = runs(seed, None);
    let text = write(&runs.terms, &runs.terms.edges);
    let mut library = Library::new(tally);
    let mut outcomes = Vec::new();
    for run in [0, 1] {
        let deeds = runs.places.iter().map(|deeds| deeds[run].clone());
        let steps: Vec<Step> = deeds.map(Step::of).collect();
        let played = compare::played(&mut library, &text, &steps);
        outcomes.push(played.map_err(|refusal| format!("refused: {refusal:?}"))?);
    }
    library.agrees()?;
    let same = |place: &usize| outcomes[0][*place] == outcomes[1][*place];
    let mut firsts = (0..runs.places.len()).filter(|&place| runs.is_first(place));
    match firsts.find(|place| !same(place)) {
        None => Ok(()),
        Some(place) => Err(format!("another answer at place {place}")),
    }
}
