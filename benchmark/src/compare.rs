//! Archives beside each other: every call of each is timed in turn with
//! those of the others.

use crate::archives::{self, Archive, SCRATCH};
use crate::chains::chains;
use crate::counts;
use crate::markdown::{self, whole};
use crate::measure::{in_turn, timed, Batch};
use crate::stack;
use crate::workload::{Request, Workload};
use crate::worst::{self, Family};
use cuckooormolu::{STATE_WORDS, TERMS_WORDS};
use std::hint::black_box;
use std::path::PathBuf;
use std::time::Duration;

const CALLS: usize = 48;
const MOMENTS: usize = 100;
const MEMBERS: usize = 64;
const FRIENDS: usize = 6;
/// Chains, and the terms that take long, are grown to this; where a request takes longer than that on the way, its time
/// is a power of the levels, and the archive is left out.
const LEVELS: usize = 255;
const SLOW: Duration = Duration::from_millis(50);
const TURNS: usize = 5;
const DEPTH: usize = 3;
const SLOWEST: Duration = Duration::from_millis(200);

/// An archive, its code at several places.
type Places = [Archive; 4];

/// Makes the calls of a kind, over a start.
type Make = for<'a> fn(&'a Start, &'a Archive) -> Batch<'a>;

const REQUEST: (&str, Make) = ("request", Start::requests);
const LOOK: (&str, Make) = ("look", Start::looks);
const CHECK: (&str, Make) = ("check", Start::checks);

/// Terms and a state as words, and the calls over them.
struct Start {
    terms: Vec<u16>,
    state: Vec<u64>,
    calls: Vec<Request>,
}

impl Start {
    /// What a text says; none where the archive refuses it, since it doesn't know an operator.
    fn read(archive: &Archive, text: &[u8], calls: Vec<Request>) -> Option<Start> {
        let (mut terms, mut state) = (vec![0; TERMS_WORDS], vec![0; STATE_WORDS]);
        let code = archive.read(text, &mut terms, &mut state);
        archives::is_done(code).then_some(Start { terms, state, calls })
    }

    /// A record of the workload, made by the archive.
    fn of(workload: &Workload, archive: &Archive) -> Option<Start> {
        let mut start = Start::read(archive, &workload.text, workload.requests(11, CALLS))?;
        let mut scratch = vec![0; SCRATCH];
        let mut moments = 0;
        for request in (1_000..).flat_map(|seed| workload.requests(seed, 400)) {
            if moments == MOMENTS {
                break;
            }
            let code = archive.request(&start.terms, &mut start.state, &mut scratch, request);
            moments += usize::from(archives::is_granted(code));
        }
        Some(start)
    }

    /// The text at the last depth, if at none its calls take longer than this.
    fn grown(
        archive: &Archive,
        depths: impl Iterator<Item = usize>,
        text: impl Fn(usize) -> Vec<u8>,
        calls: &[Request],
        most: Duration,
    ) -> Option<Start> {
        let mut last = None;
        for depth in depths {
            let start = Start::read(archive, &text(depth), calls.to_vec())?;
            let (_, mut batch) = start.requests(archive);
            if batch() > most {
                return None;
            }
            drop(batch);
            last = Some(start);
        }
        last
    }

    fn requests<'a>(&'a self, archive: &'a Archive) -> Batch<'a> {
        let mut state = self.state.clone();
        let mut scratch = vec![0; SCRATCH];
        let batch = move || {
            state.copy_from_slice(&self.state);
            timed(|| {
                for &call in &self.calls {
                    black_box(archive.request(&self.terms, &mut state, &mut scratch, call));
                }
            })
        };
        (self.calls.len(), Box::new(batch))
    }

    fn looks<'a>(&'a self, archive: &'a Archive) -> Batch<'a> {
        let scratch = vec![0; SCRATCH];
        let batch = move || {
            timed(|| {
                for &call in &self.calls {
                    black_box(archive.look(&self.terms, &self.state, &scratch, call));
                }
            })
        };
        (self.calls.len(), Box::new(batch))
    }

    fn checks<'a>(&'a self, archive: &'a Archive) -> Batch<'a> {
        let batch = move || {
            timed(|| {
                for _ in &self.calls {
                    black_box(archive.check(&self.terms, &self.state));
                }
            })
        };
        (self.calls.len(), Box::new(batch))
    }
}

/// A row for each kind of call: the least ns of each archive's, and the ratio to the first one's.
fn rows(
    name: &str,
    archives: &[Places],
    start: impl Fn(&Archive) -> Option<Start>,
    kinds: &[(&str, Make)],
) {
    // Each archive has its own words for the terms.
    let starts: Vec<Option<Start>> = archives.iter().map(|places| start(&places[0])).collect();
    for (call, make) in kinds {
        let mut batches: Vec<Batch> = Vec::new();
        for (places, start) in archives.iter().zip(&starts) {
            batches
                .extend(start.iter().flat_map(|start| places.each_ref().map(|at| make(start, at))));
        }
        let times = in_turn(Duration::from_millis(2_500), 20, batches);
        let mut times = times.chunks(archives[0].len());
        let mut cells = vec![format!("{name}: {call}")];
        let mut first = None;
        for (place, start) in starts.iter().enumerate() {
            let least = start.as_ref().and_then(|_| times.next());
            let least =
                least.map(|times| times.iter().map(|time| time.least).fold(f64::MAX, f64::min));
            first = if place == 0 { least } else { first };
            cells.push(least.map_or("-".into(), whole));
            cells.push(
                least.zip(first).map_or("".into(), |(time, first)| format!("{:.3}", time / first)),
            );
        }
        markdown::row(&cells);
    }
}

/// Prints a row for each call of these archives and of the one that is
/// built, and what stack they take.
pub fn print(others: &[String]) {
    let mut paths: Vec<PathBuf> = others.iter().map(PathBuf::from).collect();
    paths.push(archives::built());
    let archives: Vec<Places> = paths.iter().map(|path| Archive::open(path)).collect();
    println!("Least ns of a call at {MEMBERS} members, and the ratio to the first archive's;");
    println!("- where an archive refuses the terms, or takes so long that it is left out.\n");
    let names: Vec<String> = paths.iter().map(|path| path.display().to_string()).collect();
    let columns = names.iter().flat_map(|name| [name.as_str(), "ratio"]);
    markdown::head(&["terms, call"].into_iter().chain(columns).collect::<Vec<_>>());
    for make in [Workload::preset, Workload::reach, Workload::large, Workload::random] {
        let workload = make(MEMBERS);
        let start = |archive: &Archive| Start::of(&workload, archive);
        rows(workload.name, &archives, start, &[REQUEST, LOOK, CHECK]);
    }
    for (name, counted) in [("policy 20, counted", true), ("policy 20, spelled out", false)] {
        let text = counts::text(MEMBERS, FRIENDS, counted);
        let start =
            |archive: &Archive| Start::read(archive, &text, counts::calls(MEMBERS, FRIENDS));
        rows(name, &archives, start, &[REQUEST, LOOK]);
    }
    for (kind, (name, _)) in chains(LEVELS).into_iter().enumerate() {
        let text = |levels| chains(levels).into_iter().nth(kind).expect("a kind").1;
        let levels = || (8..LEVELS).step_by(4).chain([LEVELS]);
        let calls = [[0, 1, 2], [1, 1, 2]];
        let start = |archive: &Archive| Start::grown(archive, levels(), text, &calls, SLOW);
        rows(name, &archives, start, &[REQUEST, LOOK]);
    }
    for (family, most) in [(Family::InTurn, TURNS), (Family::AllRead, DEPTH)] {
        for depth in (1..=most).step_by(2) {
            let text = |depth| family.text(depth);
            let start =
                |archive: &Archive| Start::grown(archive, 1..=depth, text, &[worst::CALL], SLOWEST);
            let name = format!("{}, {depth} deep", family.name());
            rows(&name, &archives, start, &[REQUEST, LOOK]);
        }
    }
    for (places, path) in archives.iter().zip(paths) {
        println!("\n{}", path.display());
        _ = stack::print(&places[0]);
    }
}
