//! The stack that calls of two banks take beside the single ones, under the same
//! deepest terms.

use crate::chains::{binding, deep, plain};
use crate::markdown::{self, Goal};
use crate::stack::{touched, without_past, Work, BRIEF_DEPTH, DEPTHS, MOST, MOST_BRIEF};
use cuckooormolu::{raw, Answer, Refusal};
use cuckooormolu::{OWN_WORDS, RELATION_WORDS, SCRATCH_WORDS, STATE_WORDS, TERMS_WORDS};

/// The goal: what a request of a bank takes beyond a single one, in bytes.
const MOST_ABOVE: usize = 16 << 10;

const NAMES: [&str; 6] = ["request", "look", "set list", "open", "revise", "read"];

/// The policy of event 0 is top, and that of event 1 the deepest.
const REQUESTS: [raw::Request; 2] =
    [raw::Request { event: 0, from: 1, to: 2 }, raw::Request { event: 1, from: 1, to: 2 }];

fn records() -> [raw::Record; 2] {
    [0, 1].map(|event| raw::Record { event, from: 1, to: 2, answer: 0 })
}

fn decide(mut call: impl FnMut(raw::Request) -> Result<Answer, Refusal>) {
    assert_eq!(call(REQUESTS[0]), Ok(Answer::Grant));
    assert!(call(REQUESTS[1]).is_ok());
}

/// The bytes of the single calls, by their names.
fn single(text: &[u8]) -> [usize; 6] {
    let (mut terms, mut state) = (vec![0; TERMS_WORDS], vec![0; STATE_WORDS]);
    let (mut plain, mut before) = (terms.clone(), state.clone());
    let (mut scratch, mut second) = (vec![0; SCRATCH_WORDS], state.clone());
    let mut records = records();
    assert!(raw::read(&without_past(text), &mut plain, &mut before).is_ok());
    let read =
        touched(Box::new(|| assert!(raw::read(text, &mut terms, &mut state).is_ok())) as Work);
    let request = touched(Box::new(|| {
        decide(|request| raw::request(&terms, &mut state, &mut scratch, request))
    }));
    let look = touched(Box::new(|| decide(|request| raw::look(&terms, &state, &scratch, request))));
    let list = touched(Box::new(|| {
        assert!(raw::set_list(&terms, &mut state, &mut scratch, &mut records).is_ok())
    }));
    let open = touched(Box::new(|| assert!(raw::open(&terms, &mut state).is_ok())));
    let revise = touched(Box::new(|| {
        assert!(raw::revise(&plain, &before, &terms, &mut second).is_ok());
    }));
    [request, look, list, open, revise, read]
}

/// The bytes of those of banks.
fn banks(text: &[u8]) -> [usize; 6] {
    let (mut terms, mut edges) = (vec![0; TERMS_WORDS], vec![0; RELATION_WORDS]);
    let (mut own, mut other) = (vec![0; OWN_WORDS], vec![0; OWN_WORDS]);
    let (mut plain, mut old) = (terms.clone(), edges.clone());
    let (mut first, mut second) = (own.clone(), own.clone());
    let (mut relations, mut third, mut fourth) = (edges.clone(), own.clone(), own.clone());
    let (mut scratch, mut spare) = (vec![0; SCRATCH_WORDS], vec![0; SCRATCH_WORDS]);
    let mut records = records();
    let bare = without_past(text);
    assert!(raw::banks_read(&bare, &mut plain, &mut old, &mut first, &mut second).is_ok());
    let read = touched(Box::new(|| {
        assert!(raw::banks_read(text, &mut terms, &mut edges, &mut own, &mut other).is_ok())
    }));
    let request = touched(Box::new(|| {
        decide(|request| {
            let (own, other) = (&mut own, &mut other);
            raw::banks_request(&terms, &mut edges, own, other, &mut scratch, &mut spare, request)
        })
    }));
    let look = touched(Box::new(|| {
        decide(|request| raw::banks_look(&terms, &edges, &own, &other, &scratch, &spare, request))
    }));
    let list = touched(Box::new(|| {
        let (own, other, scratch, spare) = (&mut own, &mut other, &mut scratch, &mut spare);
        let listed =
            raw::banks_set_list(&terms, &mut edges, own, other, scratch, spare, &mut records);
        assert!(listed.is_ok());
    }));
    let open =
        touched(Box::new(
            || assert!(raw::banks_open(&terms, &edges, &mut own, &mut other).is_ok()),
        ));
    let revise = touched(Box::new(|| {
        let (relations, third, fourth) = (&mut relations, &mut third, &mut fourth);
        let revised =
            raw::banks_revise(&plain, &old, &first, &second, &terms, relations, third, fourth);
        assert!(revised.is_ok());
    }));
    [request, look, list, open, revise, read]
}

/// Prints the most of each call, single and of banks, and the most by which banks take
/// more, and gives the goals.
pub fn print() -> [Goal; 3] {
    let bare = touched(Box::new(|| ()));
    let mut most = [[0; 3]; NAMES.len()];
    for (_, text) in deep() {
        for ((most, single), banks) in most.iter_mut().zip(single(&text)).zip(banks(&text)) {
            let bytes = [single - bare, banks - bare, banks.saturating_sub(single)];
            *most = [0, 1, 2].map(|i| most[i].max(bytes[i]));
        }
    }
    let kib = |bytes: usize| bytes as f64 / 1024.0;
    println!("\nStack of two banks under the same terms, in KiB:\n");
    markdown::head(&["call", "single", "banks", "above"]);
    for (name, bytes) in NAMES.iter().zip(&most) {
        let cells = bytes.map(|bytes| format!("{:.1}", kib(bytes)));
        markdown::row(&[&[name.to_string()], &cells[..]].concat());
    }
    let (above, all) = (most[0][2], most.iter().map(|bytes| bytes[1]).max().unwrap_or(0));
    println!("\nBy the depth of the terms:\n");
    markdown::head(&[&["terms"], &NAMES[..]].concat());
    let brief = DEPTHS.map(|depth| (format!("{depth} deep, no memo"), plain(depth)));
    let long = DEPTHS.map(|depth| (format!("{depth} deep, memo"), binding(depth)));
    for (name, text) in brief.into_iter().chain(long) {
        let cells = banks(&text).map(|bytes| format!("{:.1}", kib(bytes - bare)));
        markdown::row(&[&[name], &cells[..]].concat());
    }
    let least = banks(&plain(BRIEF_DEPTH)).into_iter().max().unwrap_or(0) - bare;
    let text =
        format!("stack of a bank's request at most {} KiB above a single one", kib(MOST_ABOVE));
    [
        Goal::new(text, format!("{:.1} KiB", kib(above)), above <= MOST_ABOVE),
        Goal::new(
            format!("stack of two banks at most {} KiB", MOST >> 10),
            format!("{:.1} KiB", kib(all)),
            all <= MOST,
        ),
        Goal::new(
            format!(
                "the same for terms {BRIEF_DEPTH} deep without a memo at most {} KiB",
                MOST_BRIEF >> 10
            ),
            format!("{:.1} KiB", kib(least)),
            least <= MOST_BRIEF,
        ),
    ]
}
