//! Reading and writing: the longest file that the program takes, one with every
//! edge of 64 members and 16 relations, and the fullest stored ones. The time for
//! a byte shows that both are linear.

use crate::markdown::{self, grouped, Goal};
use crate::measure::{in_turn, timed, Batch};
use cuckooormolu::{raw, Refusal, STATE_WORDS, TERMS_WORDS};
use std::hint::black_box;
use std::time::Duration;

/// Lines of every triple below a count and 64.
fn triples(kind: &str, count: usize) -> String {
    let line = |n: usize| format!("{kind}\t{}\t{}\t{}\n", n / 4096, n / 64 % 64, n % 64);
    (0..count * 4096).map(line).collect()
}

/// Terms of 64 members, 16 relations and one event, with so many prev of top.
fn head(tables: usize) -> String {
    let mut text = "M\t64\nL\t16\t1\nF\t0\ttop\t0\t0\n".to_string();
    text.extend((1..=tables).map(|entry| format!("F\t{entry}\tprev\t0\t0\n")));
    text + "P\t0\t0\n"
}

/// A text of edges, no longer than that.
fn edges(most: usize) -> Vec<u8> {
    let mut text = head(0).into_bytes();
    let edges = triples("G", 16);
    let room = most.saturating_sub(text.len()).min(edges.len());
    let end = edges[..room].rfind('\n').map_or(0, |end| end + 1);
    text.extend(&edges.as_bytes()[..end]);
    text
}

/// A stored text with every edge and so many full tables.
fn stored(tables: usize) -> Vec<u8> {
    let lines = [triples("G", 16), triples("T", tables), "V\t0\t63\t63\n".to_string()];
    format!("S\t2\n{}{}", head(tables), lines.concat()).into_bytes()
}

/// The fullest stored text without its last bit: refused with 11, after all
/// lines were read.
fn partly_filled() -> Vec<u8> {
    let text = String::from_utf8(stored(32)).expect("digits and letters");
    text.replace("T\t31\t63\t63\n", "").into_bytes()
}

/// Prints what reading and writing a text take, each in its own form.
pub fn print() -> Vec<Goal> {
    markdown::table(
        "Texts",
        "Least times, each text written in its own form:",
        &["text", "bytes", "read ms", "write ms", "read ns a byte", "write ns a byte"],
    );
    row("terms, the longest that the program takes", &edges(65_536), raw::write);
    row("terms, every edge of 64 members and 16 relations", &edges(usize::MAX), raw::write);
    row("stored, every edge", &stored(0), raw::store);
    row("stored, every edge and 16 full tables", &stored(16), raw::store);
    row("stored, every edge and 32 full tables", &stored(32), raw::store);
    refused("the same but for the last bit: refused with 11", &partly_filled());
    Vec::new()
}

/// Writes one of the forms.
type Write = fn(&[u16], &[u64], &mut [u8]) -> Result<usize, Refusal>;

fn row(name: &str, text: &[u8], form: Write) {
    let (mut terms, mut state) = (vec![0; TERMS_WORDS], vec![0; STATE_WORDS]);
    raw::read(text, &mut terms, &mut state).expect("the text is right");
    let (own_terms, own_state) = (terms.clone(), state.clone());
    let mut output = vec![0; text.len()];
    let written = form(&own_terms, &own_state, &mut output);
    assert!(written.is_ok_and(|count| &output[..count] == text));
    let mut read = || _ = black_box(raw::read(text, &mut terms, &mut state));
    let mut write = || _ = black_box(form(&own_terms, &own_state, &mut output));
    let batches: Vec<Batch> =
        vec![(1, Box::new(|| timed(&mut read))), (1, Box::new(|| timed(&mut write)))];
    let times = in_turn(Duration::from_millis(500), 20, batches);
    let [read, write] = [0, 1].map(|place| Some(times[place].least));
    put(name, text, read, write);
}

fn refused(name: &str, text: &[u8]) {
    let (mut terms, mut state) = (vec![0; TERMS_WORDS], vec![0; STATE_WORDS]);
    let got = raw::read(text, &mut terms, &mut state).map_err(|(refusal, _)| refusal);
    assert_eq!(got, Err(Refusal::PartlyFilled));
    let mut read = || _ = black_box(raw::read(text, &mut terms, &mut state));
    let batches: Vec<Batch> = vec![(1, Box::new(|| timed(&mut read)))];
    let read = in_turn(Duration::from_millis(500), 20, batches)[0].least;
    put(name, text, Some(read), None);
}

/// Prints a row; there may be nothing to write.
fn put(name: &str, text: &[u8], read: Option<f64>, write: Option<f64>) {
    let both = [read, write];
    let show = |time: f64| format!("{time:.2}");
    let mut cells = vec![name.to_string(), grouped(text.len())];
    cells.extend(both.map(|time| time.map_or("".into(), |time| show(time / 1e6))));
    cells.extend(both.map(|time| time.map_or("".into(), |time| show(time / text.len() as f64))));
    markdown::row(&cells);
}
