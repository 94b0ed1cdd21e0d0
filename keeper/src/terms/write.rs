//! Writes terms and a state as a text.

use super::memory::State;
use super::*;

/// The old form: the terms with the given edges as G lines, no number padded.
/// Nothing is checked: faulty terms give a faulty text.
pub fn write(terms: &Terms, edges: &BTreeSet<Edge>) -> Vec<u8> {
    text(old_lines(terms, edges))
}

/// The stored form: S 2, the old lines, a T line for each set bit, rising, and
/// a V line if there is an event edge.
pub fn store(terms: &Terms, state: &State) -> Vec<u8> {
    let mut lines = vec!["S\t2".to_string()];
    lines.extend(old_lines(terms, &state.edges));
    for (t, table) in state.past.tables.iter().enumerate() {
        lines.extend(table.iter().map(|bit| table_line(t, *bit)));
    }
    if let Some(edge) = state.past.event {
        lines.push(format!("V\t{}\t{}\t{}", edge.number(), edge.from, edge.to));
    }
    text(lines)
}

fn table_line(t: usize, bit: Bit) -> String {
    let members: String = bit.members().iter().map(|member| format!("\t{member}")).collect();
    format!("T\t{t}{members}")
}

fn old_lines(terms: &Terms, edges: &BTreeSet<Edge>) -> Vec<String> {
    let mut lines =
        vec![format!("M\t{}", terms.members), format!("L\t{}\t{}", terms.relations, terms.events)];
    for (index, entry) in terms.entries.iter().enumerate() {
        let (number, [a, b, c]) = entry.parts();
        let operator = OPERATORS[number];
        let third = if operator.is_long() { format!("\t{c}") } else { String::new() };
        lines.push(format!("F\t{index}\t{}\t{a}\t{b}{third}", operator.word));
    }
    for (event, entry) in terms.policies.iter().enumerate() {
        lines.push(format!("P\t{event}\t{entry}"));
    }
    lines.extend(terms.kept.iter().map(|event| format!("K\t{event}")));
    for (event, effects) in terms.effects.iter().enumerate() {
        for effect in effects {
            let action = if effect.add { "add" } else { "del" };
            let direction = if effect.back { "back" } else { "fwd" };
            lines.push(format!("E\t{event}\t{action}\t{}\t{direction}", effect.relation));
        }
    }
    lines.extend(edges.iter().map(|(relation, from, to)| format!("G\t{relation}\t{from}\t{to}")));
    lines
}

/// The lines, each with its line feed.
fn text(mut lines: Vec<String>) -> Vec<u8> {
    lines.push(String::new());
    lines.join("\n").into_bytes()
}
