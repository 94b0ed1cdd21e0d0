//! What a stored file remembers: its T and V lines as sentences.

use super::clause::Who;
use super::form::Forms;
use super::grammar::Time;
use super::labels::Manner;
use super::render::Speaker;
use super::words::{letters, named};
use super::{outline, resolve, Sentence};
use crate::names::Names;
use keeper::record::meaning::Assigned;
use keeper::record::Record;
use keeper::terms::Bit;

/// So many lines are told of a table.
const MOST: usize = 12;

/// What had passed when a record was stored; nothing of one that began afresh.
pub fn stored(
    record: &Record,
    forms: &Forms,
    speaker: &mut Speaker,
    names: &Names,
) -> Option<Sentence> {
    let tables = record.before()?;
    let mut lines = Vec::new();
    for (entry, table) in forms.terms.past().into_iter().zip(tables) {
        // Without a free variable a member's bits are all set: one sentence says it.
        let closed = forms.free[entry] == 0;
        let told = |bit: &Bit| !closed || bit.parts().1[0] == 0;
        let bits: Vec<Bit> = table.into_iter().filter(told).collect();
        for &bit in bits.iter().take(MOST) {
            let (member, assigned) = Assigned::by(forms.free[entry], bit);
            let clause = resolve::of_place(forms, (entry, member, assigned), true);
            outline(speaker.say(&clause, Time::Now, None), 1, &mut lines);
        }
        if bits.len() > MOST {
            lines.push((1, format!("and {} more like these", bits.len() - MOST)));
        }
    }
    if let Some(edge) = record.graphs()[0].event {
        let label = edge.label(forms.terms);
        let (from, to) = (Who::Member(edge.from), Who::Member(edge.to));
        let edge = speaker.edge(label, from, to, Time::Now, Manner::Plain, None);
        outline(edge, 1, &mut lines);
    }
    let head = match lines.is_empty() {
        true => "When this was stored, nothing was remembered of the past.",
        false => "When this was stored, this was remembered:",
    };
    lines.insert(0, (0, head.to_string()));
    let shown = |(depth, line): (usize, String)| (depth, named(&letters(&line), names));
    Some(Sentence { lines: lines.into_iter().map(shown).collect() })
}
