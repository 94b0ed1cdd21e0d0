//! A graph of many members as a matrix: rows and columns are members, and a mark is an
//! edge from its row to its column. Lines between so many would hide one another.

use super::events::{EventLine, Look};
use super::glyphs;
use super::html::escaped;
use super::layout::Area;
use super::tables::shortened;
use crate::words::Words;
use keeper::terms::Edge;
use std::collections::BTreeSet;

const CELL: f64 = 12.5;
const FONT: f64 = 11.0;
/// The width of a letter.
const LETTER: f64 = 7.1;
/// Every so many rows and columns there is a line to count by.
const COUNTED: usize = 8;

/// The cross of a denied request.
pub const CROSS: &str = "M-5-5L5 5M-5 5L5-5";

/// Where everything is on the picture; the first cell is at its origin.
pub struct Grid {
    names: Vec<String>,
    /// The length of the longest name.
    margin: f64,
}

impl Grid {
    pub fn new(words: &Words) -> Grid {
        let names = (0..words.terms.members).map(|member| shortened(&words.member(member)));
        let names: Vec<String> = names.collect();
        let longest = names.iter().map(|name| name.chars().count()).max().unwrap_or(0);
        Grid { names, margin: longest as f64 * LETTER + 8.0 }
    }

    fn side(&self) -> f64 {
        self.names.len() as f64 * CELL
    }

    pub fn bounds(&self) -> Area {
        (-self.margin, -self.margin, self.side() + 6.0, self.side() + 6.0)
    }

    /// The names, each at its row and at its column, and the lines between.
    pub fn members(&self) -> String {
        let (side, mut text) = (self.side(), String::new());
        text.push_str(&format!("<g class=\"ruled\" font-size=\"{FONT}\">\n"));
        for line in (0..=self.names.len()).step_by(COUNTED) {
            let at = line as f64 * CELL;
            text.push_str(&format!("<path d=\"M0 {at}H{side}M{at} 0V{side}\"/>"));
        }
        text.push_str(&format!("<path d=\"M0 {side}H{side}V0\"/>\n"));
        for (member, name) in self.names.iter().enumerate() {
            let (at, name) = (member as f64 * CELL + CELL / 2.0, escaped(name));
            text.push_str(&format!(
                "<g class=\"node\" data-member=\"{member}\"><text x=\"-4\" y=\"{at}\" dy=\"0.35em\" \
                 text-anchor=\"end\">{name}</text></g><g class=\"node\" data-member=\"{member}\">\
                 <text x=\"{at}\" y=\"-4\" dy=\"0.35em\" transform=\"rotate(-90 {at} -4)\">{name}</text></g>\n"
            ));
        }
        text.push_str("</g>\n");
        text
    }

    /// Marks for some edges of a graph. The edges of a cell share it.
    pub fn marks<'e>(
        &self,
        some: impl Iterator<Item = &'e Edge>,
        all: &BTreeSet<Edge>,
        words: &Words,
    ) -> String {
        let mark = |&(relation, from, to): &Edge| {
            let present = |other: &usize| all.contains(&(*other, from, to));
            let count = (0..words.terms.relations).filter(present).count().max(1);
            let place = (0..relation).filter(present).count();
            let (middle, half) = place_in_cell(place, count);
            let at = |cell: usize, part: f64| (cell as f64 + part) * CELL;
            let title = format!("<title>{}</title>", escaped(&words.edge(relation, from, to)));
            glyphs::mark(relation, (at(to, middle.0), at(from, middle.1)), half, &title)
        };
        some.map(mark).collect()
    }

    /// Boxes around the cells of some edges.
    pub fn boxes<'e>(&self, some: impl Iterator<Item = &'e Edge>) -> String {
        let one = |&(_, from, to): &Edge| {
            let (x, y, side) = (to as f64 * CELL + 0.5, from as f64 * CELL + 0.5, CELL - 1.0);
            format!(
                "<rect class=\"boxed\" x=\"{x:.1}\" y=\"{y:.1}\" width=\"{side:.1}\" height=\"{side:.1}\"/>\n"
            )
        };
        some.map(one).collect()
    }

    /// The cells of events: lines lead to what just happened from its row and its column,
    /// what was denied has a cross, and what is past a thin box.
    pub fn events(&self, events: &[EventLine]) -> String {
        events.iter().rev().map(|event| self.event(event)).collect()
    }

    fn event(&self, EventLine { from, to, name, look, .. }: &EventLine) -> String {
        let (x, y, half) = (*to as f64 * CELL, *from as f64 * CELL, CELL / 2.0);
        let (class, title) = (look.line(), format!("<title>{}</title>", escaped(name)));
        let (middle, level) = (x + half, y + half);
        let boxed = |out: f64| {
            let (x, y, side) = (x - out, y - out, CELL + 2.0 * out);
            format!(
                "<rect class=\"{class}\" x=\"{x:.1}\" y=\"{y:.1}\" width=\"{side}\" height=\"{side}\">\
                 {title}</rect>\n"
            )
        };
        match look {
            Look::Now | Look::NowDenied => {
                let leading = format!("M0 {level:.1}H{x:.1}M{middle:.1} 0V{y:.1}");
                format!("<path class=\"leading\" d=\"{leading}\"/>{}", boxed(1.0))
            }
            Look::Past => boxed(0.0),
            Look::Denied => {
                let cross = CROSS;
                format!(
                    "<path class=\"crossed\" transform=\"translate({middle:.1} {level:.1})\" d=\"{cross}\">\
                     {title}</path>\n"
                )
            }
        }
    }
}

/// Where in its cell a mark among so many has its middle, as parts of the cell, and how
/// far it reaches. Two stand across, and more in rows.
fn place_in_cell(place: usize, count: usize) -> ((f64, f64), f64) {
    match (count, place) {
        (0 | 1, _) => ((0.5, 0.5), 4.8),
        (2, 0) => ((0.29, 0.29), 3.7),
        (2, _) => ((0.71, 0.71), 3.7),
        _ => {
            let row = (2..).find(|row| row * row >= count).unwrap_or(count);
            let part = |place: usize| (place as f64 + 0.5) / row as f64;
            ((part(place % row), part(place / row)), CELL * 0.45 / row as f64)
        }
    }
}
