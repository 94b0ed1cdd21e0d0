//! Which answers change.

use crate::aloud::listed;
use crate::both::Allowed;
use crate::json::Json;
use crate::names::Names;
use crate::words::Words;

/// So many names are told of one side of an arrow, and so many lines of one heading.
const MOST_NAMES: usize = 6;
const MOST_LINES: usize = 10;

/// To whom an initiator could do an event and no longer can, or now can.
#[derive(Clone, Debug, PartialEq, Eq)]
pub struct Change {
    event: usize,
    from: usize,
    lost: Vec<usize>,
    won: Vec<usize>,
}

impl Change {
    pub fn json(&self, names: &Names) -> Json {
        let all = |members: &[usize]| -> Vec<String> {
            members.iter().map(|&member| names.member(member)).collect()
        };
        Json::Object(vec![
            ("event", names.event(self.event).into()),
            ("from", names.member(self.from).into()),
            ("no longer", all(&self.lost).into()),
            ("now", all(&self.won).into()),
        ])
    }
}

/// All changes, by event and initiator.
pub struct Changes {
    pub list: Vec<Change>,
}

impl Changes {
    pub fn of(could: &Allowed, can: &Allowed) -> Changes {
        let mut list = Vec::new();
        for (event, (could, can)) in could.iter().zip(can).enumerate() {
            for (from, (could, can)) in could.iter().zip(can).enumerate() {
                let only = |these: &[bool], those: &[bool]| -> Vec<usize> {
                    (0..these.len()).filter(|&to| these[to] && !those[to]).collect()
                };
                let (lost, won) = (only(could, can), only(can, could));
                if !lost.is_empty() || !won.is_empty() {
                    list.push(Change { event, from, lost, won });
                }
            }
        }
        Changes { list }
    }

    /// What is no longer allowed and what is now, each under its heading.
    pub fn parts(&self, words: &Words) -> Vec<String> {
        let heads = ["No longer allowed:", "Now allowed:"];
        let sides: [fn(&Change) -> &[usize]; 2] = [|change| &change.lost, |change| &change.won];
        let told = heads.into_iter().zip(sides);
        let told = told.filter_map(|(head, side)| self.part(head, side, words));
        let parts: Vec<String> = told.collect();
        match parts.is_empty() {
            true => vec!["No answer changes now.\n".to_string()],
            false => parts,
        }
    }

    fn part(&self, head: &str, side: fn(&Change) -> &[usize], words: &Words) -> Option<String> {
        // Initiators of an event with the same targets are told together.
        let mut groups: Vec<(usize, &[usize], Vec<usize>)> = Vec::new();
        for change in self.list.iter().filter(|change| !side(change).is_empty()) {
            let targets = side(change);
            let same = |group: &&mut (usize, &[usize], Vec<usize>)| {
                group.0 == change.event && group.1 == targets
            };
            match groups.iter_mut().find(same) {
                Some(group) => group.2.push(change.from),
                None => groups.push((change.event, targets, vec![change.from])),
            }
        }
        if groups.is_empty() {
            return None;
        }
        let mut text = format!("{head}\n");
        for (event, targets, from) in groups.iter().take(MOST_LINES) {
            let label = words.terms.relations + event;
            let line = words.arrow(label, &names(words, from), &names(words, targets));
            text.push_str(&format!("- {line}\n"));
        }
        let rest = groups.iter().skip(MOST_LINES);
        let pairs: usize = rest.map(|(_, targets, from)| targets.len() * from.len()).sum();
        if pairs > 0 {
            text.push_str(&format!("- and {pairs} pairs more\n"));
        }
        Some(text)
    }
}

/// The names of some members, cut where there are many.
fn names(words: &Words, members: &[usize]) -> String {
    if members.len() == words.terms.members {
        return "everybody".to_string();
    }
    let shown = members.iter().take(MOST_NAMES).map(|&member| words.member(member));
    let mut shown: Vec<String> = shown.collect();
    if members.len() > MOST_NAMES {
        shown.push(format!("{} more", members.len() - MOST_NAMES));
    }
    listed(&shown)
}
