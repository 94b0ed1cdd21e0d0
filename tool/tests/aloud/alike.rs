//! No two random formulas of other meanings sound alike.

use cuckooormolu_tool::aloud::clause::Clause;
use cuckooormolu_tool::aloud::form::Forms;
use cuckooormolu_tool::aloud::{resolve, Aloud};
use cuckooormolu_tool::names::{Kind, Names};
use keeper::generate::size::Size;
use keeper::generate::{formulas, Rng};
use keeper::terms::{read, write, Entry, Terms};
use std::collections::HashMap;

/// Names for two relations and three events: verbs with and without a
/// preposition, nouns of both directions, and neither.
const NAMES: [[&str; 5]; 3] = [
    ["own", "friend", "share", "join", "view-all"],
    ["member-of", "blacklist", "withdraw", "see3", "invite"],
    ["friend", "rival", "report", "reply", "album"],
];

fn names(set: [&str; 5]) -> Names {
    let mut names = Names::default();
    let kinds = [(Kind::Relation, 0), (Kind::Relation, 1)].into_iter();
    let kinds = kinds.chain((0..3).map(|event| (Kind::Event, event)));
    for ((kind, number), name) in kinds.zip(set) {
        names.set(kind, number, name).unwrap();
    }
    names
}

/// The policies' clauses with all that their numbered clauses say.
fn sayings(terms: &Terms, names: &Names) -> Vec<(String, String)> {
    let aloud = Aloud::of(terms, names);
    let forms = Forms::new(terms, &Names::default());
    let clauses: Vec<String> = aloud.clauses.iter().map(|sentence| sentence.text()).collect();
    let mut apart = Vec::new();
    let mut meanings = Vec::new();
    for &entry in &terms.policies {
        meanings.push(resolve::of_policy(&forms, entry));
    }
    for meaning in &meanings {
        gather_apart(meaning, &mut apart);
    }
    let mut index = 0;
    while index < apart.len() {
        gather_apart(&resolve::of_entry(&forms, apart[index]), &mut apart);
        index += 1;
    }
    let numbered: Vec<Clause> =
        apart.iter().map(|&entry| resolve::of_entry(&forms, entry)).collect();
    let renumber = |clause: &Clause| in_order(clause, &apart);
    let context: Vec<String> = numbered.iter().map(&renumber).collect();
    let spoken = aloud.events.iter().zip(&meanings);
    spoken
        .map(|(spoken, meaning)| {
            // Sentences name their event; what follows is what is compared.
            let text = spoken.policy.text();
            let own = text.split_once(" the target").map_or("", |(_, rest)| rest);
            let always = text.starts_with("You may always");
            let has_clauses = text.contains("clause ");
            let said = format!(
                "{always} {own} {}",
                if has_clauses { clauses.join("\n") } else { String::new() }
            );
            let meant = format!(
                "{} {}",
                renumber(meaning),
                if has_clauses { context.join("\n") } else { String::new() }
            );
            (said, meant)
        })
        .collect()
}

/// A clause shown with guests and numbered clauses counted as they are met.
pub fn in_order(clause: &Clause, apart: &[usize]) -> String {
    let mut shown = format!("{clause:?}");
    for (number, entry) in apart.iter().enumerate() {
        let (from, to) =
            (format!("Apart {{ entry: {entry},"), format!("Apart {{ number {number},"));
        shown = shown.replace(&from, &to);
    }
    let mut met: Vec<String> = Vec::new();
    for part in shown.split("guest: ").skip(1) {
        met.push(part.chars().take_while(char::is_ascii_digit).collect());
    }
    for (number, guest) in met.iter().enumerate() {
        shown = shown.replace(&format!("guest: {guest},"), &format!("guest {number},"));
        shown = shown.replace(&format!("Guest({guest})"), &format!("Guest {number}"));
    }
    shown
}

fn gather_apart(clause: &Clause, apart: &mut Vec<usize>) {
    match clause {
        Clause::Apart { entry, .. } => {
            if !apart.contains(entry) {
                apart.push(*entry);
            }
        }
        Clause::All(parts) | Clause::Any(parts) => {
            parts.iter().for_each(|part| gather_apart(part, apart));
        }
        Clause::Linked(link) => gather_apart(&link.that, apart),
        Clause::Counted(counted) => gather_apart(&counted.that, apart),
        Clause::Reached(reached) => {
            gather_apart(&reached.step, apart);
            gather_apart(&reached.that, apart);
        }
        Clause::Before { then, .. } | Clause::Once { then, .. } | Clause::Throughout(then) => {
            gather_apart(then, apart);
        }
        Clause::Since { start, hold, .. } => {
            gather_apart(start, apart);
            gather_apart(hold, apart);
        }
        Clause::Constant(_) | Clause::Same { .. } | Clause::Edge { .. } => {}
    }
}

/// The highest entries that can be policies, as policies.
fn with_high_policies(mut terms: Terms) -> Option<Terms> {
    let free = terms.free();
    let high = (0..terms.entries.len()).rev().filter(|&entry| free[entry] & !1 == 0);
    terms.policies = high.take(terms.events).collect();
    (terms.policies.len() == terms.events).then_some(terms)
}

/// The same terms with one entry changed a little, if they stay accepted.
fn changed(terms: &Terms, rng: &mut Rng) -> Option<Terms> {
    let mut terms = terms.clone();
    let place = rng.below(terms.entries.len());
    let entry = terms.entries[place];
    let (operator, [a, b, c]) = entry.parts();
    let changed = match rng.below(6) {
        5 => Entry::of_parts(operator, [a, b, c ^ 1]),
        0 => Entry::of_parts(operator, [b, a, c]),
        1 => Entry::of_parts(operator ^ 1, [a, b, c]),
        2 => Entry::of_parts(operator, [a ^ 1, b, c]),
        3 => Entry::of_parts(operator, [a, c, b]),
        _ => Entry::of_parts(operator, [a, b ^ 1, c]),
    };
    terms.entries[place] = changed?;
    read(&write(&terms, &terms.edges)).ok().map(|file| file.terms)
}

#[test]
fn no_two_meanings_sound_alike() {
    let mut said: Vec<HashMap<String, String>> = vec![HashMap::new(); NAMES.len()];
    for seed in 0..5_000 {
        let mut rng = Rng::new(seed);
        let size = if rng.percent(90) { Size::small(&mut rng) } else { Size::middle(&mut rng) };
        let size = Size { relations: 2, events: 3, ..size };
        let first = with_high_policies(formulas::terms(&mut rng, &size));
        let Some(first) = first else { continue };
        let near = (0..4).filter_map(|_| changed(&first, &mut rng)).collect::<Vec<_>>();
        for terms in near.iter().chain([&first]) {
            let set = rng.below(NAMES.len());
            for (sentence, meaning) in sayings(terms, &names(NAMES[set])) {
                let before = said[set].entry(sentence.clone()).or_insert_with(|| meaning.clone());
                assert_eq!(*before, meaning, "seed {seed}: {sentence}");
            }
        }
    }
    let count: usize = said.iter().map(HashMap::len).sum();
    assert!(count > 8_000, "{count}");
}
