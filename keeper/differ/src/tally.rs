//! What was compared, counted by outcome.

mod plans;
mod renumbered;

use keeper::record::{Answer, Call};
use keeper::set_list::Item;
use keeper::terms::formula::first_same;
use keeper::terms::{self, memory, Refusal, Terms, MOST_PAIRED};
use std::collections::BTreeMap;
use std::fmt;

/// The counts of one bank, and those of two.
#[derive(Default)]
pub struct Tallies {
    pub one: Tally,
    pub two: Tally,
}

impl Tallies {
    /// Outcomes that a long run has to see and did not.
    pub fn unseen(&self) -> Vec<String> {
        let of_two = self.two.unseen(two_banks()).into_iter();
        let mut unseen = self.one.unseen(one_bank());
        unseen.extend(of_two.map(|outcome| format!("{outcome} of two banks")));
        unseen
    }
}

impl fmt::Display for Tallies {
    fn fmt(&self, out: &mut fmt::Formatter<'_>) -> fmt::Result {
        write!(out, "{}two banks:\n{}", self.one, self.two)
    }
}

type Seen = (&'static str, String);

/// What has to come up with terms that have tables of two free variables: what
/// these terms give, and texts that are refused for such a table, its entry or its
/// lines.
const PAIRED: &str = "two free";

/// What calls, set lists and revisions have to give.
fn steps() -> Vec<Seen> {
    let mut wanted = Vec::new();
    for kind in ["request", "look"] {
        wanted.extend([6, 7, 8, 9].map(|number| (kind, format!("refuse {number}"))));
        wanted.extend([(kind, "grant".into()), (kind, "deny".into())]);
    }
    wanted.push(("request", "deny, kept".into()));
    wanted.extend([6, 7, 8].map(|number| ("set list", format!("refuse {number}"))));
    wanted.extend(["answered", "empty"].map(|outcome| ("set list", outcome.into())));
    wanted.extend(["grant", "deny", "refuse 9"].map(|outcome| ("in a list", outcome.into())));
    wanted.extend([6, 7, 8, 13].map(|number| ("revise", format!("refuse {number}"))));
    wanted.push(("revise", "done".into()));
    wanted.extend(["carried", "begun"].map(|outcome| ("past-time", outcome.into())));
    let paired = [
        "request grant",
        "request deny",
        "request deny, kept",
        "request refuse 8",
        "look grant",
        "look deny",
        "look refuse 8",
        "in a list grant",
        "in a list deny",
        "above 8 members",
        "read accepted",
        "read padded",
        "read refuse 4",
        "read refuse 4 of 17",
        "carried",
        "begun",
    ];
    wanted.extend(paired.map(|outcome| (PAIRED, outcome.into())));
    wanted
}

fn one_bank() -> Vec<Seen> {
    let refused = |kind, number| (kind, format!("refuse {number}"));
    let mut wanted = steps();
    wanted.extend(renumbered::wanted());
    wanted.extend([1, 2, 3, 4, 5, 6, 10, 11].map(|number| refused("read", number)));
    wanted.extend([6, 7, 8, 12].map(|number| refused("write", number)));
    wanted.extend([6, 7, 8].map(|number| refused("store", number)));
    wanted.extend(["accepted", "padded", "stored"].map(|form| ("read", form.into())));
    wanted.extend(["write", "store"].map(|kind| (kind, "written".into())));
    let paired = ["read stored", "T line refuse 1", "T line refuse 2"];
    wanted.extend(paired.map(|outcome| (PAIRED, outcome.into())));
    wanted.extend(plans::wanted());
    wanted
}

fn two_banks() -> Vec<Seen> {
    let refused = |kind, number| (kind, format!("refuse {number}"));
    let mut wanted = steps();
    wanted.extend([1, 2, 3, 4, 5, 6, 10].map(|number| refused("read", number)));
    wanted.extend([6, 7, 8].map(|number| refused("open", number)));
    wanted.extend(["accepted", "padded"].map(|form| ("read", form.into())));
    wanted.push(("open", "done".into()));
    wanted
}

#[derive(Default)]
pub struct Tally {
    counts: BTreeMap<Seen, usize>,
    calls: usize,
    plans: usize,
    shrinking: bool,
    /// The words of terms that were looked at last, and what they say.
    last: (Vec<u16>, Terms),
}

impl Tally {
    /// Calls over accepted terms and over damaged memory.
    pub fn calls(&self) -> usize {
        self.calls
    }

    /// Counts nothing from here on.
    pub fn stop(&mut self) {
        self.shrinking = true;
    }

    /// Those of the wanted outcomes that did not come up.
    fn unseen(&self, mut wanted: Vec<Seen>) -> Vec<String> {
        wanted.retain(|outcome| !self.counts.contains_key(outcome));
        wanted.into_iter().map(|(kind, outcome)| format!("{kind} {outcome}")).collect()
    }

    /// Reading; accepted texts with padded numbers, and those of the stored form,
    /// are counted apart.
    pub fn read(&mut self, text: &[u8], got: &Result<(), Refusal>) {
        let accepted = match text {
            text if terms::normal(text) != text => "padded",
            [b'S', ..] => "stored",
            _ => "accepted",
        };
        let outcome = got.map_or_else(refused, |()| accepted.into());
        if !self.shrinking {
            self.read_paired(text, got, &outcome);
        }
        self.count("read", outcome);
    }

    /// Texts with a table of two free variables, and those that are refused for the
    /// free variables of an entry or at a T line of five fields.
    fn read_paired(&mut self, text: &[u8], got: &Result<(), Refusal>, outcome: &str) {
        let mut lines = text.split(|&byte| byte == b'\n').map(terms::read::fields);
        match got {
            Ok(()) => {
                let paired = terms::read(text).is_ok_and(|file| !file.terms.paired().is_empty());
                if paired {
                    self.count(PAIRED, format!("read {outcome}"));
                }
            }
            Err(Refusal { number: 4, .. }) => {
                let members = lines.find_map(|line| match line[..] {
                    [b"M", members] => terms::read::number(members),
                    _ => None,
                });
                let many = members.is_some_and(|members| members > MOST_PAIRED);
                self.count(PAIRED, format!("read {outcome}{}", if many { " of 17" } else { "" }));
            }
            Err(Refusal { line, .. }) => {
                let faulty = line.checked_sub(1).and_then(|line| lines.nth(line));
                if matches!(faulty.as_deref(), Some([b"T", _, _, _, _])) {
                    self.count(PAIRED, format!("T line {outcome}"));
                }
            }
        }
    }

    /// How many tables of two free variables the words of terms have, and how many
    /// members.
    fn paired(&mut self, words: &[u16]) -> (usize, usize) {
        if self.last.0 != words {
            let enough = words.len() >= memory::TERMS_WORDS;
            let said = enough.then(|| memory::terms_of_words(words)).flatten();
            self.last = (words.to_vec(), said.unwrap_or_default());
        }
        (self.last.1.paired().len(), self.last.1.members)
    }

    /// Counts what was done under terms with tables of two free variables.
    fn count_paired(&mut self, words: &[u16], outcome: &str) {
        if self.shrinking {
            return;
        }
        let (tables, members) = self.paired(words);
        if tables > 0 {
            self.count(PAIRED, outcome.into());
        }
        if tables > 0 && members > 8 {
            self.count(PAIRED, "above 8 members".into());
        }
    }

    /// Opening.
    pub fn open(&mut self, got: &Result<(), Refusal>) {
        self.count("open", got.map_or_else(refused, |()| "done".into()));
    }

    /// Writing or storing.
    pub fn write(&mut self, kind: &'static str, got: &Result<usize, Refusal>) {
        self.count(kind, got.map_or_else(refused, |_| "written".into()));
    }

    /// A request or a look, and whether it moved the event word or cleared scratch.
    pub fn call(&mut self, terms: &[u16], call: &Call, got: Answer, moved: bool) {
        let kind = if call.look { "look" } else { "request" };
        let outcome = match got {
            Answer::Grant => "grant".into(),
            Answer::Deny if moved => "deny, kept".into(),
            Answer::Deny => "deny".into(),
            Answer::Refused(refusal) => refused(refusal),
        };
        self.calls += 1;
        self.count_paired(terms, &format!("{kind} {outcome}"));
        self.count(kind, outcome);
    }

    /// A set list, and its answers if it has any.
    pub fn set_list(&mut self, terms: &[u16], got: &Result<usize, Refusal>, items: &[Item]) {
        let answered = if items.is_empty() { "empty" } else { "answered" };
        self.count("set list", got.map_or_else(refused, |_| answered.into()));
        for item in items.iter().filter(|_| got.is_ok()) {
            let outcome = match item.answer {
                0 => "deny".into(),
                1 => "grant".into(),
                number => format!("refuse {number}"),
            };
            self.count_paired(terms, &format!("in a list {outcome}"));
            self.count("in a list", outcome);
        }
    }

    /// A revision, and how many past-time entries were carried over and begun.
    pub fn revise(&mut self, old: &[u16], new: &[u16], got: &Result<(), Refusal>) {
        self.count("revise", got.map_or_else(refused, |()| "done".into()));
        if got.is_err() || self.shrinking {
            return;
        }
        let [old, new] = [old, new].map(|words| memory::terms_of_words(words).unwrap_or_default());
        let (same, paired) = (first_same(&old, &new), new.paired());
        for (t, entry) in new.past().into_iter().enumerate() {
            let outcome = if same[entry].is_some() { "carried" } else { "begun" };
            self.count("past-time", outcome.into());
            if paired.contains(&t) {
                self.count(PAIRED, outcome.into());
            }
        }
    }

    fn count(&mut self, kind: &'static str, outcome: String) {
        if !self.shrinking {
            *self.counts.entry((kind, outcome)).or_default() += 1;
        }
    }
}

fn refused(refusal: Refusal) -> String {
    format!("refuse {}", refusal.number)
}

impl fmt::Display for Tally {
    fn fmt(&self, out: &mut fmt::Formatter<'_>) -> fmt::Result {
        for ((kind, outcome), count) in &self.counts {
            writeln!(out, "{kind:<9} {outcome:<20} {count:>9}")?;
        }
        Ok(())
    }
}
