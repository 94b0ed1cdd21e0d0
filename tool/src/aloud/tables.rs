//! What the past-time entries say, each of those whom its table speaks of.

use super::clause::Who;
use super::form::Forms;
use super::grammar::Time;
use super::labels::Labels;
use super::render::Speaker;
use super::words::Words;
use super::{resolve, Sentence};
use crate::names::Names;
use keeper::terms::{variables, Entry, Terms, Variables, VARIABLES};

/// The sentence of a past-time entry.
pub struct Table {
    pub entry: usize,
    /// How many of those it is said of are sought by a policy.
    pub sought: usize,
    words: Words,
}

impl Table {
    /// The sentence after other words.
    pub fn sentence(&self, before: &str) -> Sentence {
        Sentence::of(before, self.words.clone())
    }
}

/// The sentences of all past-time entries, of those of whom a policy first says
/// them. A part that is said apart has the number under which the terms are
/// read aloud.
pub fn tables(terms: &Terms, names: &Names) -> Vec<Table> {
    let (forms, labels) = (Forms::new(terms, names), Labels::new(terms, names));
    let mut speaker = Speaker { labels: &labels, names, apart: Vec::new(), numbered: true };
    for &policy in &terms.policies {
        speaker.say(&resolve::of_policy(&forms, policy), Time::Now, None);
    }
    let mut said = 0;
    while let Some(&entry) = speaker.apart.get(said) {
        speaker.say(&resolve::of_entry(&forms, entry), Time::Now, None);
        said += 1;
    }
    let people = People::of(terms);
    let table = |entry: usize| {
        let (here, others) = people.met(entry, forms.free[entry]);
        let clause = resolve::of_table(&forms, entry, here, &others);
        let met = others.iter().map(|(_, who)| *who).chain([here]);
        let numbers = met.filter_map(|who| match who {
            Who::Guest(number) => Some(number + 1),
            _ => None,
        });
        let sought = numbers.max().unwrap_or(0);
        Table { entry, sought, words: speaker.say(&clause, Time::Now, None) }
    };
    terms.past().into_iter().map(table).collect()
}

/// Of whom an entry is said: at whom, and whom each variable stands for.
type Said = (Who, [Who; VARIABLES]);

/// For each entry of whom the first policy that has it says it.
struct People<'a> {
    terms: &'a Terms,
    said: Vec<Option<Said>>,
    guests: usize,
}

impl People<'_> {
    fn of(terms: &Terms) -> People<'_> {
        let mut people = People { terms, said: vec![None; terms.entries.len()], guests: 0 };
        for &policy in &terms.policies {
            people.walk(policy, (Who::You, [Who::Target; VARIABLES]));
        }
        people
    }

    fn walk(&mut self, entry: usize, said: Said) {
        if self.said[entry].is_some() {
            return;
        }
        self.said[entry] = Some(said);
        let (here, named) = said;
        let with = |variable: usize, who: Who| {
            let mut named = named;
            named[variable] = who;
            named
        };
        match self.terms.entries[entry] {
            Entry::Top | Entry::Var(_) => {}
            Entry::Not(f) | Entry::Prev(f) => self.walk(f, said),
            Entry::Or(f, g) | Entry::Since(f, g) => {
                self.walk(f, said);
                self.walk(g, said);
            }
            Entry::Out(_, f) | Entry::In(_, f) | Entry::Many(_, f, _) => {
                let guest = self.guest();
                self.walk(f, (guest, named));
            }
            Entry::Bind(x, f) => self.walk(f, (here, with(x, here))),
            Entry::At(x, f) => self.walk(f, (named[x], named)),
            Entry::Reach(x, f, g) => {
                let guest = self.guest();
                self.walk(f, (here, with(x, guest)));
                self.walk(g, (guest, named));
            }
        }
    }

    fn guest(&mut self) -> Who {
        self.guests += 1;
        Who::Guest(self.guests)
    }

    /// At whom an entry is said and whom its free variables stand for there, guests
    /// as guests 0, 1 and 2. An entry of no policy is said of guests.
    fn met(&self, entry: usize, free: Variables) -> (Who, Vec<(usize, Who)>) {
        let (here, named) = self.said[entry]
            .unwrap_or_else(|| (Who::Guest(VARIABLES), std::array::from_fn(Who::Guest)));
        let mut guests = Vec::new();
        let mut met = |who: Who| match who {
            Who::Guest(_) => {
                let known = guests.iter().position(|guest| *guest == who);
                Who::Guest(known.unwrap_or_else(|| {
                    guests.push(who);
                    guests.len() - 1
                }))
            }
            who => who,
        };
        let here = met(here);
        (here, variables(free).map(|variable| (variable, met(named[variable]))).collect())
    }
}
