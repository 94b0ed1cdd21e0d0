//! The tables of a state: where the past-time entries hold.

use crate::places::{PAIR_MEMBERS, ROWS};
use crate::state::{bits, has};
use crate::{Member, Variable};

/// Where a past-time entry holds at the present moment: at which members, with its
/// free variables standing for which others. [`crate::State::table`] gives it.
///
/// Where there are at most 16 members, an entry may have two free variables:
///
/// ```
/// use cuckooormolu::*;
///
/// // Events 0 pick, 1 share and 2 load. Entry 10: here has at some time shared with
/// // variable 1 a moment after picking variable 0.
/// let text = "M 3\nL 0 3\nF 0 var 0 0\nF 1 out 0 0\nF 2 prev 1 0\nF 3 var 1 0\nF 4 out 1 3\n\
///             F 5 not 2 0\nF 6 not 4 0\nF 7 or 5 6\nF 8 not 7 0\nF 9 top 0 0\n\
///             F 10 since 9 8\nF 11 reach 2 9 10\nF 12 bind 1 11\nP 0 9\nP 1 9\nP 2 12\n";
/// let mut monitor = Monitor::read(text.replace(' ', "\t").as_bytes())?;
/// let (dora, pete, saw) = (Member(0), Member(1), Member(2));
/// monitor.request(Request { event: Event(0), from: dora, to: saw })?;
/// monitor.request(Request { event: Event(1), from: dora, to: pete })?;
///
/// let table = monitor.state().table(monitor.terms(), 1).unwrap();
/// assert!(table.variables().eq([Variable(0), Variable(1)]));
/// assert_eq!(table.holds(dora, &[saw, pete]), Some(true));
/// assert_eq!(table.holds(dora, &[pete, saw]), Some(false));
/// assert_eq!(table.holds(dora, &[pete]), None);
/// let holding = table.holding().next().unwrap();
/// assert_eq!((holding.at(), holding.others()), (dora, &[saw, pete][..]));
/// # Ok::<(), Box<dyn std::error::Error>>(())
/// ```
#[derive(Clone, Copy, Debug)]
pub struct Table<'a> {
    words: &'a [u64; ROWS],
    /// Bit x stands for variable x.
    free: u16,
}

impl<'a> Table<'a> {
    pub(crate) fn new(words: &'a [u64; ROWS], free: u16) -> Table<'a> {
        Table { words, free }
    }

    /// The free variables of the entry, rising: two at most.
    pub fn variables(&self) -> impl ExactSizeIterator<Item = Variable> {
        variables(self.free)
    }

    /// Whether the entry holds at a member with its free variables standing for
    /// others, the first of them for the lower-numbered variable. None unless there
    /// is one for each variable; false where a member doesn't exist.
    pub fn holds(&self, at: Member, others: &[Member]) -> Option<bool> {
        if others.len() != self.variables().len() {
            return None;
        }
        let (row, bit) = match *others {
            [] => (at.into(), Member(0)),
            [other] => (at.into(), other),
            [b, c] if at.0.max(b.0).max(c.0) < PAIR_MEMBERS => pair_place(at, b, c),
            _ => return Some(false),
        };
        Some(self.words.get(row).is_some_and(|word: &u64| has(*word, bit)))
    }

    /// Where the entry holds, rising by member and then by the others.
    pub fn holding(&self) -> impl Iterator<Item = Holding> + 'a {
        let count = self.variables().len();
        // Without a free variable all bits of a word are alike, and bit 0 tells.
        let told = move |bit: Member| count > 0 || bit == Member(0);
        bits(self.words).filter(move |&(_, bit)| told(bit)).map(move |(row, bit)| match count {
            2 => {
                let other = Member((4 * (row % 4)) as u8 + bit.0 / PAIR_MEMBERS);
                let others = [other, Member(bit.0 % PAIR_MEMBERS)];
                Holding { at: Member((row / 4) as u8), others, count }
            }
            _ => Holding { at: Member(row as u8), others: [bit; 2], count },
        })
    }
}

/// One way in which a past-time entry holds.
#[derive(Clone, Copy, Debug)]
pub struct Holding {
    at: Member,
    others: [Member; 2],
    count: usize,
}

impl Holding {
    /// The member at which it holds.
    pub fn at(&self) -> Member {
        self.at
    }

    /// For whom its free variables stand, the lower-numbered first: as many as it
    /// has free variables.
    pub fn others(&self) -> &[Member] {
        &self.others[..self.count]
    }
}

/// The word and the bit of a table with two variables.
fn pair_place(at: Member, b: Member, c: Member) -> (usize, Member) {
    (4 * usize::from(at) + usize::from(b) / 4, Member(PAIR_MEMBERS * (b.0 % 4) + c.0))
}

/// The variables of a set, rising.
pub(crate) fn variables(set: u16) -> impl ExactSizeIterator<Item = Variable> {
    let nth = move |n: u32| {
        // The set without its n lowest.
        let rest = (0..n).fold(set, |rest, _| rest & rest.wrapping_sub(1));
        Variable(rest.trailing_zeros() as u8)
    };
    (0..set.count_ones()).map(nth)
}
