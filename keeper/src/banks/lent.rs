//! The memory that two banks are lent.

use crate::generate::Rng;
use crate::terms::memory::{FIRST_TABLE, SCRATCH_WORDS, STATE_WORDS, TERMS_WORDS};

/// Words of relations, which both banks use.
pub const RELATION_WORDS: usize = FIRST_TABLE;
/// Words of a bank's own: past-time tables and event.
pub const OWN_WORDS: usize = STATE_WORDS - FIRST_TABLE;

/// Terms, relations, and the words of each bank's own.
#[derive(Clone, Debug, Default, PartialEq, Eq)]
pub struct Lent {
    pub terms: Vec<u16>,
    pub relations: Vec<u64>,
    pub own: [Vec<u64>; 2],
}

impl Lent {
    /// Full of noise, with a few words beyond those named.
    pub fn noise(rng: &mut Rng) -> Lent {
        let terms = noise(rng, TERMS_WORDS).into_iter().map(|word| word as u16).collect();
        let relations = noise(rng, RELATION_WORDS);
        Lent { terms, relations, own: [(); 2].map(|()| noise(rng, OWN_WORDS)) }
    }

    /// Whether one of the four is shorter than named.
    pub fn is_short(&self) -> bool {
        self.terms.len() < TERMS_WORDS
            || self.relations.len() < RELATION_WORDS
            || self.own.iter().any(|own| own.len() < OWN_WORDS)
    }

    /// The words of a bank's state, where none is short.
    pub fn state(&self, bank: usize) -> Vec<u64> {
        [&self.relations[..RELATION_WORDS], &self.own[bank][..OWN_WORDS]].concat()
    }

    /// Puts a state of a bank in; its relations become those of both.
    pub fn put_state(&mut self, bank: usize, state: &[u64]) {
        let (relations, own) = state.split_at(RELATION_WORDS);
        put(&mut self.relations, relations);
        put(&mut self.own[bank], own);
    }

    /// Leaves so many words of one of the four.
    pub fn cut(&mut self, part: Part, words: usize) {
        match part {
            Part::Terms => self.terms.truncate(words),
            Part::Relations => self.relations.truncate(words),
            Part::Own(bank) => self.own[bank].truncate(words),
            part => panic!("{part:?} is lent for a deed only"),
        }
    }

    /// Replaces the front of relations and own words.
    pub fn put_states(&mut self, front: &Lent) {
        put(&mut self.relations, &front.relations);
        for bank in [0, 1] {
            put(&mut self.own[bank], &front.own[bank]);
        }
    }

    /// Replaces the front of all four.
    pub fn put(&mut self, front: &Lent) {
        put(&mut self.terms, &front.terms);
        self.put_states(front);
    }
}

/// All that is lent for one deed: the memory in use, each bank's scratch, and for
/// a revision the new terms with the memory that is to be filled.
#[derive(Clone, Debug, PartialEq, Eq)]
pub struct Loan {
    pub lent: Lent,
    pub scratch: [Vec<u64>; 2],
    pub second: Lent,
}

impl Loan {
    /// The memory in use, and noise.
    pub fn of(lent: &Lent, rng: &mut Rng) -> Loan {
        let scratch = [(); 2].map(|()| noise(rng, SCRATCH_WORDS));
        Loan { lent: lent.clone(), scratch, second: Lent::noise(rng) }
    }

    /// Leaves the named words of both scratches 0, as a moment does.
    pub fn clear_scratch(&mut self) {
        self.scratch.iter_mut().for_each(|scratch| scratch[..SCRATCH_WORDS].fill(0));
    }

    /// Leaves so many words of a part.
    pub fn cut(&mut self, part: Part, words: usize) {
        match part {
            Part::NewTerms => self.second.cut(Part::Terms, words),
            Part::SecondRelations => self.second.cut(Part::Relations, words),
            Part::SecondOwn(bank) => self.second.cut(Part::Own(bank), words),
            Part::Scratch(bank) => self.scratch[bank].truncate(words),
            part => self.lent.cut(part, words),
        }
    }

    /// Puts a word into memory that is to be read.
    pub fn set(&mut self, part: Part, place: usize, word: u64) {
        match part {
            Part::Terms => self.lent.terms[place] = word as u16,
            Part::NewTerms => self.second.terms[place] = word as u16,
            Part::Relations => self.lent.relations[place] = word,
            Part::Own(bank) => self.lent.own[bank][place] = word,
            part => panic!("any word of {part:?} will do"),
        }
    }
}

/// One memory of a loan, that of bank 0 or bank 1 where each has its own.
#[derive(Clone, Copy, Debug, PartialEq, Eq)]
pub enum Part {
    Terms,
    Relations,
    Own(usize),
    Scratch(usize),
    NewTerms,
    SecondRelations,
    SecondOwn(usize),
}

impl Part {
    /// What a call or a set list is lent.
    pub const OF_CALLS: [Part; 6] = [
        Part::Terms,
        Part::Relations,
        Part::Own(0),
        Part::Own(1),
        Part::Scratch(0),
        Part::Scratch(1),
    ];

    /// What a revision is lent.
    pub const OF_REVISIONS: [Part; 8] = [
        Part::Terms,
        Part::Relations,
        Part::Own(0),
        Part::Own(1),
        Part::NewTerms,
        Part::SecondRelations,
        Part::SecondOwn(0),
        Part::SecondOwn(1),
    ];

    /// The words that are named.
    pub fn words(self) -> usize {
        match self {
            Part::Terms | Part::NewTerms => TERMS_WORDS,
            Part::Relations | Part::SecondRelations => RELATION_WORDS,
            Part::Own(_) | Part::SecondOwn(_) => OWN_WORDS,
            Part::Scratch(_) => SCRATCH_WORDS,
        }
    }
}

/// Noise, a few words more than named.
fn noise(rng: &mut Rng, named: usize) -> Vec<u64> {
    let count = named + rng.below(6);
    (0..count).map(|_| rng.draw()).collect()
}

fn put<T: Copy>(lent: &mut [T], front: &[T]) {
    lent[..front.len()].copy_from_slice(front);
}
