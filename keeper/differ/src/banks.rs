//! The library's two banks as the keeper's other implementation. A set list is
//! made besides by single requests.

use crate::archive;
use crate::library::plain_record;
use crate::tally::Tally;
use keeper::banks::lent::Lent;
use keeper::compare::banks::Other;
use keeper::record::{Answer, Call};
use keeper::set_list::{self, Item};
use keeper::terms::memory::SCRATCH_WORDS;
use keeper::terms::Refusal;

/// The library, and what it has been seen to do.
pub struct Library<'a> {
    disagreement: Option<&'static str>,
    tally: &'a mut Tally,
}

impl Library<'_> {
    pub fn new(tally: &mut Tally) -> Library<'_> {
        Library { disagreement: None, tally }
    }

    /// What set lists and single requests disagreed about, if they did.
    pub fn agrees(self) -> Result<(), String> {
        self.disagreement.map_or(Ok(()), |what| Err(format!("{what} of single requests")))
    }
}

/// A set list by single requests. It is refused where a request of nothing that
/// exists is refused by another number than 9.
fn singly(
    bank: usize,
    items: &mut [Item],
    lent: &mut Lent,
    scratch: &mut [Vec<u64>; 2],
) -> Result<usize, Refusal> {
    let mut ask = |call: &Call| archive::call(bank, call, lent, scratch);
    match ask(&Call::request(usize::MAX, 0, 0)) {
        Answer::Refused(Refusal { number: 9, .. }) => Ok(set_list::fill(items, ask)),
        Answer::Refused(refusal) => Err(refusal),
        decided => panic!("an event that does not exist was decided: {decided:?}"),
    }
}

impl Other for Library<'_> {
    fn read(&mut self, text: &[u8], lent: &mut Lent) -> Result<(), Refusal> {
        let got = archive::read(text, lent);
        self.tally.read(text, &got);
        got
    }

    fn open(&mut self, lent: &mut Lent) -> Result<(), Refusal> {
        let got = archive::open(lent);
        self.tally.open(&got);
        got
    }

    fn call(
        &mut self,
        bank: usize,
        call: &Call,
        lent: &mut Lent,
        scratch: &mut [Vec<u64>; 2],
    ) -> Answer {
        let got = archive::call(bank, call, lent, scratch);
        // Scratch is lent full of noise, and left 0 by a moment.
        let made = scratch[bank].iter().take(SCRATCH_WORDS).all(|&word| word == 0);
        self.tally.call(&lent.terms, call, got, made);
        got
    }

    fn set_list(
        &mut self,
        bank: usize,
        items: &mut [Item],
        lent: &mut Lent,
        scratch: &mut [Vec<u64>; 2],
    ) -> Result<usize, Refusal> {
        let (mut single_lent, mut single_scratch) = (lent.clone(), scratch.clone());
        let mut single_items = items.to_vec();
        let single = singly(bank, &mut single_items, &mut single_lent, &mut single_scratch);
        let mut records: Vec<_> = items.iter().map(plain_record).collect();
        let got = archive::set_list(bank, &mut records, lent, scratch);
        for (item, record) in items.iter_mut().zip(&records) {
            let cuckooormolu::raw::Record { event, from, to, answer } = *record;
            *item = Item { event, from, to, answer };
        }
        if (single, &single_items[..]) != (got, &items[..]) {
            self.disagreement = Some("answers");
        }
        if (&single_lent, &single_scratch) != (lent, scratch) {
            self.disagreement = Some("memory");
        }
        self.tally.set_list(&lent.terms, &got, items);
        got
    }

    fn revise(&mut self, old: &mut Lent, second: &mut Lent) -> Result<(), Refusal> {
        let got = archive::revise(old, second);
        self.tally.revise(&old.terms, &second.terms, &got);
        got
    }
}
