//! Values of the tables: packed words, and the columns of a line of the log.

use crate::libpq::Rows;
use crate::{Revised, Told};
use cuckooormolu::{Answer, Event, Member, Refusal, Request};

/// A word of a memory, as bytes of the same order on every machine.
pub trait Word: Copy + PartialEq {
    const ZERO: Self;
    const BYTES: usize;
    fn put(self, bytes: &mut Vec<u8>);
    /// The word of that many bytes.
    fn of(bytes: &[u8]) -> Self;
}

macro_rules! word {
    ($word:ty) => {
        impl Word for $word {
            const ZERO: $word = 0;
            const BYTES: usize = size_of::<$word>();
            fn put(self, bytes: &mut Vec<u8>) {
                bytes.extend_from_slice(&self.to_le_bytes());
            }
            fn of(bytes: &[u8]) -> $word {
                <$word>::from_le_bytes(bytes.try_into().expect("as many as a word has"))
            }
        }
    };
}

word!(u16);
word!(u64);

/// The runs of words that are not 0, each as the place of the first, their count and the words. Most words of a state
/// are 0, so that less is sent, kept and logged by the server, and it need not compress what is left.
pub fn packed<W: Word>(words: &[W]) -> Vec<u8> {
    let mut bytes = Vec::new();
    let mut place = 0;
    for run in words.chunk_by(|a, b| (*a == W::ZERO) == (*b == W::ZERO)) {
        if run[0] != W::ZERO {
            (place as u16).put(&mut bytes);
            (run.len() as u16).put(&mut bytes);
            run.iter().for_each(|word| word.put(&mut bytes));
        }
        place += run.len();
    }
    bytes
}

/// Fills memory with the words that were packed. None where the bytes are no such ones: then its words are any.
pub fn unpack<W: Word>(mut bytes: &[u8], words: &mut [W]) -> Option<()> {
    words.fill(W::ZERO);
    let mut least = 0;
    while let Some((head, tail)) = bytes.split_at_checked(4) {
        let [first, count] = [&head[..2], &head[2..]].map(|number| usize::from(u16::of(number)));
        let (run, tail) = tail.split_at_checked(count * W::BYTES)?;
        let to = words.get_mut(first..first + count).filter(|_| first >= least)?;
        to.iter_mut().zip(run.chunks_exact(W::BYTES)).for_each(|(to, word)| *to = W::of(word));
        (bytes, least) = (tail, first + count);
    }
    bytes.is_empty().then_some(())
}

/// Event, initiator and target as columns.
pub fn numbers(request: Request) -> [[u8; 2]; 3] {
    [request.event.0, request.from.0, request.to.0].map(|number| i16::from(number).to_be_bytes())
}

const DENY: i16 = 0;
const GRANT: i16 = 1;
const NO_SUCH_NAME: i16 = 9;
const OTHER_SIZE: i16 = 13;
const DONE: i16 = 100;

/// An answer as a column.
pub fn number(told: Told) -> [u8; 2] {
    let number = match told {
        Ok(Answer::Deny) => DENY,
        Ok(Answer::Grant) => GRANT,
        Err(_) => NO_SUCH_NAME,
    };
    number.to_be_bytes()
}

/// What a revision gave, as a column.
pub fn revision_number(revised: Revised) -> [u8; 2] {
    revised.map_or(OTHER_SIZE, |()| DONE).to_be_bytes()
}

/// The request of a row whose first columns are event, initiator and target; none of a revision's.
pub fn request(rows: &Rows, row: usize) -> Option<Request> {
    if rows.is_null(row, 0) {
        return None;
    }
    let [event, from, to] = [0, 1, 2].map(|column| rows.number(row, column) as u8);
    Some(Request { event: Event(event), from: Member(from), to: Member(to) })
}

/// The answer that stands behind them.
pub fn told(rows: &Rows, row: usize) -> Told {
    match rows.number(row, 3) as i16 {
        DENY => Ok(Answer::Deny),
        GRANT => Ok(Answer::Grant),
        _ => Err(Refusal::NoSuchName),
    }
}

/// The same of a revision.
pub fn revised(rows: &Rows, row: usize) -> Revised {
    match rows.number(row, 3) as i16 {
        DONE => Ok(()),
        _ => Err(Refusal::OtherSize),
    }
}

#[cfg(test)]
mod tests {
    use super::*;
    use cuckooormolu::STATE_WORDS;

    fn again(words: &[u64]) -> Vec<u64> {
        let mut again = vec![7; words.len()];
        assert_eq!(unpack(&packed(words), &mut again), Some(()));
        again
    }

    #[test]
    fn packed_words_come_back() {
        let mut words = vec![0; STATE_WORDS];
        assert_eq!((packed(&words).len(), again(&words)), (0, words.clone()));
        for places in [&[0][..], &[STATE_WORDS - 1], &[0, 1, 5, 6, 7, 1_024, STATE_WORDS - 1]] {
            places.iter().for_each(|&place| words[place] = u64::MAX - place as u64);
            assert_eq!(again(&words), words);
        }
        assert_eq!(packed(&words).len(), 4 * 4 + 8 * 7);
        words.iter_mut().enumerate().for_each(|(place, word)| *word = place as u64 % 2);
        assert_eq!(again(&words), words);
        words.fill(1);
        assert_eq!((packed(&words).len(), again(&words)), (4 + 8 * STATE_WORDS, words.clone()));
    }

    #[test]
    fn other_bytes_are_none() {
        let mut terms = [0_u16; 4];
        for bytes in [&[][..], &[1, 0, 1, 0, 5, 6, 3, 0, 1, 0, 7, 0]] {
            assert_eq!(unpack(bytes, &mut terms), Some(()));
        }
        assert_eq!(terms, [0, 0x605, 0, 7]);
        for bytes in [
            &[0][..],                              // no whole head
            &[1, 0, 1, 0],                         // no word
            &[1, 0, 1, 0, 5],                      // half a word
            &[4, 0, 1, 0, 5, 6],                   // a place that is not there
            &[3, 0, 2, 0, 5, 6, 7, 8],             // too many
            &[1, 0, 1, 0, 5, 6, 0, 0, 1, 0, 7, 8], // not rising
            &[0xff, 0xff, 0, 0],
        ] {
            assert_eq!(unpack(bytes, &mut terms), None, "{bytes:?}");
        }
    }
}
