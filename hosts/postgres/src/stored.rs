//! Circles as they are stored, read without a lock.

use crate::lent::Lent;
use crate::libpq::Rows;
use crate::{Circles, Error, FROM, STORED};
use cuckooormolu::{Monitor, State, Terms};

/// The number of a circle, and its monitor or why there is none.
pub type Stored = (i64, Result<Monitor, Error>);

impl Circles {
    /// The monitor of a circle, as it stands.
    pub fn stored(&mut self, circle: i64) -> Result<Monitor, Error> {
        let rows = self.read((STORED, &[&circle.to_be_bytes()]))?;
        self.lent.monitor(&rows, 0)
    }

    /// The circles from a number on, rising: a thousand at most, and none where there are no more.
    pub fn stored_from(&mut self, first: i64) -> Result<Vec<Stored>, Error> {
        let rows = self.read((FROM, &[&first.to_be_bytes()]))?;
        Ok((0..rows.count())
            .map(|row| (rows.number(row, 3), self.lent.monitor(&rows, row)))
            .collect())
    }
}

impl Lent {
    fn monitor(&mut self, rows: &Rows, row: usize) -> Result<Monitor, Error> {
        self.take(rows, row)?;
        let terms = Terms::from_words(&self.terms).map_err(Error::Damaged)?;
        let state = State::from_words(&terms, &self.state).map_err(Error::Damaged)?;
        Monitor::resume(terms, state).map_err(Error::Damaged)
    }
}
