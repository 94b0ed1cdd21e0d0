//! Terms that are read for themselves, where it would take long to work out what they
//! remember at moment 0.

use super::{differ, Both};
use crate::check::effort;
use crate::stop::Stop;
use keeper::terms::{self, Refusal};

/// What opens the stored form. Of a text of that form nothing is worked out.
const STORED: &[u8] = b"S\t2\n";

impl Both {
    /// Reads a text for its terms alone. If a request may take long by them, what they
    /// remember at moment 0 is left out: they are read as terms stored without a past,
    /// which are accepted if and only if the text is. Nothing is to be asked of it then.
    pub fn read_terms(text: &[u8]) -> Result<Result<Both, Refusal>, Stop> {
        let fresh = terms::read(text).is_ok_and(|file| file.past.is_none());
        if !fresh || effort::lengthy(text).is_none() {
            return Both::read(text);
        }
        match Both::read(&[STORED, text].concat())? {
            Ok(both) => Ok(Ok(Both { unopened: true, ..both })),
            Err(_) => Err(differ("terms that are accepted are refused as stored ones")),
        }
    }
}
