//! Whether an entry holds now, and what a request may cost.

use super::{differ, Both};
use crate::stop::Stop;
use keeper::record::meaning::Assigned;

impl Both {
    /// Whether an entry without a free variable but 0 holds now, at a member with
    /// variable 0 standing for another.
    pub fn tell(&self, entry: usize, first: usize, second: usize) -> Result<bool, Stop> {
        let (one, other) = (first.try_into(), second.try_into());
        let proved = one.and_then(|one| Ok(self.monitor.tell(entry, one, other?)?.holds()));
        let now = self.record.graphs().len() - 1;
        let kept = self.record.holds(entry, now, first, Assigned::default().with(0, second));
        match proved {
            Ok(proved) if proved == kept => Ok(proved),
            _ => Err(differ(&format!(
                "entry {entry} at {first}, {second}: library {proved:?}, keeper {kept}"
            ))),
        }
    }

    /// How many rows a request works out at most, by the terms alone.
    pub fn effort(&self) -> usize {
        self.monitor.terms().effort()
    }

    /// The proved monitor at this moment.
    pub fn monitor(&self) -> &proved::Monitor {
        &self.monitor
    }
}
