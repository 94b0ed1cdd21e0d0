//! Members renumbered.

use super::{differ, stored, Both};
use crate::stop::Stop;
use keeper::terms::Refusal;

impl Both {
    /// Gives the members new numbers, byte m of the list being that of member m; no
    /// moment is made. Both refuse it, and all is as it was, where the list is not as
    /// long as there are members or lacks one of their numbers.
    pub fn renumber(&mut self, numbers: &[u8]) -> Result<Result<(), Refusal>, Stop> {
        let proved = self.monitor.renumber(numbers).map_err(|refusal| refusal.number());
        let kept = self.record.renumber(numbers);
        if proved != kept.map_err(|refusal| refusal.number.into()) {
            return Err(differ(&format!("renumbering: library {proved:?}, keeper {kept:?}")));
        }
        let same = self.relations_agree() && stored::agrees(&self.monitor.store(), &self.record);
        same.then_some(kept).ok_or_else(|| differ("they renumber to other words"))
    }
}

#[cfg(test)]
mod tests {
    use super::super::Verdict;
    use super::*;

    /// Event 0 makes an edge; event 1 is for whoever has had one to the target.
    const TEXT: &[u8] = b"M\t3\nL\t1\t2\nF\t0\ttop\t0\t0\nF\t1\tvar\t0\t0\nF\t2\tout\t0\t1\n\
        F\t3\tsince\t0\t2\nP\t0\t0\nP\t1\t3\nE\t0\tadd\t0\tfwd\n";

    #[test]
    fn both_renumber() {
        let mut both = Both::accepted(TEXT).unwrap();
        assert_eq!(both.request(0, 0, 1).unwrap(), Verdict::Grant);
        let before = both.store().unwrap();
        assert_eq!(both.renumber(&[2, 0, 1]).unwrap(), Ok(()));
        assert_eq!(both.look(1, 2, 0).unwrap(), Verdict::Grant);
        assert_eq!(both.look(1, 0, 1).unwrap(), Verdict::Deny);
        assert_eq!(both.renumber(&[1, 2, 0]).unwrap(), Ok(()));
        assert_eq!(both.store().unwrap(), before);
    }

    #[test]
    fn both_refuse() {
        let mut both = Both::accepted(TEXT).unwrap();
        for list in [&[][..], &[0, 1], &[0, 1, 2, 3], &[0, 1, 1], &[0, 1, 3]] {
            assert_eq!(both.renumber(list).unwrap(), Err(Refusal { number: 15, line: 0 }));
        }
    }
}
