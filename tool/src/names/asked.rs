//! A request by name: the event, who asks and who is asked, or who asks first.

use super::{Kind, Names};
use keeper::terms::Terms;

impl Names {
    /// The numbers of event, initiator and target of three words: `share dora pete`, or
    /// `dora share pete`. If some can be read both ways, the event comes first.
    pub fn asked(&self, words: [&str; 3], terms: &Terms) -> Result<[usize; 3], String> {
        let [event, from, to] = self.event_first(words, terms);
        let event = self.lookup(Kind::Event, event, terms.events)?;
        let member = |word: &str| self.lookup(Kind::Member, word, terms.members);
        Ok([event, member(from)?, member(to)?])
    }

    /// The words of a request with the event first.
    pub fn event_first<'w>(&self, words: [&'w str; 3], terms: &Terms) -> [&'w str; 3] {
        let [first, second, to] = words;
        let is_event = |word: &str| self.lookup(Kind::Event, word, terms.events).is_ok();
        let is_member = |word: &str| self.lookup(Kind::Member, word, terms.members).is_ok();
        // One of the two may be misspelt.
        let turned = match (is_event(first), is_member(first)) {
            (true, true) => is_event(second) && !is_member(second),
            (true, false) => false,
            (false, true) => is_event(second) || !is_member(second),
            (false, false) => is_event(second) && !is_member(second),
        };
        if turned {
            [second, first, to]
        } else {
            words
        }
    }
}

#[cfg(test)]
mod tests {
    use super::*;

    #[test]
    fn both_orders() {
        let terms = Terms { members: 3, events: 2, ..Terms::default() };
        let names = "member\t0\tdora\nmember\t1\tlink\nevent\t0\tshare\nevent\t1\tlink\n";
        let names = Names::read(names).unwrap();
        let asked = |words: [&str; 3]| names.asked(words, &terms);
        for words in [["share", "dora", "link"], ["dora", "share", "link"], ["0", "0", "1"]] {
            assert_eq!(asked(words), Ok([0, 0, 1]), "{words:?}");
        }
        assert_eq!(asked(["link", "dora", "2"]), Ok([1, 0, 2]));
        assert_eq!(asked(["link", "share", "2"]), Ok([0, 1, 2]));
        assert_eq!(asked(["link", "link", "2"]), Ok([1, 1, 2]));
        let wrong = |words: [&str; 3]| asked(words).unwrap_err();
        assert_eq!(wrong(["dora", "shrae", "2"]), "no event `shrae`; did you mean `share`?");
        assert_eq!(wrong(["shrae", "dora", "2"]), "no event `shrae`; did you mean `share`?");
        assert_eq!(wrong(["dorra", "share", "2"]), "no member `dorra`; did you mean `dora`?");
    }
}
