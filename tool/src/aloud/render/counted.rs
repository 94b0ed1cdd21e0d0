//! Members at the ends of edges, counted.

use super::Speaker;
use crate::aloud::clause::{Clause, Counted, Who};
use crate::aloud::grammar::Time;
use crate::aloud::labels::Manner;
use crate::aloud::words::{join, name, Words};

impl Speaker<'_> {
    /// "for at least 3 different members A, A is a friend of yours and A is not
    /// the target". Said of each, so that it stays in the singular.
    pub(super) fn counted(&mut self, counted: &Counted, time: Time) -> Words {
        let Counted { least, holds, label, near, guest, ref that } = *counted;
        let guest = Who::Guest(guest);
        let many = match (holds, least) {
            (true, 1) => "at least 1 member".to_string(),
            (true, least) => format!("at least {least} different members"),
            (false, 1) => "no member".to_string(),
            (false, least) => format!("fewer than {least} members"),
        };
        let mut parts = vec![self.edge(label, near, guest, time, Manner::Plain, None)];
        match &**that {
            Clause::Constant(true) => {}
            Clause::All(all) => parts.extend(all.iter().map(|part| self.say(part, time, None))),
            other => parts.push(self.say(other, time, None)),
        }
        let said = match parts.len() {
            1 => parts.remove(0),
            _ => join(parts, false, time == Time::Then),
        };
        said.after(&format!("for {many} {},", name(guest)))
    }
}
