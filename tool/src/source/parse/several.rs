//! What is said of several who are something to somebody: `two friends vouch for me`, `my
//! bandmates may`.

use super::*;

impl Parser {
    /// `at least 2 friends vouch for me`, from the relation on, after how many.
    pub(super) fn several_do(&self, quantity: &str, place: usize) -> Option<Mistake> {
        let relation = self.role(self.word_ahead(place)?)?;
        let (event, _) = self.label_of(self.word_ahead(place + 1)?)?;
        let with =
            matches!(self.word_ahead(place + 2), Some("with" | "to" | "from" | "for" | "on"));
        let end = place + 3 + usize::from(with);
        let whom = self.word_ahead(end - 1).filter(|word| ["me", "target"].contains(word))?;
        let counted = quantity.starts_with("at least") && self.events.contains(&event);
        if !counted || !self.ends_at(end) {
            return None;
        }
        let who = relation.chars().next()?;
        let told = format!("{quantity} {relation} of {whom} as {who}: once {who} {event} {whom}");
        let span = self.span().to(self.span_ahead(end - 1));
        let message = format!("whose `{relation}` they are is not said");
        let told = self.parted(told, end);
        Some(Mistake::new(span, message).advise(format!("write `{told}`")))
    }

    /// `my bandmates may always`, where a sentence begins.
    pub(super) fn mine_may(&self) -> Option<Mistake> {
        let mine = matches!(self.word_ahead(0), Some("my" | "the" | "our"));
        let place = usize::from(mine);
        let relation = self.role(self.word_ahead(place)?)?;
        let may = matches!(self.word_ahead(place + 1), Some("may" | "can" | "always"));
        if !may || !self.declared.contains("owns") || relation == "owns" || self.in_sight(&relation)
        {
            return None;
        }
        let span = self.span().to(self.span_ahead(place + 1));
        let message = "who may do it is said of `me`, who asks";
        let told = format!("some owner owns target: me is {relation} of owner");
        Some(Mistake::new(span, message).advise(format!(
            "for the {relation} of its owner, write `{told}`; for those of the target, `me is {relation} of target`"
        )))
    }

    /// `me target owns`, after who.
    pub(super) fn verb_last(&self, who: &str) -> Option<Mistake> {
        let whom = self
            .word_ahead(0)
            .filter(|word| ["me", "target", "someone"].contains(word) || self.in_sight(word))?;
        let (label, done) = self.label_of(self.word_ahead(1)?).filter(|_| self.ends_at(2))?;
        let once = if done && !self.in_past() { "once " } else { "" };
        let mistake = Mistake::new(self.span_ahead(1), "what is done goes between who and whom");
        Some(mistake.advise(format!("write `{once}{who} {label} {whom}`")))
    }
}
