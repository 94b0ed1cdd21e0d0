//! What is said of denials that leave out what was denied: `not denied`, `me denied target`.

use super::*;

impl Parser {
    /// What to write of a denial that begins with `once` or `never`.
    fn denial_of(&self, once: &str) -> Option<String> {
        let event = self.own_event()?;
        let kept = self.tokens.windows(3).any(|three| {
            let word = |place: usize| match &three[place].0 {
                Token::Word(word) => word.as_str(),
                _ => "",
            };
            [word(0), word(1), word(2)] == ["keep", "denied", event]
        });
        let keep = match kept {
            true => String::new(),
            false => format!(", and add a line `keep denied {event}`"),
        };
        Some(format!("write `{once} me denied {event} target`{keep}"))
    }

    /// `not denied`, `not after I was denied`, `I was denied`, where a sentence begins.
    pub(super) fn denied_alone(&self) -> Option<Mistake> {
        let mut place = usize::from(self.is_word("after"));
        place += usize::from(matches!(self.word_ahead(place), Some("I" | "i" | "me" | "being")));
        place += usize::from(matches!(self.word_ahead(place), Some("was" | "were" | "am" | "is")));
        let denied = matches!(self.word_ahead(place), Some("denied" | "refused" | "rejected"));
        let me = usize::from(matches!(self.word_ahead(place + 1), Some("once" | "before")));
        if !denied
            || !self.ends_at(place + 1 + me)
            || self.declared.contains(self.word_ahead(place)?)
        {
            return None;
        }
        // The `not` is part of what is replaced.
        let not = matches!(self.last_word(), Some("not" | "never"));
        let once = if not { "never" } else { "once" };
        let first = if not { self.last() } else { self.span() };
        let span = first.to(self.span_ahead(place));
        let mistake = Mistake::new(span, "this does not say what was denied");
        Some(mistake.advise(self.denial_of(once)?))
    }

    /// `never me denied target`, after the `denied`.
    pub(super) fn denied_nothing(&self) -> Option<Mistake> {
        let person = matches!(self.word_ahead(0), Some("me" | "target" | "someone"));
        let before = self.word_before(3);
        let once = if matches!(before, Some("not" | "never")) { "never" } else { "once" };
        let first = usize::from(matches!(before, Some("not" | "never" | "once")));
        let span = self.tokens[self.next.checked_sub(2 + first)?].1.to(self.span());
        let mistake = Mistake::new(span, "the name of an event goes after `denied`");
        Some(mistake.advise(self.denial_of(once).filter(|_| person)?))
    }
}
