//! What is said of an event that does not say who may do it, or says it as English does.

use super::*;
use crate::source::kinds::singular;

impl Parser {
    /// What is said of an event without a policy, at the end of its names.
    pub(super) fn no_policy(&self) -> Mistake {
        let what = "`when` and who may do it, or `by anyone`";
        let mistake = self.expected(what, &["when", "by"]);
        if let Some(advice) = self.policy_of_times() {
            return mistake.advise(advice);
        }
        match self.word_ahead(0) {
            Some("if" | "where" | "while" | "only") => mistake.advise("write `when`"),
            Some("allow" | "allowed" | "permit" | "permitted" | "requires" | "needs") => {
                mistake.advise("write `when` and what has to hold")
            }
            None if self.is_sign(':') => mistake.advise("delete the `:`"),
            Some("unless") => mistake.advise("write `when not`"),
            Some("after") => mistake.advise("write `when once`"),
            Some("before") => mistake.advise("write `when never`"),
            Some("for") => mistake.advise(self.by_whom()),
            Some("always" | "freely" | "everyone" | "anyone" | "everybody" | "anybody") => {
                mistake.advise("write `by anyone`")
            }
            Some("never") => mistake.advise("write `when false`"),
            Some("and") if self.name_ahead(1) => mistake.advise("put a `,` in the place of `and`"),
            Some(more)
                if self.name_ahead(0) && matches!(self.word_ahead(1), Some("when" | "by")) =>
            {
                let name = self.last_word().unwrap_or("load").to_string();
                let advice = match self.kind(more) {
                    Some(kind) => format!(
                        "the name of an event is one word: `event {name} when target is {kind} and ...`"
                    ),
                    None => format!(
                        "the name of an event is one word, `event {name}-{more}`; two events are separated by a `,`: \
                         `event {name}, {more}`"
                    ),
                };
                mistake.advise(advice)
            }
            _ if self.at_statement() => {
                let advice = "say who may do it: `by anyone`, or `when` and a condition";
                Mistake { span: self.last(), ..mistake }.advise(advice)
            }
            _ if self.name_ahead(1)
                && self.last_word().is_some_and(|word| self.members.contains(word)) =>
            {
                let [who, event, whom] = [self.last_word(), self.word_ahead(0), self.word_ahead(1)]
                    .map(|word| word.unwrap_or_default());
                mistake.advise(format!(
                    "an event is declared by its name only, `event {event} by anyone`; a request, `{who} {event} \
                     {whom}`, goes into requests.say"
                ))
            }
            _ if self.name_ahead(0) && mistake.advice.is_none() => mistake.advise(
                "put a `,` between two names, and `when` or `by anyone` after the last; a \
                    name of two words is joined by `-`: warm-pad",
            ),
            _ => mistake,
        }
    }

    /// `by anyone who is not suspended`, at the `who`.
    pub(super) fn anyone_who(&self) -> Option<Mistake> {
        let who = matches!(self.word_ahead(0), Some("who" | "that" | "which"));
        let (told, end) = self.predicate("me", 1).filter(|_| who)?;
        let told = self.ends_at(end).then(|| self.parted(told, end))?;
        let span = self.tokens[self.next - 2].1.to(self.span_ahead(end - 1));
        let mistake = Mistake::new(span, "`by anyone` has no condition");
        Some(mistake.advise(format!("write `when {told}`")))
    }

    /// `by anyone and me owns target`, at the `and`.
    pub(super) fn anyone_joined(&self) -> Option<Mistake> {
        let word = self.word_ahead(0).filter(|word| ["and", "or", "since"].contains(word))?;
        let message = format!("`{word}` after `by anyone`, which has no condition");
        let advice =
            "write `when` and the condition in the place of `by anyone`: `when me owns target`";
        Some(Mistake::new(self.span(), message).advise(advice))
    }

    /// How to say who may do it, for the word that follows `by` or `for`.
    pub(super) fn by_whom(&self) -> String {
        let place = usize::from(self.is_word("for"));
        if matches!(self.word_ahead(place), Some("nobody" | "none" | "noone")) {
            return "`when false` allows it to nobody".to_string();
        }
        if matches!(self.word_ahead(place), Some("anybody" | "everybody" | "everyone" | "all")) {
            return "write `by anyone`".to_string();
        }
        if let Some(advice) = self.by_those(place).or_else(|| self.by_member(place)) {
            return advice;
        }
        let whom = self.word_ahead(place).filter(|_| self.name_ahead(place)).map(singular);
        let whom = whom.unwrap_or_else(|| "player".to_string());
        format!("`by anyone`, or `when` and a condition, such as `when me is {whom}`")
    }

    /// `by dora`: a policy cannot name a member.
    fn by_member(&self, place: usize) -> Option<String> {
        let member = self.word_ahead(place).filter(|word| self.members.contains(*word))?;
        let attribute =
            ["admin", "chief", "head"].into_iter().find(|word| !self.declared.contains(*word))?;
        Some(format!(
            "a policy cannot name a member; give {member} an attribute, `relation {attribute}` and \
             `first {member} is {attribute}`, and write `when me is {attribute}`"
        ))
    }

    /// `by owners`, `by friends of the owner`, `by my friends`.
    fn by_those(&self, place: usize) -> Option<String> {
        let mine = self.word_ahead(place) == Some("my");
        let place = self.past_article(place + usize::from(mine));
        let noun = self.word_ahead(place)?;
        if let (Some(relation), false) = (self.agent(noun), mine) {
            return Some(format!("write `when me {relation} target` in the place of `by {noun}`"));
        }
        let relation = self.role(noun)?;
        let of = self.word_ahead(place + 1) == Some("of") && !mine;
        if let Some(whose) = self.phrase(place + 2, "some").filter(|_| of) {
            let said = format!("{}me is {relation} of {}", whose.seek, whose.who);
            return Some(format!("write `when {said}`"));
        }
        let direct =
            format!("`when me is {relation} of target` allows it to a {relation} of the target");
        let owned = self.declared.contains("owns").then(|| {
            format!(
                "; `when some owner owns target: me is {relation} of owner`, to a {relation} of its owner"
            )
        });
        Some(format!("{direct}{}", owned.unwrap_or_default()))
    }
}
