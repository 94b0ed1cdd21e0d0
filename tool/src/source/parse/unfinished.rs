//! What is said where something is missing: a sentence, a part of it, a sign.

use super::*;

impl Parser {
    /// Whether the statement ends here: the next one begins, or the source ends. A word
    /// of a statement before a sign is a name that is none.
    pub(super) fn is_cut_off(&self) -> bool {
        let begins = || self.begins[self.next] && self.at_statement();
        match self.token() {
            Token::End => true,
            _ => self.next > 0 && begins() && matches!(self.ahead(1), Token::Word(_)),
        }
    }

    /// What is said where a formula should begin.
    pub(super) fn no_formula(&self, beginnings: &[&str]) -> Mistake {
        let mistake = self.expected("a formula", beginnings);
        if let Some(advice) = self.missing_part() {
            return mistake.advise(advice);
        }
        let advice = match (self.token(), self.word_ahead(0)) {
            (_, Some("since")) => {
                "`since` stands between two formulas: `f since g` says that g held once, and f ever since"
            }
            (_, Some("and" | "or")) => "`and` and `or` stand between two formulas; one is missing before this",
            (Token::Number(count), _) => {
                let whom = self.counted(1).unwrap_or_else(|| "...".to_string());
                let advice = format!("a number stands after `at least` only: `at least {count} {whom}`");
                return mistake.advise(advice);
            }
            (Token::Sign(')'), _) => "something has to stand between the parentheses",
            _ if mistake.advice.is_some() => return mistake,
            _ => "a formula is a sentence such as `me owns target`, or parts joined with `and` and `or`",
        };
        mistake.advise(advice)
    }

    /// What to say of a formula that is missing at the end of a statement or parenthesis.
    fn missing_part(&self) -> Option<String> {
        if !self.is_cut_off() && !self.is_sign(')') {
            return None;
        }
        Some(match self.last_word() {
            Some("since") => {
                "`since` needs both sides: `not a withdraw b since a share b`".to_string()
            }
            Some(word @ ("and" | "or")) => {
                format!("`{word}` stands between two sentences; one is missing after it")
            }
            Some("when") => {
                "say what has to hold, such as `me owns target`; `by anyone` in the place of \
                `when` lets everybody"
                    .to_string()
            }
            Some(word) => format!("a sentence is missing after `{word}`: `{word} me owns target`"),
            None if self.is_sign(')') => return None,
            None => return Some(self.nothing_of_them()),
        })
    }

    /// What to say after the `:` of `some owner owns target:`, or of a definition.
    fn nothing_of_them(&self) -> String {
        let [one, two, three, four] = [5, 4, 3, 2].map(|places| self.word_before(places));
        let label = |word: &str| self.declared.contains(word);
        let holds = |who: &str| match self.events.contains("share") {
            true => format!("{who} share me"),
            false => format!("{who} is not me"),
        };
        match (one, two, three, four) {
            (_, _, Some("as"), Some(who)) => format!("say what holds of them, such as `: {}`", holds(who)),
            (Some("some" | "every"), Some(who), Some(verb), Some(_)) if label(verb) => format!(
                "say what holds of them, such as `: {}`; if anybody will do, delete the `:`",
                holds(who)
            ),
            (Some("some"), Some(noun), Some("of"), Some(_)) | (_, Some("some"), Some(noun), Some(_))
                if label(noun) =>
            {
                format!(
                    "say what holds of them, such as `as x: {}`; if anybody will do, delete the `:`",
                    holds("x")
                )
            }
            (Some("some"), Some(noun), Some("of"), Some(whose)) => match self.agent(noun) {
                Some(relation) => format!(
                    "say what holds of them, such as `some {noun} {relation} {whose}: {}`; if anybody will do, write \
                     `someone {relation} {whose}`",
                    holds(noun)
                ),
                None => "say what has to hold, such as `me owns target`".to_string(),
            },
            _ => "say what has to hold, such as `me owns target`".to_string(),
        }
    }

    /// What is said where a sentence says who and what, and then not whom.
    pub(super) fn no_object(&self, subject: &str, label: &Name) -> Option<Mistake> {
        let somebody = |word: &str| super::sentence::PEOPLE.contains(&word);
        if self.name_ahead(0) || self.word_ahead(0).is_some_and(somebody) {
            return None;
        }
        let what = "whom, or `some` or `every`: `me`, `target`, `here` or a name";
        let mistake = self.expected(what, &super::sentence::PEOPLE);
        let label = &label.text;
        let whom = if subject == "target" { "me" } else { "target" };
        let say = format!("say whom, `{subject} {label} {whom}`");
        if let Some((event, true)) = self.label_of(label) {
            let whom = if subject == "me" { "target" } else { "me" };
            let known = self.defined.contains(label) || self.is_attribute(label);
            let attribute = match known {
                true => format!("did you mean `{subject} is {label}`?"),
                false => format!(
                    "say whom, `once {subject} {event} {whom}`; if it was done to them, `once someone {event} \
                     {subject}`"
                ),
            };
            return Some(mistake.advise(attribute));
        }
        Some(mistake.advise(match self.declared.contains(label) || label.contains(' ') {
            false if self.can_be(subject, label) => {
                format!("did you mean `{subject} is {label}`? A sentence says who, what and whom")
            }
            false => "a sentence says who, what and whom: `me owns target`".to_string(),
            true if self.is_attribute(label) => format!("did you mean `{subject} is {label}`?"),
            true => say,
        }))
    }

    /// Whether `a is b` may have been meant by two words.
    fn can_be(&self, subject: &str, label: &str) -> bool {
        let person = ["me", "target", "here"].contains(&subject) || self.in_sight(subject);
        person && !ENGLISH.contains(&label)
    }

    /// Whether a word stands after `is` somewhere.
    pub(super) fn is_attribute(&self, label: &str) -> bool {
        let word = |place: usize| match self.tokens.get(place) {
            Some((Token::Word(word), _)) => Some(word.as_str()),
            _ => None,
        };
        (0..self.tokens.len()).any(|place| match [0, 1, 2].map(|after| word(place + after)) {
            [Some("is"), Some("not"), Some(word)] => word == label,
            [Some("is"), Some(word), after] => word == label && after != Some("of"),
            _ => false,
        })
    }

    /// `players: a, b presets: c` and `players: a, b, presets: c`.
    pub(super) fn next_kind(&self) -> Result<(), Mistake> {
        let colon = |places: usize| *self.ahead(places) == Token::Sign(':');
        if self.name_ahead(0) && colon(1) {
            let kind = self.word_ahead(0).unwrap_or_default();
            let message = format!("expected `;` before the next kind, found `{kind}`");
            let advice = format!("put a `;` before the next kind: `...; {kind}: ...`");
            return Err(Mistake::new(self.span(), message).advise(advice));
        }
        match self.last_word().filter(|_| colon(0)) {
            Some(kind) => {
                let message = format!("`{kind}` is read as a member, and a `:` follows it");
                let advice = format!("put a `;` before the next kind: `...; {kind}: ...`");
                Err(Mistake::new(self.last(), message).advise(advice))
            }
            None => Ok(()),
        }
    }

    /// `first pete and quin friend dora`, after the first of them.
    pub(super) fn fact_of_several(&self, from: &Name) -> Mistake {
        let mistake = self.expected("the name of a relation", &[]);
        let (mut names, mut places) = (vec![from.text.clone()], 0);
        while self.word_ahead(places) == Some("and") || *self.ahead(places) == Token::Sign(',') {
            names.extend(self.word_ahead(places + 1).map(str::to_string));
            places += 2;
        }
        let facts = match (self.word_ahead(places), self.word_ahead(places + 1)) {
            (Some("are"), Some(noun)) if self.role(noun).is_some() => {
                return mistake.advise(self.several_are(&names, noun));
            }
            (Some(relation), Some(to)) if self.declared.contains(relation) => {
                let fact = |name: &String| format!("{name} {relation} {to}");
                names.iter().map(fact).collect::<Vec<_>>().join(", ")
            }
            _ => "dora owns saw, pete owns saw".to_string(),
        };
        mistake.advise(format!("one fact for each: `first {facts}`"))
    }

    /// What to write for `tom and kim are suspended`, and for `tom and kim are friends`.
    fn several_are(&self, names: &[String], noun: &str) -> String {
        let relation = self.role(noun).unwrap_or_default();
        let each: Vec<String> = names.iter().map(|name| format!("{name} is {relation}")).collect();
        let each = each.join(", ");
        match names {
            [one, other] if noun.ends_with('s') && !self.is_attribute(&relation) => {
                let each = match self.relates_two(&relation) {
                    true => String::new(),
                    false => format!("; if it is said of each alone, `first {each}`"),
                };
                format!("write `first {one} {relation} {other} both ways`{each}")
            }
            _ => format!("write `first {each}`"),
        }
    }

    /// `define me is suspended: ...`, where the head has words of its own.
    pub(super) fn own_words(&self) -> Option<Mistake> {
        let length = (0..20).find(|place| *self.ahead(*place) == Token::Sign(':'))?;
        let taken = |word: &str| ["me", "target", "here"].contains(&word);
        let first = (0..length).find(|place| self.word_ahead(*place).is_some_and(taken))?;
        let one = self.word_ahead(1) == Some("is");
        let mut head = String::new();
        for place in 0..length {
            let word = match self.ahead(place) {
                Token::Word(word) if one && taken(word) => " p".to_string(),
                Token::Word(word) => match word.as_str() {
                    "me" => " a".to_string(),
                    "target" => " b".to_string(),
                    "here" => " c".to_string(),
                    word => format!(" {word}"),
                },
                Token::Sign(sign) => sign.to_string(),
                _ => return None,
            };
            head += &word;
        }
        let head = head.replace("( ", "(");
        let word = self.word_ahead(first).unwrap_or_default();
        let message = format!("`{word}` is reserved: a definition names its own people");
        let advice =
            format!("use a word of your own: `define{head}: ...`, and the same after the `:`");
        Some(Mistake::new(self.span_ahead(first), message).advise(advice))
    }
}
