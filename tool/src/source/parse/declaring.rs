//! What is said of relations, first edges and definitions that are declared as English would.

use super::*;

impl Parser {
    /// `relation dora owns saw`, after the first name.
    pub(super) fn relation_of_members(&self, names: &[Name]) -> Option<Mistake> {
        let first = names.last().filter(|name| self.members.contains(&name.text))?;
        if !self.name_ahead(0) || !self.name_ahead(1) {
            return None;
        }
        if self.begins[self.next] || self.begins[self.next + 1] {
            return None;
        }
        let (label, whom) = (self.word_ahead(0)?, self.word_ahead(1)?);
        let message = "a relation is declared by its name only";
        let advice = format!(
            "write `relation {label}`; who is related at the start is said with `first`: `first {} {label} {whom}`",
            first.text
        );
        let span = first.span.to(self.span_ahead(1));
        Some(Mistake::new(span, message).advise(advice))
    }

    /// `first dora owns saw, pad`, after `pad`; and `saw belongs to dora`.
    pub(super) fn fact_goes_on(&self, from: &Name, facts: &[Fact]) -> Option<Mistake> {
        let after = (self.word_ahead(0), self.word_ahead(1), self.word_ahead(2));
        if let (Some("belongs"), Some("to"), Some(owner)) = after {
            let advice = match self.declared.contains("owns") {
                true => format!("say who first: `{owner} owns {}`", from.text),
                false => format!(
                    "declare `relation owns`, and say who first: `{owner} owns {}`",
                    from.text
                ),
            };
            let mistake = Mistake::new(self.span(), "`belongs to` has no meaning here");
            return Some(mistake.advise(advice));
        }
        let fact = facts.last()?;
        let ends = self.is_sign(',') || *self.token() == Token::End || self.at_statement();
        let before = self.tokens[self.next.checked_sub(2)?].0 == Token::Sign(',');
        (ends && before && fact.from.text != fact.to.text).then(|| {
            let message = format!("nothing is said of `{}`", from.text);
            let (who, label, whom) = (&fact.from.text, &fact.relation.text, &fact.to.text);
            let advice =
                format!("join several with `and`: `{who} {label} {whom} and {}`", from.text);
            Mistake::new(from.span, message).advise(advice)
        })
    }

    /// `dora is a friend of kim`, `dora is friends with kim` and `dora saw owns`, after who.
    pub(super) fn fact_in_english(&self, from: &Name) -> Option<Mistake> {
        let from_name = &from.text;
        if !self.is_word("is") {
            let (to, label) = (self.word_ahead(0)?, self.word_ahead(1)?);
            let known = self.members.contains(to) && self.declared.contains(label);
            if !known || self.declared.contains(to) || self.begins[self.next + 1] {
                return None;
            }
            let mistake = Mistake::new(self.span(), "what relates the two goes between them");
            return Some(mistake.advise(format!("write `{from_name} {label} {to}`")));
        }
        let place = self.past_article(1);
        let noun = self.word_ahead(place)?;
        // `kim's friend`: the `'s` is passed over.
        let owned = self.word_ahead(place + 1).filter(|_| self.members.contains(noun));
        if let Some(relation) = owned.and_then(|owned| self.relation_called(owned)) {
            let mistake = Mistake::new(self.span_ahead(place), "whose it is goes after `of`");
            return Some(mistake.advise(format!("write `{from_name} is {relation} of {noun}`")));
        }
        let relation = self.relation_called(noun)?;
        let of = self.word_ahead(place + 1).filter(|word| ["of", "with", "to"].contains(word));
        let said = match (of, self.word_ahead(place + 2)) {
            (Some(_), Some(to)) => format!("{from_name} is {relation} of {to}"),
            _ => format!("{from_name} is {relation}"),
        };
        let end = place + if of.is_some() { 3 } else { 1 };
        let words: Vec<&str> = (0..end).filter_map(|place| self.word_ahead(place)).collect();
        let written = words.join(" ");
        if said == format!("{from_name} {written}") {
            return None;
        }
        let span = self.span().to(self.span_ahead(end - 1));
        let mistake = Mistake::new(span, format!("`{written}` has no meaning here"));
        let both = match of {
            Some("with") => format!(
                "; if that holds both ways, `{from_name} {relation} {} both ways`",
                words[end - 1]
            ),
            _ => String::new(),
        };
        Some(mistake.advise(format!("write `{said}`{both}")))
    }

    /// `define suspended p`, `define a person is suspended`: heads as English has them.
    pub(super) fn head_in_english(&self) -> Option<Mistake> {
        let [first, second, third] = [0, 1, 2].map(|place| self.word_ahead(place));
        if let (Some("a" | "an" | "the"), Some(who), Some("is")) = (first, second, third) {
            let article = first.unwrap_or_default();
            let mistake = Mistake::new(self.span(), format!("`{article}` has no meaning here"));
            let what = self.word_ahead(self.past_article(3)).unwrap_or("trusted");
            return Some(mistake.advise(format!("leave it out: `define {who} is {what}: ...`")));
        }
        let (first, second) =
            (first?, second.filter(|_| self.name_ahead(0) && self.name_ahead(1))?);
        let colon = *self.ahead(2) == Token::Sign(':');
        let at = self.next + 2;
        if !colon
            && self.tokens.get(at).is_some_and(|_| !self.begins[at])
            && *self.ahead(2) != Token::End
        {
            return None;
        }
        // The one of whom the body speaks is not the name.
        let speaks = (3..40)
            .take_while(|place| !self.begins[(self.next + place).min(self.begins.len() - 1)])
            .any(|place| self.word_ahead(place) == Some(first));
        let (name, who) = if colon && speaks { (second, first) } else { (first, second) };
        let span = self.span().to(self.span_ahead(1));
        let message = format!("`{first} {second}` is not how a definition begins");
        let advice =
            format!("write `define {who} is {name}: ...`, and after the `:` what it means");
        Some(Mistake::new(span, message).advise(advice))
    }

    /// What is said where no `:` follows the head of a definition.
    pub(super) fn no_meaning(&self, name: &Name, people: &[Name]) -> Mistake {
        let mistake = self.expected("`:` before what is defined", &[]);
        let name = &name.text;
        let head = match people {
            [] => name.clone(),
            [one] => format!("{} is {name}", one.text),
            [one, other] => format!("{} {name} {}", one.text, other.text),
            several => {
                let people: Vec<&str> = several.iter().map(|one| one.text.as_str()).collect();
                format!("{name}({})", people.join(", "))
            }
        };
        let instead = match self.word_ahead(0) {
            Some(word @ ("as" | "if" | "when" | "means")) => {
                format!("write `:` in the place of `{word}`")
            }
            _ => "a `:` goes before what it means".to_string(),
        };
        match people {
            [] if self.is_cut_off() => mistake.advise(format!(
                "say what it means: `define p is {name}: ...`, such as `define p is {name}: once someone share p`"
            )),
            _ => mistake.advise(format!("{instead}: `define {head}: ...`")),
        }
    }
}
