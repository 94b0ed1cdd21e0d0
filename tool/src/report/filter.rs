//! Which requests are shown: by member and by answer. Rules of style do it, since the
//! page has no scripts; where a browser does not know them, nothing is offered.

use super::html::escaped;
use crate::folder::Request;
use crate::replay::{Replay, Step};
use crate::words::{answered, Words};
use std::collections::BTreeSet;

const ANSWERS: [&str; 3] = ["granted", "denied", "refused"];

/// What is said where no request is left.
const NONE: &str = "No request is like that. Choose another member or answer.";

/// Who takes part in a request, and its answer, for the rules to see.
pub fn marks(step: &Step) -> String {
    let who: Vec<String> = ends(step).iter().map(usize::to_string).collect();
    format!("data-who=\"{}\" data-answer=\"{}\"", who.join(" "), answered(step.verdict))
}

/// The same of all requests at a moment: answers, members, and each member with an answer.
pub fn moment_marks(steps: &[Step]) -> String {
    let mut marks = BTreeSet::new();
    for step in steps {
        let answer = answered(step.verdict);
        marks.insert(answer.to_string());
        for end in ends(step) {
            marks.extend([end.to_string(), format!("{end}-{answer}")]);
        }
    }
    format!("data-asked=\"{}\"", marks.into_iter().collect::<Vec<_>>().join(" "))
}

/// The two choices.
pub fn controls(replay: &Replay, words: &Words) -> String {
    if replay.steps.len() < 2 {
        return String::new();
    }
    let option = |value: &str, text: &str| format!("<option value=\"{value}\">{text}</option>");
    let choice = |choice: &Choice| option(&choice.value, &escaped(&choice.name));
    let answers = ANSWERS.iter().map(|answer| option(answer, answer));
    format!(
        "<div class=\"filter\"><label>Requests involving \
         <select id=\"by-member\" autocomplete=\"off\">{}{}</select></label>, \
         <select id=\"by-answer\" aria-label=\"Answer\" autocomplete=\"off\">{}{}</select></div>\n\
         <p class=\"none\" role=\"status\">{NONE}</p>\n",
        option("all", "anyone"),
        choices(replay, words).iter().map(choice).collect::<String>(),
        option("all", "any answer"),
        answers.collect::<String>(),
    )
}

/// Whose requests may be chosen: of the members of a kind, or of one member.
struct Choice {
    value: String,
    name: String,
    members: Vec<usize>,
}

impl Choice {
    /// What marks their requests.
    fn mark(&self) -> String {
        self.marked("data-who", "")
    }

    /// What marks the moments with a request of theirs; `answer` is empty or `-granted`.
    fn moment_mark(&self, answer: &str) -> String {
        self.marked("data-asked", answer)
    }

    fn marked(&self, by: &str, end: &str) -> String {
        let marks: Vec<String> =
            self.members.iter().map(|member| format!("[{by}~=\"{member}{end}\"]")).collect();
        format!(":is({})", marks.join(","))
    }

    fn has(&self, step: &Step) -> bool {
        ends(step).iter().any(|end| self.members.contains(end))
    }
}

/// The kinds, then the members that some request names.
fn choices(replay: &Replay, words: &Words) -> Vec<Choice> {
    let kinds = words.names.kinds().into_iter().enumerate();
    let kinds = kinds.map(|(place, (kind, members))| Choice {
        value: format!("k{place}"),
        name: kind.to_string(),
        members: members.to_vec(),
    });
    let taking_part: BTreeSet<usize> = replay.steps.iter().flat_map(ends).collect();
    let members = taking_part.into_iter().filter(|&member| member < words.terms.members);
    let members = members.map(|member| Choice {
        value: member.to_string(),
        name: words.member(member),
        members: vec![member],
    });
    kinds.chain(members).collect()
}

/// The rules that hide whatever is not chosen, and say where nothing is left.
pub fn style(replay: &Replay, words: &Words) -> String {
    let answers = ANSWERS.map(|answer| (chosen("by-answer", answer), answer));
    let mut rules: String = answers
        .iter()
        .map(|(when, answer)| hidden(when, &answer_mark(answer), &asked(answer)))
        .collect();
    let count = |answer: &str| replay.steps.iter().filter(|step| is(step, answer)).count();
    let mut bare: Vec<String> = Vec::new();
    bare.extend(answers.iter().filter(|(_, answer)| count(answer) == 0).map(|one| one.0.clone()));
    for choice in choices(replay, words) {
        let by_member = chosen("by-member", &choice.value);
        rules.push_str(&hidden(&by_member, &choice.mark(), &choice.moment_mark("")));
        if !replay.steps.iter().any(|step| choice.has(step)) {
            bare.push(by_member.clone());
        }
        for (by_answer, answer) in &answers {
            let fits = |step: &&Step| choice.has(step) && is(step, answer);
            let moments: BTreeSet<usize> =
                replay.steps.iter().filter(fits).map(|step| step.moment).collect();
            let when = format!("{by_member}{by_answer}");
            // A moment may have a request of theirs, and one that is answered so, but none
            // that is both.
            let of = |step: &&Step| choice.has(step) && !moments.contains(&step.moment);
            if replay.steps.iter().any(|step| of(&step)) {
                let both = choice.moment_mark(&format!("-{answer}"));
                rules.push_str(&format!("{} {{display:none}}\n", no_moment(&when, &both)));
            }
            if moments.is_empty() {
                bare.push(when);
            }
        }
    }
    let bare: Vec<String> = bare.iter().map(|when| format!("main{when} .none")).collect();
    if !bare.is_empty() {
        rules.push_str(&format!("{} {{display:block}}\n", bare.join(",\n")));
    }
    format!("@supports selector(:has(a)){{@media screen{{.filter{{display:block}}\n{rules}}}}}\n")
}

/// The condition that a choice is made.
fn chosen(select: &str, value: &str) -> String {
    format!(":has(#{select} option[value=\"{value}\"]:checked)")
}

fn answer_mark(answer: &str) -> String {
    format!("[data-answer=\"{answer}\"]")
}

fn asked(answer: &str) -> String {
    format!("[data-asked~=\"{answer}\"]")
}

/// The rule that leaves only the requests that have a mark, and the moments that have one.
fn hidden(when: &str, mark: &str, moment: &str) -> String {
    let moments = no_moment(when, moment);
    format!("main{when} :is(.asked>li,.strip>.step):not({mark}),{moments}{{display:none}}\n")
}

/// The moments without a mark, and the links to them.
fn no_moment(when: &str, mark: &str) -> String {
    format!("main{when} :is(.moment,.strip>.to-moment):not({mark})")
}

fn is(step: &Step, answer: &str) -> bool {
    answered(step.verdict) == answer
}

/// Who takes part in a request.
fn ends(step: &Step) -> Vec<usize> {
    match step.request {
        Request::Ask { from, to, .. } => vec![from, to],
        Request::Malformed => Vec::new(),
    }
}
