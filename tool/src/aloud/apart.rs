//! What is said apart from the policies: definitions by their names, and clauses by number.

use super::clause::Who;
use super::define;
use super::form::Forms;
use super::grammar::Time;
use super::render::Speaker;
use super::resolve;
use super::words::{listed, name};
use super::Sentence;
use keeper::terms::VARIABLES;

/// All that the sentences so far leave to be said apart, and what that leaves in turn, by
/// number.
///
/// A definition is an entry for each way in which its people are told apart. Where all of
/// them say the same of its people, it is said once.
pub fn told(forms: &Forms, speaker: &mut Speaker) -> Vec<(usize, Sentence)> {
    let mut told: Vec<Told> = Vec::new();
    while let Some(&entry) = speaker.apart.get(told.len()) {
        let next = match speaker.names.defined(entry) {
            Some(_) => defined(forms, speaker, entry),
            None => numbered(forms, speaker, entry, told.len() + 1),
        };
        told.push(next);
    }
    let mut sentences = Vec::new();
    for (place, one) in told.iter().enumerate() {
        let alike: Vec<usize> = (0..told.len())
            .filter(|other| one.name.is_some() && told[*other].name == one.name)
            .collect();
        let same =
            one.general.is_some() && alike.iter().all(|other| told[*other].general == one.general);
        match (&one.general, same && alike.len() > 1) {
            (Some(general), true) if alike[0] == place => {
                sentences.push((place + 1, general.clone()))
            }
            (Some(_), true) => {}
            _ => sentences.push((place + 1, one.own.clone())),
        }
    }
    sentences
}

/// What is said of an entry.
struct Told {
    /// The name, if it is a definition.
    name: Option<String>,
    own: Sentence,
    /// What it says of its people, whoever they are.
    general: Option<Sentence>,
}

fn defined(forms: &Forms, speaker: &mut Speaker, entry: usize) -> Told {
    let names = speaker.names;
    let called = names.defined(entry).expect("it is a definition");
    let words = speaker.say(&resolve::of_defined(forms, entry, called), Time::Now, None);
    let own = Sentence::of(&format!("{} if", define::head(called)), words);
    let general = resolve::of_definition(forms, entry, called).map(|clause| {
        let words = speaker.say(&clause, Time::Now, None);
        Sentence::of(&format!("{} if", define::general_head(called)), words)
    });
    Told { name: Some(called.name.clone()), own, general }
}

fn numbered(forms: &Forms, speaker: &mut Speaker, entry: usize, number: usize) -> Told {
    let words = speaker.say(&resolve::of_entry(forms, entry), Time::Now, None);
    let given: Vec<String> = (1..VARIABLES)
        .filter(|x| forms.free[entry] >> x & 1 == 1)
        .map(|x| name(Who::Given(x)))
        .collect();
    let given = match &given[..] {
        [] => String::new(),
        given => format!(", given {},", listed(given)),
    };
    let before = format!("Clause {number} holds of a member M{given} if");
    Told { name: None, own: Sentence::of(&before, words), general: None }
}
