//! Kinds of members and the wordings of events, as names.tsv has them.

use super::super::ast::{MemberKind, Name, Source};
use super::super::kinds::forms;
use super::agrees;
use crate::names::{Names, Spoken};
use keeper::terms::Terms;

/// The source with the kinds of its members and the wordings of its events, as far as it
/// compiles to the same terms with them.
pub fn with_names(source: Source, terms: &Terms, names: &Names) -> Source {
    let mut source = source;
    let mut spoken = source.clone();
    for (number, event) in spoken.events.iter_mut().enumerate() {
        event.said = names.spoken(number).and_then(|spoken| words(&event.name.text, spoken));
    }
    if spoken != source && agrees(&spoken, terms) {
        source = spoken;
    }
    let kinds = kinds(&source, names);
    if kinds.is_empty() {
        return source;
    }
    let grouped = Source { kinds, ..source.clone() };
    let folded = folded(grouped.clone());
    [folded, grouped].into_iter().find(|candidate| agrees(candidate, terms)).unwrap_or(source)
}

/// The words by which an event is said so.
fn words(name: &str, spoken: &Spoken) -> Option<String> {
    let both = format!("{} / {}", spoken.may, spoken.has);
    let says = |words: &String| Spoken::of(name, words) == *spoken && !words.contains('"');
    [spoken.has.clone(), both].into_iter().find(says)
}

/// The kinds of the members, each as far as its members stand together.
fn kinds(source: &Source, names: &Names) -> Vec<MemberKind> {
    let kind = |member: usize| {
        let known = names.kinds().iter().find(|(_, members)| members.contains(&member));
        known.map(|(kind, _)| kind.trim().replace(char::is_whitespace, "-"))
    };
    let members: Vec<usize> = (0..source.members.len()).collect();
    let together = members.chunk_by(|one, other| kind(*one) == kind(*other));
    let declared = together.filter_map(|members| {
        let named = members.iter().map(|member| source.members[*member].clone());
        let name = Name::new(&kind(members[0])?);
        Some(MemberKind { name, members: named.collect(), relation: None })
    });
    declared.collect()
}

/// The source without the relations and first edges that its kinds stand for.
fn folded(mut source: Source) -> Source {
    let ones: Vec<String> = source.kinds.iter().flat_map(|kind| forms(&kind.name.text)).collect();
    source.relations.retain(|relation| !ones.contains(&relation.text));
    source.first.retain(|fact| !ones.contains(&fact.relation.text));
    source
}
