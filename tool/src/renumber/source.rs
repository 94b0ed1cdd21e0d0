//! A source that declares its members in another order.

use crate::folder::{Folder, Sourced};
use crate::names::{Kind, Names};
use crate::source::ast::{Name, Source};
use crate::source::mistake::{Mistake, Mistaken};
use crate::source::parse;
use crate::stop::Stop;
use keeper::renumber::Numbering;

/// The text of a source in which each place that declares a member declares the one
/// who gets its number; all else is as it was. Refused where a member would be
/// declared among another kind of members.
pub fn reordered(
    folder: &Folder,
    sourced: &Sourced,
    numbering: &Numbering,
) -> Result<String, Stop> {
    let text = &sourced.text;
    let file = folder.file.display().to_string();
    let mistaken = |mistakes| Stop::Mistaken(Mistaken { file, text: text.clone(), mistakes });
    let source = match parse(text) {
        Ok(source) => source,
        Err(mistakes) => return Err(mistaken(mistakes)),
    };
    let before = numbering.undone();
    let (mut written, mut end, mut mistakes) = (String::new(), 0, Vec::new());
    for (number, place) in source.members.iter().enumerate() {
        let member = &source.members[before.member(number)];
        if kind(&source, place) != kind(&source, member) {
            mistakes.push(stray(&source, place, member));
        }
        written.push_str(&text[end..place.span.start]);
        written.push_str(&text[member.span.start..member.span.end]);
        end = place.span.end;
    }
    written.push_str(&text[end..]);
    // One member that strays makes another stray.
    mistakes.truncate(1);
    if mistakes.is_empty() {
        Ok(written)
    } else {
        Err(mistaken(mistakes))
    }
}

/// The lines with a comment that names a member: it stays, whoever is declared beside it.
pub fn commented(text: &str, names: &Names) -> Vec<usize> {
    let names_one = |comment: &str| {
        let mut words = comment
            .split(|letter: char| !letter.is_alphanumeric() && letter != '-' && letter != '_');
        words.any(|word| names.find(Kind::Member, word).is_some())
    };
    // A quote has no `#` in it, and no line end.
    let comments =
        text.lines().enumerate().filter_map(|(line, text)| Some((line, text.split_once('#')?.1)));
    comments.filter(|(_, comment)| names_one(comment)).map(|(line, _)| line + 1).collect()
}

/// The kind that a member is declared in.
fn kind<'a>(source: &'a Source, member: &Name) -> Option<&'a str> {
    let holds = |name: &Name| name.text == member.text;
    let kind = source.kinds.iter().find(|kind| kind.members.iter().any(holds));
    kind.map(|kind| kind.name.text.as_str())
}

/// Why a member cannot be declared at a place.
fn stray(source: &Source, place: &Name, member: &Name) -> Mistake {
    let told = |name: &Name| match kind(source, name) {
        Some(kind) => format!("one of {kind}"),
        None => "of no kind".to_string(),
    };
    let what = format!(
        "{} is {}, and would be declared here in the place of {}, {}",
        member.text,
        told(member),
        place.text,
        told(place)
    );
    Mistake::new(place.span, what).advise(
        "members are numbered as they are declared, kind by kind: name an order that keeps the \
         members of each kind together, the kinds as they stand, or declare them in other statements first",
    )
}
