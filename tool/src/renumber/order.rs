//! The members in their new order, as people write it.

use crate::aloud::listed;
use crate::names::{Kind, Names};
use crate::stop::Stop;
use keeper::renumber::Numbering;
use keeper::terms::Terms;
use std::fs;
use std::path::Path;

/// The new number of each member. The order has each of them once, by name or by
/// number, separated by commas; or it is a file that has them so, or one a line,
/// where `#` begins a comment.
pub fn read(given: &str, terms: &Terms, names: &Names) -> Result<Numbering, Stop> {
    let file = Path::new(given);
    let (place, text) = match file.is_file() {
        true => (format!("{given}: "), in_file(file)?),
        false => (String::new(), given.to_string()),
    };
    // One word may have been meant for the name of a file.
    let lost = match place.is_empty() && !given.contains(',') && terms.members > 1 {
        true => format!("; and there is no file {given}"),
        false => String::new(),
    };
    let failed = |why: String| Stop::Failed(format!("{place}{why}"));
    let mut order: Vec<usize> = Vec::new();
    for word in text.split([',', '\n']).map(|word| word.trim().trim_matches('"')) {
        if word.is_empty() {
            continue;
        }
        let member = names
            .lookup(Kind::Member, word, terms.members)
            .map_err(|why| failed(format!("{why}{lost}")))?;
        if order.contains(&member) {
            return Err(failed(format!(
                "{} stands in the order twice, and a member has one number",
                names.member(member)
            )));
        }
        order.push(member);
    }
    let missing: Vec<String> = (0..terms.members)
        .filter(|member| !order.contains(member))
        .map(|member| names.member(member))
        .collect();
    if !missing.is_empty() {
        return Err(failed(format!(
            "the order lacks {}; it has to have each of the {} members once",
            listed(&missing),
            terms.members
        )));
    }
    let mut numbers = vec![0; terms.members];
    order.iter().enumerate().for_each(|(number, &member)| numbers[member] = number as u8);
    Numbering::of(terms.members, &numbers)
        .map_err(|refusal| failed(format!("refused with {}", refusal.number)))
}

/// The text of a file without its comments.
fn in_file(file: &Path) -> Result<String, Stop> {
    let text = fs::read_to_string(file)
        .map_err(|error| Stop::Failed(format!("cannot read {}: {error}", file.display())))?;
    let text = text.strip_prefix('\u{feff}').unwrap_or(&text);
    let bare = |line: &str| line.split('#').next().unwrap_or("").to_string();
    Ok(text.lines().map(bare).collect::<Vec<_>>().join("\n"))
}

#[cfg(test)]
mod tests {
    use super::*;

    fn numbers(order: &str) -> Result<Vec<u8>, String> {
        let terms = Terms { members: 3, ..Terms::default() };
        let names = Names::read("member\t0\tann\nmember\t1\tbig ben\n").unwrap();
        let read = read(order, &terms, &names);
        read.map(|found| found.numbers().to_vec()).map_err(|stop| stop.to_string())
    }

    #[test]
    fn orders() {
        assert_eq!(numbers("big ben, 2, ann"), Ok(vec![2, 0, 1]));
        assert_eq!(numbers("\"big ben\",2,\nann,"), Ok(vec![2, 0, 1]));
        let said = |order: &str| numbers(order).unwrap_err();
        let lacks =
            "the order lacks big ben and member 2; it has to have each of the 3 members once";
        assert_eq!(said("ann"), lacks);
        assert_eq!(said("ann, 0, 1"), "ann stands in the order twice, and a member has one number");
        assert_eq!(said("anne, 1, 2"), "no member `anne`; did you mean `ann`?");
    }
}
