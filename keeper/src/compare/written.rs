//! Holds what is written against what has to be.

use super::{equal, over, same, Difference, Lent, Other, BEYOND};
use crate::expect::Form;
use crate::terms::{self, Refusal};

fn put(
    form: Form,
    other: &mut impl Other,
    terms: &[u16],
    state: &[u64],
    output: &mut [u8],
) -> Result<usize, Refusal> {
    match form {
        Form::Old => other.write(terms, state, output),
        Form::Stored => other.store(terms, state, output),
    }
}

/// What is written, in its own form, of an accepted text that was just read is
/// the text's normal form.
pub fn written_back(
    other: &mut impl Other,
    form: Form,
    text: &[u8],
    lent: &Lent,
) -> Result<(), Difference> {
    let wanted = terms::normal(text);
    let mut output = vec![0; wanted.len()];
    let got = put(form, other, &lent.terms, &lent.state, &mut output);
    equal("writing back", got, Ok(wanted.len()))?;
    same("text written back", &output, &wanted)
}

/// Writes lent terms and state in both forms: into an output with room to
/// spare, into one that just fits and into one that is a byte too short.
pub fn write(other: &mut impl Other, terms: &[u16], state: &[u64]) -> Result<(), Difference> {
    for form in [Form::Old, Form::Stored] {
        let whole = form.writing(terms, state, usize::MAX);
        let length = whole.as_ref().map_or(0, Vec::len);
        for room in [length + BEYOND, length, length.saturating_sub(1)] {
            let wanted = match &whole {
                Ok(text) if room < text.len() => Err(Refusal::plain(6)),
                Ok(text) => Ok(&text[..]),
                Err(refusal) => Err(*refusal),
            };
            let mut output = vec![0xa5; room];
            let got = put(form, other, terms, state, &mut output);
            equal("writing", got, wanted.map(<[u8]>::len))?;
            same("output", &output, &over(&vec![0xa5; room], wanted.unwrap_or_default()))?;
        }
    }
    Ok(())
}
