//! What the program of cases must print.
//!
//! The program and the keeper share the file of cases and nothing else: every
//! result is worked out here.

pub mod results;
pub mod source;

use std::collections::BTreeSet;

/// The lines for a file of cases, or what is wrong with a case.
pub fn printed(file: &[u8]) -> Result<String, String> {
    let mut printed = String::new();
    let mut labels = BTreeSet::new();
    for case in source::cases(file) {
        let label = &case.label;
        let result = results::result(&case).ok_or(format!("{label}: no result is known"))?;
        printed.push_str(&format!("{label}\t{result}\n"));
        if !labels.insert(label.clone()) {
            return Err(format!("{label}: a label of two cases"));
        }
    }
    Ok(printed)
}
