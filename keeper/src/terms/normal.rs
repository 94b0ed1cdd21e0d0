//! The normal form of a text: its number fields without leading zeros.

use super::read;

/// The text with each number field in its normal form. All else stays.
pub fn normal(text: &[u8]) -> Vec<u8> {
    let lines = text.split(|&byte| byte == b'\n');
    let lines: Vec<Vec<u8>> = lines.map(line).collect();
    lines.join(&b'\n')
}

fn line(line: &[u8]) -> Vec<u8> {
    let fields: Vec<Vec<u8>> = read::fields(line).into_iter().map(field).collect();
    fields.join(&b'\t')
}

/// A number as its digits; any other field as it is. No kind and no word is
/// made of digits.
fn field(field: &[u8]) -> Vec<u8> {
    match read::number(field) {
        Some(number) => number.to_string().into_bytes(),
        None => field.to_vec(),
    }
}
