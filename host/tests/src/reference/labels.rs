//! Label sheets, read and made by themselves.

use std::collections::BTreeSet;

use super::files::{groups, take_number};

/// The labels of a sheet, one for each control that a panel can have, or the refusal.
pub fn read_labels(mut sheet: &[u8]) -> Result<Vec<String>, u32> {
    let labels: Vec<_> = (0..16).map(|_| take_label(&mut sheet)).collect::<Result<_, _>>()?;
    let different = BTreeSet::from_iter(&labels);
    match (sheet, different.len()) {
        ([], 16) => Ok(labels),
        ([], _) => Err(18),
        _ => Err(9),
    }
}

/// Takes the label that the bytes begin with off them: its length, then its bytes.
fn take_label(bytes: &mut &[u8]) -> Result<String, u32> {
    match take_number(bytes)? {
        length @ 1..=8 => (0..length).map(|_| take_character(bytes)).collect(),
        _ => Err(17),
    }
}

fn take_character(bytes: &mut &[u8]) -> Result<char, u32> {
    let (first, rest) = bytes.split_first().ok_or(8u32)?;
    *bytes = rest;
    Some(char::from(*first)).filter(char::is_ascii_alphanumeric).ok_or(17)
}

/// The sheet with these labels, whatever they are and however many.
pub fn sheet_of<Label: AsRef<[u8]>>(labels: &[Label]) -> Vec<u8> {
    labels.iter().map(AsRef::as_ref).flat_map(|label| [&groups(label.len() as u32), label].concat()).collect()
}

#[test]
fn a_sheet_and_its_labels() {
    let labels = ["gate", "bar", "0", "Z9", "12345678", "f", "g", "h", "i", "j", "k", "l", "m", "n", "o", "p"];
    let sheet = sheet_of(&labels);
    assert_eq!(sheet, b"\x04gate\x03bar\x010\x02Z9\x0812345678\x01f\x01g\x01h\x01i\x01j\x01k\x01l\x01m\x01n\x01o\x01p");
    assert_eq!(read_labels(&sheet), Ok(labels.map(String::from).to_vec()));
}
