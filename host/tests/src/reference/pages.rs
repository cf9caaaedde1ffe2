//! Wall pages, by the standard library's own joining, filling and aligning.

use super::size;

/// The set column: the labels of the set's controls, and `-` for the empty set.
fn column(labels: &[String], code: usize) -> String {
    let inside = labels.iter().enumerate().filter(|(control, _)| code >> control & 1 == 1).map(|(_, label)| label.as_str());
    match code {
        0 => String::from("-"),
        _ => inside.collect::<Vec<_>>().join("+"),
    }
}

/// A line for each entry that is not 0.
fn lines(labels: &[String], table: &[u32]) -> Vec<String> {
    let nonzero = table.iter().enumerate().filter(|(_, value)| **value != 0);
    nonzero.map(|(code, value)| format!("{:<143} {:>2} {:>10}\n", column(labels, code), size(code), value)).collect()
}

/// All pages of a table; where there is no line, one page without any.
pub fn pages(labels: &[String], table: &[u32]) -> Vec<u8> {
    let lines = lines(labels, table);
    let mut pages: Vec<&[String]> = lines.chunks(50).collect();
    if pages.is_empty() {
        pages.push(&[]);
    }
    let heading = |number| format!("{:<157}\n", format!("page {number} of {}", pages.len()));
    let page = |(i, lines): (usize, &&[String])| heading(i + 1) + &lines.concat();
    pages.iter().enumerate().map(page).collect::<String>().into_bytes()
}
