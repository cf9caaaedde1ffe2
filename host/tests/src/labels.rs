//! Label sheets: those that pages are tried with, and what is refused, in sheet order, whatever the table is.

use std::collections::BTreeMap;

use crate::pages::{check_pages, pages_length};
use crate::random::Random;
use crate::reference::files::{groups, groups_padded, File, Kind};
use crate::reference::labels::{read_labels, sheet_of};
use crate::table_files::{sample, BAD_NUMBERS};

// ---- labels and sheets

/// Those of the sample.
pub const PARK: [&str; 16] = [
    "gate", "bar", "belt", "brake", "horn", "lamp", "door", "step", "lift", "stop", "fan", "bell", "rail", "seat", "chain",
    "lock",
];

/// Letters a to p, each so many times.
pub fn repeated(times: [usize; 16]) -> Vec<String> {
    ('a'..='p').zip(times).map(|(letter, times)| letter.to_string().repeat(times)).collect()
}

/// Labels of one byte, of eight and of all lengths; the same letter in all lengths, large and small; those of the sample.
pub fn labels_of_every_kind() -> Vec<Vec<String>> {
    let of_one_letter = |letter: &'static str| (1..=8).map(|length| letter.repeat(length));
    vec![
        repeated([1; 16]),
        repeated([8; 16]),
        repeated([1, 2, 3, 4, 5, 6, 7, 8, 8, 1, 7, 2, 6, 3, 5, 4]),
        of_one_letter("z").chain(of_one_letter("Z")).collect(),
        PARK.map(String::from).to_vec(),
    ]
}

/// Different labels; of few different bytes, so that many are nearly equal, or of all.
pub fn random_labels(random: &mut Random) -> Vec<String> {
    let alphabets = ["01", "aAbB", "0123456789ABCDEFGHIJKLMNOPQRSTUVWXYZabcdefghijklmnopqrstuvwxyz"];
    let bytes = random.pick(&alphabets).as_bytes();
    let mut labels = Vec::new();
    while labels.len() < 16 {
        let label = (0..1 + random.below(8)).map(|_| char::from(*random.pick(bytes))).collect();
        if !labels.contains(&label) {
            labels.push(label);
        }
    }
    labels
}

/// Sheets for every word that a sheet has, and the word.
pub fn refused_sheets() -> Vec<(u32, Vec<u8>)> {
    let with = |place: usize, label: &str| {
        let mut labels = PARK;
        labels[place] = label;
        sheet_of(&labels)
    };
    let good = sheet_of(&PARK);
    vec![
        (8, Vec::new()),
        (8, good[..good.len() - 1].to_vec()),
        (8, [&[0x84, 0x00][..], &good[1..]].concat()),
        (17, with(0, "")),
        (17, with(15, "ninebytes")),
        (17, with(7, "a+b")),
        (9, [&good[..], &[0]].concat()),
        (18, with(1, "gate")),
        (18, with(15, "gate")),
    ]
}

// ---- the checks

fn table(n: u32, entries: Vec<u32>) -> File {
    File { kind: Kind::Full, n, m: 7, entries }
}

/// The smallest panel, without and with a line.
fn smallest_tables() -> [File; 2] {
    [table(0, vec![0]), table(0, vec![6])]
}

/// The largest panel with a line for each control and one for all of them.
fn largest_table() -> File {
    let mut entries = vec![0; 1 << 16];
    (0..16).map(|control| 1 << control).chain([0xffff]).for_each(|code| entries[code] = 1 + code as u32 % 6);
    table(16, entries)
}

/// With a buffer that just fits, and with one a byte shorter: 10, unless the sheet has a word.
fn check_on(table: &File, sheet: &[u8], word: u32) {
    let length = pages_length(table);
    check_pages(table, sheet, length, word);
    check_pages(table, sheet, length - 1, if word == 0 { 10 } else { word });
}

/// The sheet has this word, or 0, for the independent reader and for the call, whatever the panel and the table.
fn check_sheet(sheet: &[u8], word: u32) {
    assert_eq!(read_labels(sheet).err().unwrap_or(0), word, "the reference, for {sheet:02x?}");
    smallest_tables().iter().chain([&largest_table()]).for_each(|table| check_on(table, sheet, word));
}

/// The same for a sheet with these labels.
fn check_labels<Label: AsRef<[u8]>>(labels: &[Label], word: u32) {
    check_sheet(&sheet_of(labels), word);
}

// ---- labels

#[test]
fn the_sample_sheet() {
    assert_eq!(sample("labels.sheet"), sheet_of(&PARK));
    check_labels(&PARK, 0);
}

/// Lengths 1 to 8 are taken at every place, and no others.
#[test]
fn lengths_of_labels() {
    for (place, others) in (0..16).flat_map(|place| [(place, 1), (place, 8)]) {
        for length in [0, 1, 2, 7, 8, 9, 10, 127, 128, 300] {
            let mut lengths = [others; 16];
            lengths[place] = length;
            check_labels(&repeated(lengths), if (1..=8).contains(&length) { 0 } else { 17 });
        }
    }
}

/// At every place: a length that is no number is 8. One above 8 is 17, also if a part of it is a length that is taken. Nothing
/// behind it matters.
#[test]
fn lengths_in_groups() {
    let large = [9, 128, 129, 136, 257, 264, 1 << 14 | 1, 1 << 16 | 1, 1 << 24 | 8, 1 << 31 | 1, u32::MAX].map(groups);
    let padded = (2..=6).flat_map(|count| [0, 1, 8, 9].map(|length| groups_padded(length, count)));
    let beyond = [1 << 32, 1 << 32 | 1, 1 << 32 | 8, 1 << 34 | 1].map(|length| groups_padded(length, 5));
    let bad: Vec<_> = BAD_NUMBERS.map(<[u8]>::to_vec).into_iter().chain(padded).chain(beyond).collect();
    for place in 0..16 {
        let (before, behind) = (sheet_of(&PARK[..place]), &sheet_of(&PARK[place..])[1..]);
        let numbers = large.iter().map(|number| (number, 17)).chain(bad.iter().map(|number| (number, 8)));
        for (number, word) in numbers {
            check_sheet(&[&before, &number[..]].concat(), word);
            if !number.ends_with(&[0x80]) {
                check_sheet(&[&before, &number[..], behind].concat(), word);
            }
        }
    }
}

/// Each byte at the beginning, in the middle and at the end of a label, and as the whole of one: letters and digits are taken.
#[test]
fn bytes_of_labels() {
    for (place, byte) in [0, 7, 15].into_iter().flat_map(|place| (0..=255).map(move |byte| (place, byte))) {
        let taken = matches!(byte, b'0'..=b'9' | b'A'..=b'Z' | b'a'..=b'z');
        for within in [0, 4, 7] {
            let mut labels = repeated([8; 16]).into_iter().map(String::into_bytes).collect::<Vec<_>>();
            labels[place][within] = byte;
            check_labels(&labels, if taken { 0 } else { 17 });
        }
        let mut labels = PARK.map(str::as_bytes);
        labels[place] = std::slice::from_ref(&byte);
        check_labels(&labels, if taken { 0 } else { 17 });
    }
}

// ---- the order of the words

/// In sheet order: the length (8, then 17), each byte (8, then 17). Only the beginning of a sheet is given.
#[test]
fn labels_in_sheet_order() {
    for (word, sheet) in [
        (8, &b""[..]),
        (8, b"\x80"),
        (8, b"\x80\x00"),
        (8, b"\x81\x00a"),
        (8, b"\x89\x00a"),
        (17, b"\x80\x01"),
        (17, b"\x00"),
        (17, b"\x00\x80\x00"),
        (17, b"\x09"),
        (17, b"\x09+"),
        (8, b"\x01"),
        (8, b"\x08seven77"),
        (17, b"\x01+"),
        (17, b"\x01-"),
        (17, b"\x01 "),
        (17, b"\x04a+b"),
        (17, b"\x04a-b"),
        (17, b"\x04a b"),
        (17, b"\x04a\nb"),
        (17, b"\x04a\x00b"),
        (17, b"\x02+"),
        (8, b"\x02a"),
        (17, b"\x02a+"),
        (17, b"\x02++"),
        (17, b"\x03+a\x80"),
        (8, b"\x01a"),
        (8, b"\x01a\x80\x00+"),
        (17, b"\x01+\x80\x00"),
        (17, b"\x01a\x00"),
        (17, b"\x01+\x00"),
        (17, b"\x01a\x09"),
        (8, b"\x01a\x01"),
        (17, b"\x01a\x01+"),
        (8, b"\x01a\x01a"),
        (17, b"\x01a\x01a\x01+"),
        (17, b"\x01a\x01a\x00"),
    ] {
        check_sheet(sheet, word);
    }
}

/// At the end: the last label (8, 17), bytes behind it (9), two equal labels (18).
#[test]
fn the_end_in_sheet_order() {
    for first in ["gate", "Gate"] {
        let before = sheet_of(&[&[first, "gate"][..], &PARK[2..15]].concat());
        let equal = if first == "gate" { 18 } else { 0 };
        for (word, last) in [
            (8, &b""[..]),
            (8, b"\x80\x00"),
            (17, b"\x00"),
            (17, b"\x09ninebytes"),
            (8, b"\x04loc"),
            (17, b"\x04lo+"),
            (17, b"\x04loc+"),
            (17, b"\x04loc+\x00"),
            (9, b"\x04lock\x00"),
            (9, b"\x04lock\x80\x00"),
            (9, b"\x04lock+"),
            (9, b"\x03locks"),
            (equal, b"\x04lock"),
            (18, b"\x04belt"),
            (9, b"\x04belt\x00"),
        ] {
            check_sheet(&[&before, last].concat(), word);
        }
    }
}

/// A sheet that ends early is 8 wherever it ends, and one that goes on 9.
#[test]
fn cut_and_continued() {
    let all_equal = vec![String::from("same"); 16];
    for (labels, word) in labels_of_every_kind().into_iter().map(|labels| (labels, 0)).chain([(all_equal, 18)]) {
        let sheet = sheet_of(&labels);
        check_sheet(&sheet, word);
        for length in 0..sheet.len() {
            check_sheet(&sheet[..length], 8);
        }
        for tail in [&[0][..], &[0x80], &[0x80, 0x00], b"+", b"\x01q", &[1; 300]] {
            check_sheet(&[&sheet, tail].concat(), 9);
        }
    }
}

// ---- equal labels

/// Two equal labels, whichever they are, are 18; before that come an early end, a bad byte and bytes left.
#[test]
fn equal_labels() {
    for (i, j) in (0..16).flat_map(|j| (0..j).map(move |i| (i, j))) {
        for mut labels in labels_of_every_kind() {
            labels[j] = labels[i].clone();
            let sheet = sheet_of(&labels);
            let all_but_last = &sheet[..sheet.len() - 1];
            check_sheet(&sheet, 18);
            check_sheet(all_but_last, 8);
            check_sheet(&[all_but_last, b"+"].concat(), 17);
            check_sheet(&[&sheet[..], &[0]].concat(), 9);
        }
    }
}

/// Labels that differ in case, in length or in one byte are not equal, whichever they are.
#[test]
fn nearly_equal_labels() {
    let pairs = (0..16).flat_map(|i| (0..16).map(move |j| (i, j))).filter(|(i, j)| i != j);
    for (i, j) in pairs {
        let labels = repeated([6; 16]);
        let (label, letter) = (&labels[i], &labels[i][..1]);
        for other in [
            label.to_uppercase(),
            letter.to_uppercase() + &label[1..],
            label[1..].to_string() + &letter.to_uppercase(),
            letter.to_string(),
            letter.repeat(5),
            letter.repeat(7),
            letter.repeat(8),
            String::from("q") + &label[1..],
            label[1..].to_string() + "q",
            label[..3].to_string() + "0" + &label[4..],
        ] {
            let mut labels = labels.clone();
            labels[j] = other;
            check_labels(&labels, 0);
        }
    }
}

/// The bytes of two labels one after the other may be those of two others.
#[test]
fn equal_when_joined() {
    let mut labels = PARK;
    labels[..6].copy_from_slice(&["ab", "c", "a", "bc", "abc", "b"]);
    check_labels(&labels, 0);
}

// ---- random sheets

/// Bytes that are often nearly a sheet: labels that are equal, bytes that are changed, put in and left out, early ends, tails.
fn nearly_a_sheet(random: &mut Random) -> Vec<u8> {
    let mut labels = random_labels(random);
    if random.below(3) == 0 {
        let [from, to] = [(); 2].map(|()| random.below(16) as usize);
        labels[to] = labels[from].clone();
    }
    let mut sheet = sheet_of(&labels);
    while random.below(2) == 0 && !sheet.is_empty() {
        let place = random.below(sheet.len() as u64) as usize;
        let byte = random.byte();
        match random.below(7) {
            0 => sheet[place] = byte,
            1 => sheet[place] = *random.pick(b"+- /09:@AZ[`az{"),
            2 => sheet[place] = *random.pick(&[0, 1, 2, 7, 8, 9, 0x80, 0x81, 0x88]),
            3 => sheet.insert(place, byte),
            4 => drop(sheet.remove(place)),
            5 => sheet.truncate(place),
            _ => sheet.push(byte),
        }
    }
    sheet
}

/// Every word of a sheet is met many times.
#[test]
fn random_sheets() {
    let random = &mut Random::new(64);
    let [zeros, one_line] = smallest_tables();
    let tables = [zeros, one_line, table(3, vec![0; 8]), table(4, vec![1; 16])];
    let mut met = BTreeMap::new();
    for _ in 0..30_000 {
        let sheet = nearly_a_sheet(random);
        let word = read_labels(&sheet).err().unwrap_or(0);
        tables.iter().for_each(|table| check_on(table, &sheet, word));
        *met.entry(word).or_insert(0) += 1;
    }
    assert!(met.keys().eq(&[0, 8, 9, 17, 18]) && met.values().all(|count| *count > 1000), "{met:?}");
}
