//! Wall pages against the independent implementation, byte by byte.

use crate::ffi;
use crate::labels::{labels_of_every_kind, random_labels, refused_sheets, repeated, PARK};
use crate::lent::{counting_bytes, Lent};
use crate::random::{Fill, Random};
use crate::reference::files::{File, Kind};
use crate::reference::labels::{read_labels, sheet_of};
use crate::reference::pages::pages;
use crate::table_files::{file_with_nonzero, for_each_file, for_each_refusal, lent_bytes, random_file, sample, SAMPLES};

/// Of a line and of a heading.
const LINE_LENGTH: usize = 158;

/// How many bytes all pages of a table have, whatever the labels are.
pub fn pages_length(table: &File) -> usize {
    let lines = table.entries.iter().filter(|value| **value != 0).count();
    LINE_LENGTH * (lines + lines.div_ceil(50).max(1))
}

/// Writes the pages of the table to a buffer of the length and compares all outcomes.
pub fn check_pages(table: &File, sheet: &[u8], buffer_length: usize, word: u32) {
    let (entries, labels) = (Lent::new(&table.entries, 0xa5a5_5a5a, 1), lent_bytes(sheet));
    let mut buffer = Lent::new(&counting_bytes(buffer_length), 0x05, 3);
    let answer = ffi::write_pages(table.n, table.m, entries.slice(), labels.slice(), buffer.slice_mut());
    let bytes = if word == 0 { pages(&read_labels(sheet).unwrap(), &table.entries) } else { Vec::new() };
    let about = format!("pages with n = {}, m = {}, sheet {sheet:02x?}, buffer of {buffer_length}", table.n, table.m);
    assert_eq!(answer, (bytes.len() as u64) << 32 | u64::from(word), "{about}");
    entries.check_unchanged_from(0, &about);
    labels.check_unchanged_from(0, &about);
    buffer.check_unchanged_from(bytes.len(), &about);
    assert!(buffer.slice()[..bytes.len()] == bytes, "{about}:\n{}", String::from_utf8_lossy(buffer.slice()));
}

/// A buffer of the pages' own length is enough, a shorter one is not.
fn check_exact_buffer(table: &File, sheet: &[u8]) {
    let length = pages_length(table);
    check_pages(table, sheet, length, 0);
    check_pages(table, sheet, length - 1, 10);
}

/// What the call writes of a table that is 0 but for the values at these codes.
fn written<Label: AsRef<[u8]>>(n: u32, m: u32, labels: &[Label], nonzero: &[(usize, u32)]) -> String {
    let mut entries = vec![0; 1 << n];
    for (code, value) in nonzero {
        entries[*code] = *value;
    }
    let sheet = sheet_of(labels);
    check_exact_buffer(&File { kind: Kind::Full, n, m, entries: entries.clone() }, &sheet);
    let mut buffer = vec![0; LINE_LENGTH * (1 + nonzero.len())];
    assert_eq!(ffi::write_pages(n, m, &entries, &sheet, &mut buffer), (buffer.len() as u64) << 32);
    String::from_utf8(buffer).expect("text")
}

/// A line or a heading: how it begins, blanks, how it ends, a line feed.
fn line(begin: &str, end: &str) -> String {
    format!("{begin}{}{end}\n", " ".repeat(LINE_LENGTH - 1 - begin.len() - end.len()))
}

#[test]
fn pages_by_hand() {
    let heading = line("page 1 of 1", "");
    assert_eq!(written(0, 2, &PARK, &[]), heading);
    assert_eq!(written(16, 7, &PARK, &[]), heading);
    assert_eq!(written(0, 7, &PARK, &[(0, 6)]), heading.clone() + &line("-", "0          6"));
    assert_eq!(
        written(2, 7, &PARK, &[(1, 3), (3, 5)]),
        heading.clone() + &line("gate", "1          3") + &line("gate+bar", "2          5")
    );
    assert_eq!(
        written(16, 4_294_967_295, &PARK, &[(0, 4_294_967_294), (5, 12), (0x8000, 1), (0xffff, 4_294_967_294)]),
        heading
            + &line("-", "0 4294967294")
            + &line("gate+belt", "2         12")
            + &line("lock", "1          1")
            + &line("gate+bar+belt+brake+horn+lamp+door+step+lift+stop+fan+bell+rail+seat+chain+lock", "16 4294967294")
    );
}

/// The whole panel with labels of one byte each, and with labels of eight, which fill the column.
#[test]
fn shortest_and_longest_columns() {
    let heading = line("page 1 of 1", "");
    assert_eq!(
        written(16, 7, &repeated([1; 16]), &[(0xffff, 6)]),
        heading.clone() + &line("a+b+c+d+e+f+g+h+i+j+k+l+m+n+o+p", "16          6")
    );
    assert_eq!(
        written(16, 7, &repeated([8; 16]), &[(0xffff, 6)]),
        heading
            + "aaaaaaaa+bbbbbbbb+cccccccc+dddddddd+eeeeeeee+ffffffff+gggggggg+hhhhhhhh+\
               iiiiiiii+jjjjjjjj+kkkkkkkk+llllllll+mmmmmmmm+nnnnnnnn+oooooooo+pppppppp 16          6\n"
    );
}

/// Tables with so many lines, on the smallest panel that has room for them and on 16 controls; pages with numbers of one to four
/// digits.
#[test]
fn pages_of_so_many_lines() {
    let random = &mut Random::new(60);
    let around_a_page = [0, 1, 2, 49, 50, 51, 99, 100, 101, 150];
    let around_a_digit = [450, 451, 500, 501, 4950, 4951, 5000, 5001, 49_950, 49_951, 50_001, 65_535, 65_536];
    for count in around_a_page.into_iter().chain(around_a_digit) {
        let smallest = (0..=16).find(|n| count <= 1 << n).unwrap();
        for n in [smallest, 16] {
            let table = file_with_nonzero(Kind::Full, n, 4_294_967_295, count, random);
            check_exact_buffer(&table, &sheet_of(&random_labels(random)));
            assert_eq!(pages_length(&table) as u64, 158 * (count + count.div_ceil(50).max(1)));
        }
    }
}

/// Random tables with random labels.
#[test]
fn pages_of_all_panels() {
    for_each_file(8, |table, random| {
        let (length, sheet) = (pages_length(&table), sheet_of(&random_labels(random)));
        let fitting = [length, length + 1, length + 500].map(|buffer| (buffer, 0));
        let short = [length - 1, length / 2, 0].map(|buffer| (buffer, 10));
        for (buffer, word) in fitting.into_iter().chain(short) {
            check_pages(&table, &sheet, buffer, word);
        }
    });
    let random = &mut Random::new(61);
    for n in 9..=16 {
        for (m, fill) in [(2, Fill::Uniform), (30030, Fill::Sparse), (4_294_967_295, Fill::Largest)] {
            let table = random_file(Kind::Full, n, m, fill, random);
            check_exact_buffer(&table, &sheet_of(&random_labels(random)));
        }
    }
}

/// Values at both sides of each place where a number gets a digit longer.
#[test]
fn pages_of_values_of_every_length() {
    let m = 4_294_967_295;
    for value in (1..10).flat_map(|digits| [10_u32.pow(digits) - 1, 10_u32.pow(digits)]).chain([1, m - 1]) {
        check_exact_buffer(&File { kind: Kind::Full, n: 0, m, entries: vec![value] }, &sheet_of(&PARK));
    }
}

/// Each set of sixteen controls has its own line.
#[test]
fn pages_of_each_set() {
    let table = File { kind: Kind::Full, n: 16, m: 7, entries: vec![6; 1 << 16] };
    for labels in labels_of_every_kind() {
        check_exact_buffer(&table, &sheet_of(&labels));
    }
}

/// Split at the sign, the set column of each line names the set's controls, in rising order.
#[test]
fn sets_from_lines() {
    let random = &mut Random::new(63);
    for labels in labels_of_every_kind().into_iter().chain((0..5).map(|_| random_labels(random))) {
        let mut buffer = vec![0; LINE_LENGTH * ((1 << 16) + 1311)];
        let answer = ffi::write_pages(16, 7, &[1; 1 << 16], &sheet_of(&labels), &mut buffer);
        assert_eq!(answer, (buffer.len() as u64) << 32);
        let lines = buffer.chunks(LINE_LENGTH).enumerate().filter(|(i, _)| i % 51 != 0).map(|(_, line)| &line[..143]);
        let columns = lines.map(|column| std::str::from_utf8(column).expect("text").trim_end_matches(' '));
        for (code, column) in columns.enumerate() {
            let control = |label| labels.iter().position(|loaded| loaded == label).expect(label);
            let controls: Vec<_> = if column == "-" { Vec::new() } else { column.split('+').map(control).collect() };
            assert!(controls.windows(2).all(|pair| pair[0] < pair[1]), "{column}");
            assert_eq!(controls.iter().map(|control| 1 << control).sum::<usize>(), code, "{column}");
        }
    }
}

/// Refusals 1, 2, 3, 5, those of the sheet, and 10, in every company; the first in this order counts.
#[test]
fn page_refusals() {
    let random = &mut Random::new(62);
    for n in [0, 1, 3, 6] {
        for m in [2, 7, 30030, 4_294_967_295] {
            let good = random_file(Kind::Full, n, m, Fill::Uniform, random);
            let length = pages_length(&good);
            for (sheet_word, sheet) in refused_sheets() {
                check_pages(&good, &sheet, length, sheet_word);
            }
            for_each_refusal(&good, random, |table, short, word| {
                // Room for a line and a page more, which a wrong entry may add.
                let buffer = if short { length - 1 } else { length + 2 * LINE_LENGTH };
                check_pages(table, &sheet_of(&PARK), buffer, word);
                for (sheet_word, sheet) in refused_sheets() {
                    check_pages(table, &sheet, buffer, if word == 10 { sheet_word } else { word });
                }
            });
        }
    }
}

/// The pages of the samples, by the reader and the call.
#[test]
fn pages_of_samples() {
    for (name, kind, n) in SAMPLES {
        let mut entries = vec![0; 1 << n];
        let m = ffi::read_table(&sample(name), &mut entries) as u32;
        check_exact_buffer(&File { kind, n, m, entries }, &sample("labels.sheet"));
    }
}
