//! The reader.

use std::collections::BTreeSet;

use super::{file_with_nonzero, for_each_bad_number, for_each_damage, for_each_file, in_both_kinds, lent_bytes};
use super::{nearly_a_file, noise, packed, random_file, sample, table_length, SAMPLES};
use crate::ffi;
use crate::lent::Lent;
use crate::random::{Fill, Random};
use crate::reference::files::{read, Kind, KINDS};

/// Reads the file into a table of the length and compares all outcomes with the decoder's.
pub fn check_reader(bytes: &[u8], table_length: usize) {
    let lent = lent_bytes(bytes);
    let mut table = Lent::new(&vec![u32::MAX; table_length], 0xa5a5_5a5a, 1);
    let answer = ffi::read_table(lent.slice(), table.slice_mut());
    let expected = read(bytes, table_length);
    let about = || format!("{bytes:02x?} into {table_length} entries");
    assert_eq!(answer, packed(expected.as_ref().map(|file| (file.n, file.m)).map_err(|word| *word)), "{}", about());
    lent.check_unchanged_from(0, "bytes of the reader");
    match expected {
        Ok(file) => {
            assert_eq!(table.slice(), file.entries, "{}", about());
            table.check_guards("table of the reader");
        }
        Err(_) => table.check_unchanged_from(0, "table of a refused reading"),
    }
}

/// Reads the file into a table of the length that it asks for and into others.
fn check_reader_of_lengths(bytes: &[u8]) {
    let right = table_length(bytes);
    for length in [right, right - 1, right + 1, 2 * right, 0] {
        check_reader(bytes, length);
    }
}

/// The reader refuses the file with the word and leaves the table as it came; the decoder has the same word.
pub fn check_refused(word: u64, table_length: usize, bytes: &[u8]) {
    let table = &mut vec![11; table_length];
    assert_eq!(ffi::read_table(bytes, table), word << 40, "{bytes:02x?} into {table_length} entries");
    assert_eq!(*table, vec![11; table_length]);
    check_reader(bytes, table_length);
}

#[test]
fn reader_of_whole_and_damaged_files() {
    for_each_file(4, |file, random| {
        check_reader_of_lengths(&file.bytes());
        for_each_damage(&file.bytes(), random, check_reader_of_lengths);
    });
    let random = &mut Random::new(22);
    for (kind, n) in in_both_kinds([5, 6, 8]) {
        let file = random_file(kind, n, 4_294_967_295, Fill::Sparse, random);
        for_each_damage(&file.bytes(), random, |bytes| check_reader(bytes, 1 << n));
    }
    for count in [1, 6] {
        let file = file_with_nonzero(Kind::Sparse, 16, 4_294_967_295, count, random);
        for_each_damage(&file.bytes(), random, |bytes| check_reader(bytes, 1 << 16));
    }
}

/// Files that are nearly in order, and bytes at random. Every word that the reader has for a table of the right length is met.
#[test]
fn reader_of_random_bytes() {
    let random = &mut Random::new(32);
    let mut met = BTreeSet::new();
    for kind in KINDS {
        for _ in 0..50_000 {
            for bytes in [nearly_a_file(kind, random), noise(random)] {
                check_reader_of_lengths(&bytes);
                met.insert(read(&bytes, table_length(&bytes)).map_or_else(|word| word, |_| 0));
            }
        }
    }
    assert_eq!(met, BTreeSet::from([0, 1, 2, 5, 8, 9, 15, 16]));
}

#[test]
fn reader_of_large_files() {
    let random = &mut Random::new(23);
    for (kind, n) in in_both_kinds(9..=16) {
        for m in [2, 30030, 4_294_967_295] {
            let file = random_file(kind, n, m, Fill::Uniform, random);
            let mut bytes = file.bytes();
            check_reader(&bytes, 1 << n);
            check_reader(&bytes[..bytes.len() - 1], 1 << n);
            bytes.push(0);
            check_reader(&bytes, 1 << n);
        }
    }
}

/// Of full files, in file order: header, table length (3), each entry (8, then 5), end (9). A bad number is 8 in either kind.
#[test]
fn reader_in_file_order() {
    for (word, length, bytes) in [
        (8, 3, &[][..]),
        (1, 3, &[17]),
        (8, 3, &[2]),
        (2, 3, &[2, 1]),
        (3, 3, &[2, 7]),
        (3, 3, &[2, 7, 0, 3, 0, 5]),
        (3, 5, &[2, 7, 9, 3, 0, 5, 1]),
        (3, 0, &[0, 7, 1]),
        (8, 4, &[2, 7]),
        (8, 4, &[2, 7, 0, 3, 0]),
        (8, 4, &[2, 7, 0, 0x80, 0x00, 9, 5]),
        (5, 4, &[2, 7, 0, 9, 0x80, 0x00, 5]),
        (5, 4, &[2, 7, 0, 3, 0, 7]),
        (5, 4, &[2, 7, 0, 3, 0, 7, 0]),
        (8, 4, &[2, 7, 0, 3, 0, 0x87, 0x00]),
        (5, 4, &[2, 7, 0, 3, 9]),
        (9, 4, &[2, 7, 0, 3, 0, 5, 0]),
        (9, 4, &[2, 7, 0, 3, 0, 5, 0x80]),
    ] {
        check_refused(word, length, bytes);
    }
    for_each_bad_number(|_, bytes| {
        assert_eq!(ffi::read_table(bytes, &mut [0; 4]), 8 << 40, "{bytes:02x?}");
        check_reader_of_lengths(bytes);
    });
}

/// The sample files are accepted.
#[test]
fn samples() {
    for (name, kind, n) in SAMPLES {
        let bytes = sample(name);
        assert_eq!(ffi::header_check(&bytes) >> 32, n.into());
        check_reader_of_lengths(&bytes);
        assert_eq!(read(&bytes, 1 << n).map(|file| (file.kind, file.n)), Ok((kind, n)), "{name}");
    }
}
