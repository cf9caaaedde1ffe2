//! Sparse files by hand: their bytes, and the words of the reader in file order.

use super::reader::{check_reader, check_refused};
use super::writer::{check_exact_buffer, check_writer};
use crate::ffi;
use crate::reference::files::{File, Kind};

const LARGEST: [u8; 5] = [0xff, 0xff, 0xff, 0xff, 0x0f];

/// The sparse file of a table that is 0 but for the values at these codes.
fn sparse_file(n: u32, m: u32, nonzero: &[(usize, u32)]) -> File {
    let mut entries = vec![0; 1 << n];
    for (code, value) in nonzero {
        entries[*code] = *value;
    }
    File { kind: Kind::Sparse, n, m, entries }
}

/// The bytes are the sparse file, for writer and reader and for the independent implementation.
fn is_written(file: &File, bytes: &[u8]) {
    let mut buffer = vec![0xee; bytes.len() + 2];
    let answer = ffi::write_sparse(file.n, file.m, &file.entries, &mut buffer);
    assert_eq!(answer, (bytes.len() as u64) << 32, "{bytes:02x?}");
    assert_eq!(buffer, [bytes, &[0xee; 2]].concat());
    let mut table = vec![11; file.entries.len()];
    assert_eq!(ffi::read_table(bytes, &mut table), u64::from(file.n) << 32 | u64::from(file.m), "{bytes:02x?}");
    assert_eq!(table, file.entries, "{bytes:02x?}");
    check_exact_buffer(file);
    check_reader(bytes, file.entries.len());
}

#[test]
fn sparse_files_by_hand() {
    for (n, m, nonzero, bytes) in [
        (2, 7, &[][..], &[34, 7, 0][..]),
        (2, 7, &[(1, 3), (3, 5)], &[34, 7, 2, 1, 3, 1, 5]),
        (2, 7, &[(0, 6)], &[34, 7, 1, 0, 6]),
        (2, 7, &[(3, 6)], &[34, 7, 1, 3, 6]),
        (2, 7, &[(0, 1), (3, 1)], &[34, 7, 2, 0, 1, 2, 1]),
        (2, 7, &[(0, 1), (1, 2), (2, 3), (3, 4)], &[34, 7, 4, 0, 1, 0, 2, 0, 3, 0, 4]),
        (0, 2, &[], &[32, 2, 0]),
        (0, 2, &[(0, 1)], &[32, 2, 1, 0, 1]),
        (1, 300, &[(1, 299)], &[33, 0xac, 0x02, 1, 1, 0xab, 0x02]),
        (8, 2, &[(127, 1), (255, 1)], &[40, 2, 2, 0x7f, 1, 0x7f, 1]),
        (8, 2, &[(128, 1)], &[40, 2, 1, 0x80, 0x01, 1]),
        (8, 2, &[(255, 1)], &[40, 2, 1, 0xff, 0x01, 1]),
        (16, 2, &[], &[48, 2, 0]),
        (16, 2, &[(65535, 1)], &[48, 2, 1, 0xff, 0xff, 0x03, 1]),
        (16, 2, &[(0, 1), (65535, 1)], &[48, 2, 2, 0, 1, 0xfe, 0xff, 0x03, 1]),
    ] {
        is_written(&sparse_file(n, m, nonzero), bytes);
    }
}

/// The largest modulus with its largest value; a count of two groups.
#[test]
fn longer_numbers_by_hand() {
    let largest = [&[33][..], &LARGEST, &[1, 0, 0xfe], &LARGEST[1..]].concat();
    is_written(&sparse_file(1, u32::MAX, &[(0, u32::MAX - 1)]), &largest);
    let ones: Vec<_> = (0..256).map(|code| (code, 1)).collect();
    is_written(&sparse_file(8, 2, &ones), &[&[40, 2, 0x80, 0x02][..], &[0, 1].repeat(256)].concat());
}

/// From 14 controls on the count may have three groups, and a file 9 + 6 · 2^n bytes, the most that sps.h names.
#[test]
fn longest_sparse_files() {
    for n in [14, 16] {
        let file = File { kind: Kind::Sparse, n, m: u32::MAX, entries: vec![u32::MAX - 1; 1 << n] };
        let most = 9 + 6 * file.entries.len();
        check_writer(&file, most, 0);
        check_writer(&file, most - 1, 10);
        check_reader(&file.bytes(), 1 << n);
    }
}

/// Gaps at both sides of each place where they get a byte longer, from the start and from another entry.
#[test]
fn gaps_of_every_length() {
    for gap in [1, 126, 127, 128, 129, 16382, 16383, 16384, 16385, 65533, 65534] {
        for nonzero in [&[(gap, 7)][..], &[(0, 7), (gap + 1, 7)], &[(65534 - gap, 7), (65535, 7)]] {
            let file = sparse_file(16, 300, nonzero);
            check_exact_buffer(&file);
            check_reader(&file.bytes(), 1 << 16);
        }
    }
}

/// In file order: header, table length (3), count (8), for each entry gap (8, then 15) and value (8, then 16, then 5), end (9).
#[test]
fn sparse_reader_in_file_order() {
    for (word, length, bytes) in [
        (1, 3, &[31][..]),
        (1, 3, &[49, 0]),
        (8, 3, &[0xa2, 0x00, 7]),
        (8, 3, &[34]),
        (2, 3, &[34, 1]),
        (3, 3, &[34, 7]),
        (3, 5, &[34, 7, 0x80, 0x00]),
        (3, 3, &[34, 7, 2, 1, 3, 1, 5]),
        (3, 0, &[32, 7, 0]),
        (8, 4, &[34, 7]),
        (8, 4, &[34, 7, 0x82, 0x00, 1, 3, 1, 5]),
        (8, 4, &[34, 7, 1]),
        (8, 4, &[34, 7, 1, 0x84]),
        (8, 4, &[34, 7, 1, 0x84, 0x00, 3]),
        (15, 4, &[34, 7, 1, 4]),
        (15, 4, &[34, 7, 1, 4, 0]),
        (15, 4, &[34, 7, 1, 4, 9]),
        (15, 4, &[34, 7, 1, 4, 0x80, 0x00]),
        (15, 4, &[34, 7, 2, 1, 3, 2, 5]),
        (15, 4, &[34, 7, 2, 3, 5, 0, 5]),
        (15, 1, &[32, 7, 1, 1, 5]),
        (15, 65536, &[48, 7, 1, 0x80, 0x80, 0x04, 5]),
        (8, 4, &[34, 7, 1, 1]),
        (8, 4, &[34, 7, 1, 1, 0x80]),
        (8, 4, &[34, 7, 1, 1, 0x80, 0x00]),
        (8, 4, &[34, 7, 1, 1, 0x87, 0x00]),
        (16, 4, &[34, 7, 1, 1, 0]),
        (16, 4, &[34, 7, 1, 1, 0, 9]),
        (16, 4, &[34, 7, 2, 1, 0, 9, 9]),
        (5, 4, &[34, 7, 1, 1, 7]),
        (5, 4, &[34, 7, 1, 1, 7, 0]),
        (5, 4, &[34, 7, 2, 1, 7, 9, 0]),
        (5, 4, &[34, 7, 2, 1, 7, 0x80, 0x00]),
        (9, 4, &[34, 7, 0, 0]),
        (9, 4, &[34, 7, 2, 1, 3, 1, 5, 0x80]),
    ] {
        check_refused(word, length, bytes);
    }
}

/// A count too small leaves a tail; one too large meets 8 where the bytes end, and 15 where another gap is read.
#[test]
fn other_counts() {
    let all_four: &[u8] = &[0, 1, 0, 2, 0, 3, 0, 4];
    for (word, count, behind) in [
        (9, 0, &[1, 3][..]),
        (9, 1, &[1, 3, 1, 5]),
        (9, 3, all_four),
        (8, 3, &[1, 3, 1, 5]),
        (15, 3, &[1, 3, 1, 5, 0]),
        (8, 3, &[1, 3, 1, 5, 0x80, 0x00]),
        (8, 3, &[1, 3, 0, 5]),
        (8, 3, &[1, 3, 0, 5, 0]),
        (16, 3, &[1, 3, 0, 5, 0, 0]),
        (8, 5, all_four),
        (15, 5, &[0, 1, 0, 2, 0, 3, 0, 4, 0, 1]),
    ] {
        check_refused(word, 4, &[&[34, 7, count][..], behind].concat());
    }
    let most = [&[34, 7][..], &LARGEST].concat();
    for (word, behind) in [(8, &[][..]), (8, all_four), (15, &[0, 1, 0, 2, 0, 3, 0, 4, 0, 1]), (16, &[0, 0])] {
        check_refused(word, 4, &[&most, behind].concat());
    }
}

/// A gap near 2^32 leads beyond the last code, and not round to a small one.
#[test]
fn large_gaps() {
    for first in 0..4 {
        for lowest in 0xf8..=0xff {
            let large = [&[lowest][..], &LARGEST[1..], &[3]].concat();
            check_refused(15, 4, &[&[34, 7, 1][..], &large].concat());
            check_refused(15, 4, &[&[34, 7, 2, first, 3][..], &large].concat());
        }
    }
    check_refused(15, 4, &[34, 7, 1, 0x80, 0x80, 0x80, 0x80, 0x08, 3]);
}

/// Under the largest modulus the largest number of a file is no entry.
#[test]
fn largest_value() {
    check_refused(5, 2, &[&[33][..], &LARGEST, &[1, 0], &LARGEST].concat());
}
