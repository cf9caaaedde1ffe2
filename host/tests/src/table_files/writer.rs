//! The writers, and the way there and back.

use super::{file_with_nonzero, for_each_file, for_each_refusal, in_both_kinds, nearly_a_file, packed, random_file};
use super::{sample, table_length, SAMPLES};
use crate::ffi;
use crate::lent::{counting_bytes, Lent};
use crate::random::{Fill, Random};
use crate::reference::files::{read, File, Kind, KINDS};

/// By the writer of the kind.
fn write(kind: Kind, n: u32, m: u32, table: &[u32], buffer: &mut [u8]) -> u64 {
    match kind {
        Kind::Full => ffi::write_table(n, m, table, buffer),
        Kind::Sparse => ffi::write_sparse(n, m, table, buffer),
    }
}

/// Writes the table to a buffer of the length and compares all outcomes with the encoder's.
pub fn check_writer(file: &File, buffer_length: usize, word: u32) {
    let table = Lent::new(&file.entries, 0xa5a5_5a5a, 1);
    let mut buffer = Lent::new(&counting_bytes(buffer_length), 0x05, 3);
    let answer = write(file.kind, file.n, file.m, table.slice(), buffer.slice_mut());
    let bytes = if word == 0 { file.bytes() } else { Vec::new() };
    let about = format!("{:?} writer with n = {}, m = {}, buffer of {buffer_length}", file.kind, file.n, file.m);
    assert_eq!(answer, (bytes.len() as u64) << 32 | u64::from(word), "{about}");
    table.check_unchanged_from(0, &about);
    buffer.check_unchanged_from(bytes.len(), &about);
    assert_eq!(buffer.slice()[..bytes.len()], bytes, "{about}");
}

/// A buffer of the file's own length is enough, a shorter one is not.
pub fn check_exact_buffer(file: &File) {
    let length = file.bytes().len();
    check_writer(file, length, 0);
    check_writer(file, length - 1, 10);
}

#[test]
fn writer_of_all_panels() {
    for_each_file(8, |file, _| {
        let length = file.bytes().len();
        for (buffer, word) in [(length, 0), (length + 1, 0), (length + 500, 0), (length - 1, 10), (length / 2, 10), (0, 10)]
        {
            check_writer(&file, buffer, word);
        }
    });
    let random = &mut Random::new(24);
    for (kind, n) in in_both_kinds(9..=16) {
        for m in [2, 30030, 4_294_967_295] {
            check_exact_buffer(&random_file(kind, n, m, Fill::Uniform, random));
        }
    }
}

/// Entries at both sides of each place where a number gets a byte longer.
#[test]
fn writer_of_numbers_of_every_length() {
    let m = 4_294_967_295;
    let turns = [7, 14, 21, 28].map(|bits| 1 << bits);
    for entry in turns.into_iter().flat_map(|turn| [turn - 2, turn - 1, turn, turn + 1]).chain([m - 1]) {
        for kind in KINDS {
            check_exact_buffer(&File { kind, n: 0, m, entries: vec![entry] });
        }
    }
}

/// Refusals 1, 2, 3, 5 and 10, in every company; the lowest counts.
#[test]
fn writer_refusals() {
    let random = &mut Random::new(25);
    for (kind, n) in in_both_kinds([0, 1, 3, 6]) {
        for m in [2, 7, 30030, 4_294_967_295] {
            let good = random_file(kind, n, m, Fill::Uniform, random);
            for_each_refusal(&good, random, |file, short, word| {
                let length = if short { good.bytes().len() - 1 } else { good.bytes().len() + 100 };
                check_writer(file, length, word);
            });
        }
    }
}

/// A table written to a file reads back the same; a buffer for the longest file of the kind is enough.
fn check_there_and_back(file: &File) {
    let most = match file.kind {
        Kind::Full => 6 + 5 * file.entries.len(),
        Kind::Sparse => 9 + 6 * file.entries.len(),
    };
    let mut bytes = vec![0xee; most];
    let written = write(file.kind, file.n, file.m, &file.entries, &mut bytes) >> 32;
    bytes.truncate(written as usize);
    let mut table = vec![u32::MAX; file.entries.len()];
    assert_eq!(ffi::read_table(&bytes, &mut table), packed(Ok((file.n, file.m))));
    assert_eq!(table, file.entries);
    assert!(check_back_and_there(&bytes));
}

/// An accepted file is the one that the writer of its own kind makes of what is read. Returns whether it is accepted.
fn check_back_and_there(bytes: &[u8]) -> bool {
    let mut table = vec![0; table_length(bytes)];
    let answer = ffi::read_table(bytes, &mut table);
    if answer >= 1 << 40 {
        return false;
    }
    let kind = read(bytes, table.len()).expect("the decoder accepts it too").kind;
    let mut again = vec![0xee; bytes.len()];
    let written = write(kind, (answer >> 32) as u32, answer as u32, &table, &mut again);
    assert_eq!(written, (bytes.len() as u64) << 32, "{bytes:02x?}");
    assert_eq!(again, bytes);
    true
}

#[test]
fn there_and_back() {
    for_each_file(10, |file, _| check_there_and_back(&file));
    let random = &mut Random::new(26);
    for (kind, n) in in_both_kinds(11..=16) {
        for count in [0, 1, 300, 1 << n] {
            check_there_and_back(&file_with_nonzero(kind, n, *random.pick(&[2, 30030, 4_294_967_295]), count, random));
        }
    }
}

#[test]
fn back_and_there() {
    let random = &mut Random::new(33);
    for kind in KINDS {
        let accepted = (0..50_000).filter(|_| check_back_and_there(&nearly_a_file(kind, random))).count();
        assert!(accepted > 10_000, "{accepted} files of the {kind:?} kind");
    }
    for (name, _, _) in SAMPLES {
        assert!(check_back_and_there(&sample(name)), "{name}");
    }
}
