//! The program `panelshow`, run on whole and damaged files.

use std::io::{ErrorKind, Write};
use std::process::{Command, Stdio};
use std::thread::sleep;
use std::time::Duration;

use crate::random::{Fill, Random, FILLS};
use crate::reference::files::{groups, shown, File, Kind, KINDS};
use crate::table_files::{in_both_kinds, random_file, sample, SAMPLES};

/// Runs the program on an input that comes in these pieces.
fn printed(pieces: &[&[u8]]) -> String {
    let mut program =
        Command::new(env!("PANELSHOW")).stdin(Stdio::piped()).stdout(Stdio::piped()).spawn().expect("panelshow starts");
    let mut input = program.stdin.take().unwrap();
    for (i, piece) in pieces.iter().enumerate() {
        if i > 0 {
            sleep(Duration::from_millis(5));
        }
        match input.write_all(piece) {
            // The program may answer before it has read a long tail to its end.
            Err(error) if error.kind() == ErrorKind::BrokenPipe => break,
            written => written.expect("panelshow takes its input"),
        }
    }
    drop(input);
    String::from_utf8(program.wait_with_output().expect("panelshow ends").stdout).expect("ASCII is printed")
}

fn check(bytes: &[u8]) {
    assert_eq!(printed(&[bytes]), shown(bytes), "{} bytes: {:02x?}", bytes.len(), &bytes[..bytes.len().min(64)]);
}

#[test]
fn the_papers_example() {
    assert_eq!(printed(&[&[2, 7, 0, 3, 0, 5]]), "2 7\n1 1 3\n3 2 5\n");
    assert_eq!(printed(&[&[]]), "refused 8\n");
    assert_eq!(printed(&[&[9]]), "refused 1\n");
}

/// The same table as a sparse file, and the words of its kind.
#[test]
fn sparse_files() {
    for (text, bytes) in [
        ("2 7\n1 1 3\n3 2 5\n", &[34, 7, 2, 1, 3, 1, 5][..]),
        ("2 7\n", &[34, 7, 0]),
        ("8 2\n255 8 1\n", &[40, 2, 1, 0xff, 0x01, 1]),
        ("refused 1\n", &[41, 0x80, 0x00]),
        ("refused 15\n", &[34, 7, 1, 4, 0]),
        ("refused 16\n", &[34, 7, 1, 3, 0]),
        ("refused 5\n", &[34, 7, 1, 3, 7]),
        ("refused 8\n", &[34, 7, 2, 1, 3]),
        ("refused 9\n", &[34, 7, 1, 1, 3, 1, 5]),
    ] {
        assert_eq!(printed(&[bytes]), text, "{bytes:02x?}");
    }
}

#[test]
fn samples() {
    for (name, _, n) in SAMPLES {
        let text = printed(&[&sample(name)]);
        assert_eq!(text, shown(&sample(name)), "{name}");
        assert_eq!(text == "refused 1\n", n > 8, "{name}");
    }
}

/// Of either kind, with the same text.
#[test]
fn whole_files() {
    let random = &mut Random::new(27);
    for n in 0..=8 {
        for m in [2, 7, 30030, 4_294_967_295] {
            for fill in FILLS {
                let full = random_file(Kind::Full, n, m, fill, random);
                let sparse = File { kind: Kind::Sparse, ..full.clone() };
                check(&full.bytes());
                assert_eq!(printed(&[&sparse.bytes()]), shown(&full.bytes()), "{sparse:?}");
            }
        }
    }
}

/// How many sets of 8 controls have 0, 1, … 8 of them: a row of Pascal's triangle.
#[test]
fn sizes_of_eight_controls() {
    for kind in KINDS {
        let bytes = File { kind, n: 8, m: 2, entries: vec![1; 256] }.bytes();
        let mut lines_of = [0; 9];
        for line in printed(&[&bytes]).lines().skip(1) {
            let size = line.split(' ').nth(1).expect("a line has a size");
            lines_of[size.parse::<usize>().expect("a size is a number")] += 1;
        }
        assert_eq!(lines_of, [1, 8, 28, 56, 70, 56, 28, 8, 1]);
    }
}

#[test]
fn damaged_files() {
    let random = &mut Random::new(28);
    for (kind, n) in in_both_kinds(0..=3) {
        let m = [2, 300, 7, 4_294_967_295][n as usize];
        let bytes = random_file(kind, n, m, Fill::Uniform, random).bytes();
        for i in 0..bytes.len() {
            check(&bytes[..i]);
            for value in [0, 1, 17, 0x7f, 0x80, 0xff, random.byte()] {
                let mut changed = bytes.clone();
                changed[i] = value;
                check(&changed);
            }
        }
    }
    for kind in KINDS {
        let bytes = random_file(kind, 8, 4_294_967_295, Fill::Largest, random).bytes();
        for cut in [1, 2, 4, 5, 6, 7, 8, 9, 600, bytes.len() - 1] {
            check(&bytes[..cut]);
        }
    }
}

/// A tail is refused however long it is; a file of the greatest length is not.
#[test]
fn tails() {
    let random = &mut Random::new(29);
    for (kind, n) in in_both_kinds([0, 2, 8]) {
        let bytes = random_file(kind, n, 4_294_967_295, Fill::Largest, random).bytes();
        for tail in [1, 2, 100, 1286, 1287, 2048, 2552, 2553, 2810, 2811, 4096, 65536, 300_000] {
            check(&[&bytes[..], &vec![0; tail]].concat());
            check(&[&bytes[..], &vec![0x80; tail]].concat());
        }
    }
}

/// A sparse file of 8 controls with all entries and too large a count: one more gap is looked at, to its last group, however
/// long the input is.
#[test]
fn one_entry_too_many() {
    let largest = [0xff, 0xff, 0xff, 0xff, 0x0f];
    let entries: Vec<u8> = [0, 0xfe, 0xff, 0xff, 0xff, 0x0f].repeat(256);
    for count in [&[0x81, 0x02][..], &largest] {
        for (word, gap) in [
            (8, &[][..]),
            (15, &[0]),
            (15, &largest),
            (8, &[0xff, 0xff, 0xff, 0xff, 0x1f]),
            (8, &[0xff, 0xff, 0xff, 0xff, 0x00]),
        ] {
            for tail in [0, 1, 2547, 2551, 100_000] {
                let bytes = [&[40][..], &largest, count, &entries, gap, &vec![0xff; tail]].concat();
                assert_eq!(printed(&[&bytes]), format!("refused {word}\n"), "{count:02x?}, {gap:02x?}, then {tail} bytes");
            }
        }
    }
}

/// A panel above 8 is refused before m is read, also when the file is whole.
#[test]
fn larger_panels() {
    let random = &mut Random::new(30);
    for (kind, n) in in_both_kinds(9..=16) {
        let bytes = random_file(kind, n, 7, Fill::Uniform, random).bytes();
        assert_eq!(printed(&[&bytes]), "refused 1\n");
        assert_eq!(printed(&[&bytes[..1]]), "refused 1\n");
        assert_eq!(printed(&[&[bytes[0], 0x80, 0x00]]), "refused 1\n");
        assert_eq!(printed(&[&[bytes[0], 0]]), "refused 1\n");
    }
    for first in [17, 31, 49, 63, 64, 127, 128, 160, u32::MAX] {
        assert_eq!(printed(&[&groups(first)]), "refused 1\n");
    }
}

/// An input may come piece by piece.
#[test]
fn input_in_pieces() {
    let random = &mut Random::new(31);
    for (kind, n) in in_both_kinds([2, 5, 8]) {
        let bytes = random_file(kind, n, 4_294_967_295, Fill::Uniform, random).bytes();
        let pieces: Vec<_> = bytes.chunks(bytes.len() / 4 + 1).collect();
        assert_eq!(printed(&pieces), shown(&bytes));
    }
}
