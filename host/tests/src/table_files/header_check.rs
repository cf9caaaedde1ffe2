//! The header check.

use super::{for_each_bad_number, for_each_damage, for_each_file, lent_bytes, nearly_a_file, noise, packed};
use crate::ffi;
use crate::random::Random;
use crate::reference::files::{groups, header, KINDS};

fn check_header(bytes: &[u8]) {
    let lent = lent_bytes(bytes);
    assert_eq!(ffi::header_check(lent.slice()), packed(header(bytes)), "header of {bytes:02x?}");
    lent.check_unchanged_from(0, "bytes of the header check");
}

#[test]
fn header_check_of_whole_and_damaged_files() {
    for_each_file(3, |file, random| {
        check_header(&file.bytes());
        for_each_damage(&file.bytes(), random, check_header);
    });
    let random = &mut Random::new(21);
    for kind in KINDS {
        for _ in 0..50_000 {
            check_header(&nearly_a_file(kind, random));
            check_header(&noise(random));
        }
    }
}

/// It stops after m: whatever follows, or nothing. The first numbers 0 to 16 and 32 to 48 give n itself, all others word 1.
#[test]
fn header_check_stops_after_m() {
    let lowest_of_lengths = [7, 14, 21, 28].map(|bits| 1 << bits);
    let moduli = lowest_of_lengths.into_iter().flat_map(|m| [m - 1, m]).chain([0, 1, 2, (1 << 31) - 1, 1 << 31, u32::MAX]);
    for (m, first) in moduli.flat_map(|m| (0..=70).map(move |first| (m, first))) {
        let answer = match first {
            17..=31 | 49.. => 1 << 40,
            _ if m < 2 => 2 << 40,
            0..=16 => u64::from(first) << 32 | u64::from(m),
            32..=48 => u64::from(first - 32) << 32 | u64::from(m),
        };
        for behind in [&[][..], &[0x80], &[0xff; 20], &[0]] {
            let bytes = [&groups(first), &groups(m), behind].concat();
            check_header(&bytes);
            assert_eq!(ffi::header_check(&bytes), answer, "{bytes:02x?}");
        }
    }
}

/// In file order: the first number (8, then 1), m (8, then 2).
#[test]
fn header_check_in_file_order() {
    for (word, bytes) in [
        (8, &[][..]),
        (8, &[0x91, 0x00, 7]),
        (8, &[0xa0, 0x00, 7]),
        (8, &[0xb1, 0x00, 7]),
        (1, &[17]),
        (1, &[31]),
        (1, &[49]),
        (1, &[17, 0x80, 0x00]),
        (1, &[31, 1]),
        (1, &[49, 0x80, 0x00]),
        (1, &[0x80, 0x01, 7]),
        (1, &[0xa0, 0x01, 7]),
        (1, &[0xff, 0xff, 0xff, 0xff, 0x0f, 1]),
        (8, &[0xff, 0xff, 0xff, 0xff, 0x1f, 1]),
        (8, &[16]),
        (8, &[48]),
        (8, &[16, 0x80]),
        (8, &[32, 0x80]),
        (8, &[16, 0x81, 0x00]),
        (8, &[48, 0x81, 0x00]),
        (2, &[16, 0]),
        (2, &[32, 0]),
        (2, &[16, 1]),
        (2, &[48, 1]),
        (8, &[16, 0x80, 0x80, 0x80, 0x80, 0x10]),
        (8, &[48, 0x80, 0x80, 0x80, 0x80, 0x10]),
    ] {
        assert_eq!(ffi::header_check(bytes), word << 40, "{bytes:02x?}");
    }
    for_each_bad_number(|place, bytes| {
        let expected = if place < 2 { 8 << 40 } else { 2 << 32 | 7 };
        assert_eq!(ffi::header_check(bytes), expected, "{bytes:02x?}");
    });
}
