//! Header check, reader and writers against the independent decoder and encoder: the files of both kinds that they are tried
//! on.

mod header_check;
mod reader;
mod sparse;
mod writer;

use crate::lent::Lent;
use crate::random::{Fill, Random, FILLS};
use crate::reference::files::{groups, groups_padded, header, File, Kind, KINDS};

const MODULI: [u32; 10] = [2, 3, 101, 128, 300, 16384, 30030, 2_147_483_647, 4_294_967_294, 4_294_967_295];

/// n · 2^32 + m, or 2^40 times the refusal.
pub fn packed(answer: Result<(u32, u32), u32>) -> u64 {
    match answer {
        Ok((n, m)) => u64::from(n) << 32 | u64::from(m),
        Err(word) => u64::from(word) << 40,
    }
}

pub fn lent_bytes(bytes: &[u8]) -> Lent<u8> {
    Lent::new(bytes, 0x05, 3)
}

/// The sample files: name, kind and controls.
pub const SAMPLES: [(&str, Kind, u32); 5] = [
    ("two-controls.table", Kind::Full, 2),
    ("four-controls.table", Kind::Full, 4),
    ("eight-controls.table", Kind::Full, 8),
    ("two-controls-sparse.table", Kind::Sparse, 2),
    ("sixteen-controls-sparse.table", Kind::Sparse, 16),
];

pub fn sample(name: &str) -> Vec<u8> {
    std::fs::read(format!("{}/../../samples/{name}", env!("CARGO_MANIFEST_DIR"))).expect(name)
}

/// How long a table the file asks for; 1 where its header is refused.
pub fn table_length(bytes: &[u8]) -> usize {
    header(bytes).map_or(1, |(n, _)| 1 << n)
}

/// Each of the panels, in both kinds.
pub fn in_both_kinds(panels: impl IntoIterator<Item = u32> + Clone) -> impl Iterator<Item = (Kind, u32)> {
    KINDS.into_iter().flat_map(move |kind| panels.clone().into_iter().map(move |n| (kind, n)))
}

pub fn random_file(kind: Kind, n: u32, m: u32, fill: Fill, random: &mut Random) -> File {
    File { kind, n, m, entries: fill.entries(1 << n, m, random) }
}

/// A file of a table with so many entries that are not 0.
pub fn file_with_nonzero(kind: Kind, n: u32, m: u32, count: u64, random: &mut Random) -> File {
    let mut left = count;
    let entry = |code: u64| {
        let chosen = random.below((1 << n) - code) < left;
        left -= u64::from(chosen);
        u32::from(chosen) * (1 + random.residue(m - 1))
    };
    File { kind, n, m, entries: (0..1 << n).map(entry).collect() }
}

/// Files of both kinds and all panels up to n, under all moduli and with all fills.
pub fn for_each_file(most: u32, mut show: impl FnMut(File, &mut Random)) {
    let random = &mut Random::new(20);
    for (kind, n) in in_both_kinds(0..=most) {
        for m in MODULI {
            for fill in FILLS {
                let file = random_file(kind, n, m, fill, random);
                show(file, random);
            }
        }
    }
}

/// For every choice of the words 1, 2, 3, 5 and 10 a table to which they apply, whether its buffer is to be short, and the lowest
/// of them.
pub fn for_each_refusal(good: &File, random: &mut Random, mut show: impl FnMut(&File, bool, u32)) {
    for which in 1..32 {
        let wrong = |bit| which >> bit & 1 == 1;
        let lowest = [1, 2, 3, 5, 10][(0..5).find(|bit| wrong(*bit)).unwrap()];
        for _ in 0..4 {
            let mut file = good.clone();
            if wrong(3) {
                let place = random.below(1 << good.n) as usize;
                file.entries[place] = *random.pick(&[good.m, u32::MAX]);
            }
            if wrong(2) {
                let right = file.entries.len();
                file.entries.resize(*random.pick(&[0, right - 1, right + 1, 2 * right]), 0);
            }
            if wrong(1) {
                file.m = *random.pick(&[0, 1]);
            }
            if wrong(0) {
                file.n = *random.pick(&[17, 32, 64, u32::MAX]);
            }
            show(&file, wrong(4), lowest);
        }
    }
}

/// The file cut off at every length, with every byte changed, with bytes put in, left out and put behind.
pub fn for_each_damage(bytes: &[u8], random: &mut Random, mut show: impl FnMut(&[u8])) {
    let values: Vec<u8> = match bytes.len() {
        0..=24 => (0..=255).collect(),
        _ => vec![0, 1, 0x7f, 0x80, 0xff, random.byte(), random.byte()],
    };
    for i in 0..bytes.len() {
        show(&bytes[..i]);
        for &value in &values {
            let mut changed = bytes.to_vec();
            changed[i] = value;
            show(&changed);
        }
        let mut without = bytes.to_vec();
        without.remove(i);
        show(&without);
        let mut with = bytes.to_vec();
        with.insert(i, *random.pick(&values));
        show(&with);
    }
    for tail in [&[0][..], &[0x80], &[0xff; 7], &[1; 300]] {
        show(&[bytes, tail].concat());
    }
}

/// Bytes that are often nearly a file: small panels, numbers that are changed, padded, too large or cut off.
pub fn nearly_a_file(kind: Kind, random: &mut Random) -> Vec<u8> {
    let (panels, fills) = match kind {
        Kind::Full => (4, &[Fill::Uniform][..]),
        Kind::Sparse => (7, &[Fill::Uniform, Fill::Extremes, Fill::Sparse, Fill::Zeros][..]),
    };
    let (n, m) = (random.below(panels) as u32, *random.pick(&MODULI));
    let fill = *random.pick(fills);
    let file = random_file(kind, n, m, fill, random);
    let mut numbers: Vec<u64> = file.numbers().into_iter().map(u64::from).collect();
    while random.below(2) == 0 {
        let place = random.below(numbers.len() as u64) as usize;
        numbers[place] = other_number(numbers[place], n, m.into(), random);
    }
    let padded = random.below(8 * numbers.len() as u64) as usize;
    let mut bytes = Vec::new();
    for (place, number) in numbers.into_iter().enumerate() {
        match u32::try_from(number) {
            _ if place == padded => bytes.extend(groups_padded(number, 1 + random.below(9) as usize)),
            Ok(short) => bytes.extend(groups(short)),
            Err(_) => bytes.extend(groups_padded(number, 6)),
        }
    }
    match random.below(8) {
        0 => bytes.push(random.byte()),
        1 => drop(bytes.pop()),
        2 => bytes.truncate(random.below(bytes.len() as u64) as usize),
        _ => {}
    }
    bytes
}

/// What a number of a file is changed to: a neighbour, or a number at an edge of what a file takes.
fn other_number(number: u64, n: u32, m: u64, random: &mut Random) -> u64 {
    let near = [number + 1, number.saturating_sub(1), 0, 1, 2, (1 << n) - 1, 1 << n, m - 1, m, m + 1];
    let first = [16, 17, 31, 32, 33, 48, 49];
    let large = [(1 << 31) - 1, 1 << 31, (1 << 32) - 2, (1 << 32) - 1, 1 << 32, 1 << 40];
    let choices = *random.pick(&[&near[..], &near, &first, &large]);
    *random.pick(choices)
}

/// Bytes at random, large and small or small alone, half of the time behind the header of a sparse file.
pub fn noise(random: &mut Random) -> Vec<u8> {
    let mut bytes = match random.below(2) {
        0 => Vec::new(),
        _ => vec![32 + random.below(7) as u8, 2 + random.below(126) as u8],
    };
    let scale = *random.pick(&[8, 256]);
    bytes.extend((0..random.below(12)).map(|_| random.below(scale) as u8));
    bytes
}

/// Numbers that are cut off, longer than their shortest form, or too large.
pub const BAD_NUMBERS: [&[u8]; 11] = [
    &[0x80],
    &[0x80, 0x00],
    &[0x80, 0x80, 0x00],
    &[0x81, 0x00],
    &[0xff, 0x80, 0x00],
    &[0x80, 0x80, 0x80, 0x80, 0x00],
    &[0x80, 0x80, 0x80, 0x80, 0x10],
    &[0xff, 0xff, 0xff, 0xff, 0x1f],
    &[0xff, 0xff, 0xff, 0xff, 0x7f],
    &[0xff, 0xff, 0xff, 0xff, 0x8f, 0x00],
    &[0x80, 0x80, 0x80, 0x80, 0x80, 0x01],
];

/// Shows each bad number at each place of 02 07 00 03 00 05 and of the sparse file of the same table.
pub fn for_each_bad_number(mut show: impl FnMut(usize, &[u8])) {
    for good in [&[2, 7, 0, 3, 0, 5][..], &[34, 7, 2, 1, 3, 1, 5]] {
        for bad in BAD_NUMBERS {
            for place in 0..good.len() {
                let behind = if bad == [0x80] { &[][..] } else { &good[place + 1..] };
                show(place, &[&good[..place], bad, behind].concat());
            }
        }
    }
}
