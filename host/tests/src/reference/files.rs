//! Table files of both kinds, decoded and encoded by themselves, and what `panelshow` prints of one.

use super::refusals::{LARGEST_MODULUS, MOST_CONTROLS};
use super::size;

#[derive(Clone, Copy, Debug, PartialEq)]
pub enum Kind {
    Full,
    Sparse,
}

pub const KINDS: [Kind; 2] = [Kind::Full, Kind::Sparse];

impl Kind {
    /// What a file of n controls begins with.
    pub fn first_number(self, n: u32) -> u32 {
        match self {
            Kind::Full => n,
            Kind::Sparse => 32 + n,
        }
    }
}

/// What a file holds.
#[derive(Clone, Debug, PartialEq)]
pub struct File {
    pub kind: Kind,
    pub n: u32,
    pub m: u32,
    pub entries: Vec<u32>,
}

pub const MOST_SHOWN: u32 = 8;

/// Takes the number that the bytes begin with off them; refusal 8 where they begin with none.
pub fn take_number(bytes: &mut &[u8]) -> Result<u32, u32> {
    let last = bytes.iter().position(|byte| byte & 0x80 == 0).ok_or(8u32)?;
    let (groups, rest) = bytes.split_at(last + 1);
    let shortest = groups.len() == 1 || groups[last] != 0;
    if !shortest || groups.len() > 5 {
        return Err(8);
    }
    let value = groups.iter().rev().fold(0u64, |value, byte| value << 7 | u64::from(byte & 0x7f));
    *bytes = rest;
    u32::try_from(value).map_err(|_| 8)
}

/// Kind, n and m; refusal 1 if no file begins with the first number.
fn take_header(bytes: &mut &[u8], most_controls: u32) -> Result<(Kind, u32, u32), u32> {
    let first = take_number(bytes)?;
    let mut beginnings = KINDS.into_iter().flat_map(|kind| (0..=most_controls).map(move |n| (kind, n)));
    let (kind, n) = beginnings.find(|(kind, n)| kind.first_number(*n) == first).ok_or(1u32)?;
    let m = take_number(bytes)?;
    if !(2..=LARGEST_MODULUS).contains(&m) {
        return Err(2);
    }
    Ok((kind, n, m))
}

/// n and m, or the refusal.
pub fn header(mut bytes: &[u8]) -> Result<(u32, u32), u32> {
    take_header(&mut bytes, MOST_CONTROLS).map(|(_, n, m)| (n, m))
}

/// The file read into a table of the length, or the refusal.
pub fn read(bytes: &[u8], table_length: usize) -> Result<File, u32> {
    read_limited(bytes, MOST_CONTROLS, Some(table_length))
}

fn read_limited(mut bytes: &[u8], most_controls: u32, table_length: Option<usize>) -> Result<File, u32> {
    let (kind, n, m) = take_header(&mut bytes, most_controls)?;
    if table_length.is_some_and(|length| length != 1 << n) {
        return Err(3);
    }
    let entries = match kind {
        Kind::Full => take_entries(&mut bytes, n, m)?,
        Kind::Sparse => take_nonzero_entries(&mut bytes, n, m)?,
    };
    if bytes.is_empty() {
        Ok(File { kind, n, m, entries })
    } else {
        Err(9)
    }
}

fn take_entries(bytes: &mut &[u8], n: u32, m: u32) -> Result<Vec<u32>, u32> {
    let mut entries = Vec::new();
    for _ in 0..1 << n {
        let entry = take_number(bytes)?;
        if entry >= m {
            return Err(5);
        }
        entries.push(entry);
    }
    Ok(entries)
}

/// The entries of a sparse file, each put at its code.
fn take_nonzero_entries(bytes: &mut &[u8], n: u32, m: u32) -> Result<Vec<u32>, u32> {
    let mut entries = vec![0; 1 << n];
    let mut previous = None;
    for _ in 0..take_number(bytes)? {
        let gap = take_number(bytes)? as usize;
        let code = previous.map_or(gap, |previous: usize| previous + gap + 1);
        let place = entries.get_mut(code).ok_or(15u32)?;
        *place = match take_number(bytes)? {
            0 => return Err(16),
            value if value >= m => return Err(5),
            value => value,
        };
        previous = Some(code);
    }
    Ok(entries)
}

/// What `panelshow` prints when the bytes are its input.
pub fn shown(bytes: &[u8]) -> String {
    match read_limited(bytes, MOST_SHOWN, None) {
        Err(word) => format!("refused {word}\n"),
        Ok(File { n, m, entries, .. }) => {
            let nonzero = entries.iter().enumerate().filter(|(_, value)| **value != 0);
            let lines = nonzero.map(|(code, value)| format!("{code} {} {value}\n", size(code)));
            format!("{n} {m}\n") + &lines.collect::<String>()
        }
    }
}

/// The number in groups of seven bits, lowest first, in its shortest form.
pub fn groups(value: u32) -> Vec<u8> {
    let count = (1..5).find(|&count| u64::from(value) < 1 << (7 * count)).unwrap_or(5);
    groups_padded(u64::from(value), count)
}

/// The number in so many groups, which may be more than it needs.
pub fn groups_padded(value: u64, count: usize) -> Vec<u8> {
    let more = |i| if i + 1 < count { 0x80 } else { 0 };
    (0..count).map(|i| (value >> (7 * i) & 0x7f) as u8 | more(i)).collect()
}

impl File {
    /// The numbers that it is made of, in file order.
    pub fn numbers(&self) -> Vec<u32> {
        let mut numbers = vec![self.kind.first_number(self.n), self.m];
        match self.kind {
            Kind::Full => numbers.extend(&self.entries),
            Kind::Sparse => {
                let nonzero: Vec<_> = (0..).zip(&self.entries).filter(|(_, value)| **value != 0).collect();
                numbers.push(nonzero.len() as u32);
                for (i, (code, value)) in nonzero.iter().enumerate() {
                    let skipped = if i == 0 { *code } else { code - nonzero[i - 1].0 - 1 };
                    numbers.extend([skipped, **value]);
                }
            }
        }
        numbers
    }

    pub fn bytes(&self) -> Vec<u8> {
        self.numbers().into_iter().flat_map(groups).collect()
    }
}

#[test]
fn the_papers_numbers_in_groups() {
    assert_eq!(groups(300), [0xac, 0x02]);
    assert_eq!(groups(u32::MAX), [0xff, 0xff, 0xff, 0xff, 0x0f]);
    assert_eq!(take_number(&mut &[0xac, 0x02][..]), Ok(300));
    assert_eq!(take_number(&mut &[0x80, 0x00][..]), Err(8));
}

#[test]
fn a_table_in_both_kinds() {
    for (kind, bytes) in [(Kind::Full, &[2, 7, 0, 3, 0, 5][..]), (Kind::Sparse, &[34, 7, 2, 1, 3, 1, 5])] {
        let file = File { kind, n: 2, m: 7, entries: vec![0, 3, 0, 5] };
        assert_eq!(file.bytes(), bytes);
        assert_eq!(read(bytes, 4), Ok(file));
    }
}
