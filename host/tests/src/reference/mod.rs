//! The calls once more, written from the specification's sentences and slowly on purpose: sums over pairs of sets, over
//! partitions that are listed one by one, and tables solved for entry by entry.

pub mod boards;
pub mod files;
pub mod labels;
pub mod pages;
pub mod partitions;
pub mod products;
pub mod recipes;
pub mod refusals;

/// x · y modulo m.
pub fn times(x: u32, y: u32, m: u32) -> u32 {
    (u64::from(x) * u64::from(y) % u64::from(m)) as u32
}

/// x + y modulo m.
pub fn plus(x: u32, y: u32, m: u32) -> u32 {
    ((u64::from(x) + u64::from(y)) % u64::from(m)) as u32
}

/// x − y modulo m.
pub fn minus(x: u32, y: u32, m: u32) -> u32 {
    ((u64::from(x) + u64::from(m) - u64::from(y)) % u64::from(m)) as u32
}

/// How many controls a set has, counted one by one; the library takes the language's count.
pub fn size(set: usize) -> u32 {
    if set == 0 {
        0
    } else {
        (set % 2) as u32 + size(set / 2)
    }
}

pub fn greatest_common_divisor(x: u32, y: u32) -> u32 {
    if y == 0 {
        x
    } else {
        greatest_common_divisor(y, x % y)
    }
}

/// The x with u · x = 1 modulo m, by the extended algorithm of Euclid; u and m have no common divisor above 1.
pub fn reciprocal(u: u32, m: u32) -> u32 {
    let (mut r, mut r_next) = (i64::from(m), i64::from(u));
    let (mut x, mut x_next) = (0i64, 1i64);
    while r_next != 0 {
        let quotient = r / r_next;
        (r, r_next) = (r_next, r - quotient * r_next);
        (x, x_next) = (x_next, x - quotient * x_next);
    }
    x.rem_euclid(i64::from(m)) as u32
}
