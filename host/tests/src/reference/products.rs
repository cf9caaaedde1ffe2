//! Products as sums over pairs.

use super::{minus, plus, reciprocal, size, times};

pub fn sum(m: u32, a: &[u32], b: &[u32]) -> Vec<u32> {
    a.iter().zip(b).map(|(&x, &y)| plus(x, y, m)).collect()
}

pub fn difference(m: u32, a: &[u32], b: &[u32]) -> Vec<u32> {
    a.iter().zip(b).map(|(&x, &y)| minus(x, y, m)).collect()
}

/// The subsets of a set, the set itself first and the empty set last.
pub fn subsets(set: usize) -> impl Iterator<Item = usize> {
    std::iter::successors(Some(set), move |&part| (part != 0).then(|| (part - 1) & set))
}

/// Each pair of disjoint sets adds to the entry of its union.
pub fn subset_product(m: u32, a: &[u32], b: &[u32]) -> Vec<u32> {
    let everything = a.len() - 1;
    let mut totals = vec![0u64; a.len()];
    for left in (0..a.len()).filter(|&left| a[left] != 0) {
        for right in subsets(everything & !left) {
            totals[left | right] += u64::from(times(a[left], b[right], m));
        }
    }
    reduced(totals, m)
}

/// Each pair of sets adds to the entry of its union.
pub fn union_product(m: u32, a: &[u32], b: &[u32]) -> Vec<u32> {
    over_all_pairs(m, a, b, |left, right| left | right)
}

/// Each pair of sets adds to the entry of its symmetric difference.
pub fn xor_product(m: u32, a: &[u32], b: &[u32]) -> Vec<u32> {
    over_all_pairs(m, a, b, |left, right| left ^ right)
}

fn over_all_pairs(m: u32, a: &[u32], b: &[u32], joined: impl Fn(usize, usize) -> usize) -> Vec<u32> {
    let mut totals = vec![0u64; a.len()];
    for left in 0..a.len() {
        for right in 0..b.len() {
            totals[joined(left, right)] += u64::from(times(a[left], b[right], m));
        }
    }
    reduced(totals, m)
}

/// One entry of the union product: for each left set, the right set has what is missing and any part of the left.
pub fn union_product_at(set: usize, m: u32, a: &[u32], b: &[u32]) -> u32 {
    let terms = subsets(set).flat_map(|left| subsets(left).map(move |both| (left, set & !left | both)));
    (terms.map(|(left, right)| u64::from(times(a[left], b[right], m))).sum::<u64>() % u64::from(m)) as u32
}

/// One entry of the xor product: the left set determines the right one.
pub fn xor_product_at(set: usize, m: u32, a: &[u32], b: &[u32]) -> u32 {
    let terms = (0..a.len()).map(|left| u64::from(times(a[left], b[left ^ set], m)));
    (terms.sum::<u64>() % u64::from(m)) as u32
}

/// Solved entry by entry: the product with the inverse is 1 at the empty set and 0 elsewhere.
pub fn inverse(m: u32, a: &[u32]) -> Vec<u32> {
    let first = reciprocal(a[0], m);
    let mut inverse = vec![first; a.len()];
    for set in 1..a.len() {
        let known = subsets(set).filter(|&left| left != 0).map(|left| u64::from(times(a[left], inverse[set & !left], m)));
        let known = (known.sum::<u64>() % u64::from(m)) as u32;
        inverse[set] = times(minus(0, known, m), first, m);
    }
    inverse
}

pub fn binomial_product(m: u32, f: &[u32], g: &[u32]) -> Vec<u32> {
    let term = |i: usize, j: usize| u64::from(times(times(subsets_of_size(i, j) % m, f[j], m), g[i - j], m));
    (0..f.len()).map(|i| ((0..=i).map(|j| term(i, j)).sum::<u64>() % u64::from(m)) as u32).collect()
}

/// How many subsets of i things have j elements, counted one by one.
fn subsets_of_size(i: usize, j: usize) -> u32 {
    (0..1 << i).filter(|&set| size(set) as usize == j).count() as u32
}

/// The largest size of a set whose entry is not 0; 255 of a table of zeros.
pub fn ceiling(a: &[u32]) -> u32 {
    (0..a.len()).filter(|&set| a[set] != 0).map(size).max().unwrap_or(255)
}

fn reduced(totals: Vec<u64>, m: u32) -> Vec<u32> {
    totals.into_iter().map(|total| (total % u64::from(m)) as u32).collect()
}
