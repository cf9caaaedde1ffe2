//! The subset product against its pairs added up directly.

use crate::calls::{self, Call, Case};
use crate::random::{Fill, Random, FILLS};

const CALL: Call = Call::SubsetProduct;

#[test]
fn small_panels() {
    let random = &mut Random::new(4);
    for n in 0..=8 {
        for &m in CALL.moduli() {
            for left in FILLS {
                for right in FILLS {
                    CALL.compare(&Case::filled(CALL, n, m, [left, right], random));
                }
            }
        }
    }
}

#[test]
fn larger_panels() {
    let random = &mut Random::new(5);
    for n in 9..=13 {
        for m in [2, 4, 6, 30030, 2_147_483_647, 3_037_000_499, 4_294_967_291, 4_294_967_294, 4_294_967_295] {
            for fills in
                [[Fill::Uniform; 2], [Fill::Largest; 2], [Fill::Sparse, Fill::Extremes], [Fill::Single, Fill::Uniform]]
            {
                if n < 12 || fills[0] == Fill::Uniform {
                    CALL.compare(&Case::filled(CALL, n, m, fills, random));
                }
            }
        }
    }
}

#[test]
fn largest_panel() {
    let random = &mut Random::new(6);
    for m in [4_294_967_291, 4_294_967_294, 4_294_967_295] {
        CALL.compare(&Case::filled(CALL, 16, m, [Fill::Largest; 2], random));
    }
    for (m, fill) in [(4_294_967_295, Fill::Uniform), (3_037_000_499, Fill::Largest), (30030, Fill::Sparse)] {
        CALL.compare(&Case::filled(CALL, 16, m, [fill, Fill::Uniform], random));
    }
    for n in [14, 15] {
        CALL.compare(&Case::filled(CALL, n, 4_294_967_294, [Fill::Uniform, Fill::Largest], random));
    }
}

/// Each pair of single sets: their union where they are disjoint, else nothing.
#[test]
fn single_sets() {
    let single = |set: usize, entry| (0..32).map(|s| if s == set { entry } else { 0 }).collect::<Vec<u32>>();
    for left in 0..32 {
        for right in 0..32 {
            let case = Case::new(CALL, 5, 101, vec![single(left, 7), single(right, 9)]);
            let expected = if left & right == 0 { single(left | right, 63) } else { vec![0; 32] };
            assert_eq!(CALL.run(&case).result, expected, "{left} and {right}");
        }
    }
}

/// Of every panel: tables of zeros next to the empty set's entry alone, the whole panel's, and all entries. A table with one
/// nonzero entry is not a table of zeros, also if that is the entry of a single control. The whole panel
/// overlaps with itself, unless it has no control.
#[test]
fn ceilings() {
    for n in 0..=16 {
        let single = |set: usize| (0..1 << n).map(|s| u32::from(s == set)).collect::<Vec<u32>>();
        let (zeros, empty, whole, all) = (vec![0; 1 << n], single(0), single((1 << n) - 1), vec![1; 1 << n]);
        let ceiling = |a: &[u32], b: &[u32]| CALL.run(&Case::new(CALL, n, 101, vec![a.to_vec(), b.to_vec()])).ceiling;
        for other in [&zeros, &empty, &whole, &all] {
            assert_eq!((ceiling(&zeros, other), ceiling(other, &zeros)), (255, 255), "n = {n}");
        }
        let twice = if n == 0 { 0 } else { 255 };
        assert_eq!((ceiling(&empty, &empty), ceiling(&empty, &whole), ceiling(&whole, &whole)), (0, n, twice), "n = {n}");
        for set in (0..n).map(|control| 1 << control) {
            assert_eq!(ceiling(&single(set), &empty), 1, "n = {n}, set {set}");
        }
    }
}

/// Of tables of ones the entry at S is 2^|S|, so under a power of two the largest sets cancel. Of a table of twos and one of
/// threes every entry cancels under 6, also that of a panel without controls.
#[test]
fn ceilings_where_entries_cancel() {
    for n in 0..=16 {
        let filled = |m, a, b| CALL.run(&Case::new(CALL, n, m, vec![vec![a; 1 << n], vec![b; 1 << n]])).ceiling;
        for power in [1, 2, 3, 5, 8, 15, 16, 17, 31] {
            assert_eq!(filled(1 << power, 1, 1), n.min(power - 1), "n = {n}, m = 2^{power}");
        }
        assert_eq!(filled(6, 2, 3), 255, "n = {n}");
    }
}

/// Under a prime any table is the product of a table without zeros and a second one: here a table with one entry, at each set of
/// a small panel, and at the empty set, the whole panel and four random sets of a larger one.
#[test]
fn ceilings_of_single_sets() {
    let (m, random) = (4_294_967_291, &mut Random::new(8));
    for n in 0..=16 {
        let sets: Vec<usize> = match n {
            0..=5 => (0..1 << n).collect(),
            _ => [0, (1 << n) - 1].into_iter().chain((0..4).map(|_| random.below(1 << n) as usize)).collect(),
        };
        for set in sets {
            let a: Vec<u32> = (0..1 << n).map(|_| 1 + random.residue(m - 1)).collect();
            let single: Vec<u32> = (0..1 << n).map(|s| u32::from(s == set)).collect();
            let inverse = Call::Inverse.run(&Case::new(Call::Inverse, n, m, vec![a.clone()])).result;
            let other = CALL.run(&Case::new(CALL, n, m, vec![inverse, single.clone()])).result;
            let outcome = CALL.run(&Case::new(CALL, n, m, vec![a, other]));
            assert_eq!((outcome.ceiling, outcome.result), (set.count_ones(), single), "n = {n}, set {set}");
        }
    }
}

#[test]
fn whatever_was_lent() {
    calls::whatever_was_lent(CALL);
}
