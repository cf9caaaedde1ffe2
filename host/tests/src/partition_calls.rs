//! Exponential, logarithm, inverse, composition and projection against partitions listed one by one and tables solved for.

use crate::calls::{assert_same, whatever_was_lent, Call, Case};
use crate::random::{Fill, Random, FILLS};
use crate::reference::partitions::{composition_by_blocks, exponential_by_blocks, projection_by_blocks, whole_entry};
use crate::reference::products::subset_product;
use crate::reference::{plus, times};

fn small_panels(call: Call) {
    let random = &mut Random::new(13);
    for n in 0..=6 {
        for &m in call.moduli() {
            for left in FILLS {
                for right in [Fill::Uniform, Fill::Largest, Fill::Single] {
                    let mut case = Case::filled(call, n, m, [left, right], random);
                    if right == Fill::Uniform {
                        case.pad.iter_mut().chain(&mut case.result).for_each(|entry| *entry = random.word());
                    }
                    call.compare(&case);
                }
            }
        }
    }
}

fn larger_panels(call: Call) {
    let random = &mut Random::new(14);
    for n in 7..=9 {
        for m in [2, 3, 4, 6, 30030, 4_294_967_291, 4_294_967_294, 4_294_967_295] {
            call.compare(&Case::filled(call, n, m, [Fill::Uniform; 2], random));
        }
    }
    call.compare(&Case::filled(call, 10, 4_294_967_295, [Fill::Largest; 2], random));
}

fn both(call: Call) {
    small_panels(call);
    larger_panels(call);
}

#[test]
fn exponential() {
    both(Call::Exponential);
}

#[test]
fn logarithm() {
    both(Call::Logarithm);
}

#[test]
fn inverse() {
    both(Call::Inverse);
}

#[test]
fn composition() {
    both(Call::Composition);
}

#[test]
fn projection() {
    both(Call::Projection);
}

/// Euclid's coefficients near the largest modulus: small first entries, ones near m, near its half and near m divided by the
/// golden ratio, where divisions go on long, and any; and the two numbers of Fibonacci with the longest.
#[test]
fn inverse_of_first_entries_near_the_limit() {
    let random = &mut Random::new(32);
    for m in 4_294_967_280..=4_294_967_295 {
        let near = (1..30).flat_map(|k| [k, m / 2 - 15 + k, 2_654_435_769 - 15 + k, m - k]);
        for first in near.chain((0..200).map(|_| random.residue(m))) {
            Call::Inverse.compare(&Case::new(Call::Inverse, 0, m, vec![vec![first]]));
            Call::Inverse.compare(&Case::new(Call::Inverse, 1, m, vec![vec![first, m - 1]]));
        }
    }
    Call::Inverse.compare(&Case::new(Call::Inverse, 0, 2_971_215_073, vec![vec![1_836_311_903]]));
}

/// Panels and moduli at which partitions are too many to list.
const LARGE: [(u32, u32); 6] =
    [(11, 6), (12, 30030), (13, 4_294_967_295), (14, 4_294_967_291), (15, 2_147_483_647), (16, 4_294_967_294)];

#[test]
fn exponential_of_large_panels() {
    let random = &mut Random::new(15);
    for (n, m) in LARGE {
        let case = Case::filled(Call::Exponential, n, m, [Fill::Uniform; 2], random);
        let expected = exponential_by_blocks(m, &case.inputs[0]);
        assert_same(&Call::Exponential.run(&case).result, &expected, || format!("exponential with n = {n}, m = {m}"));
    }
}

#[test]
fn composition_of_large_panels() {
    let random = &mut Random::new(16);
    for (n, m) in LARGE.into_iter().filter(|(n, _)| *n <= 14) {
        let case = Case::filled(Call::Composition, n, m, [Fill::Uniform; 2], random);
        let expected = composition_by_blocks(m, &case.inputs[0], &case.inputs[1]);
        assert_same(&Call::Composition.run(&case).result, &expected, || format!("composition with n = {n}, m = {m}"));
    }
}

/// The exponential of the result is what was given.
#[test]
fn logarithm_of_large_panels() {
    let random = &mut Random::new(17);
    for (n, m) in LARGE {
        let case = Case::filled(Call::Logarithm, n, m, [Fill::Uniform; 2], random);
        let result = Call::Logarithm.run(&case).result;
        assert_eq!(result[0], 0);
        assert_same(&exponential_by_blocks(m, &result), &case.inputs[0], || format!("logarithm with n = {n}, m = {m}"));
    }
}

/// The pairs of the input and the result add up to 1 at the empty set and to 0 elsewhere.
#[test]
fn inverse_of_large_panels() {
    let random = &mut Random::new(18);
    for (n, m) in LARGE {
        let case = Case::filled(Call::Inverse, n, m, [Fill::Uniform; 2], random);
        let mut unit = vec![0; 1 << n];
        unit[0] = 1;
        let product = subset_product(m, &case.inputs[0], &Call::Inverse.run(&case).result);
        assert_same(&product, &unit, || format!("inverse with n = {n}, m = {m}"));
    }
}

#[test]
fn projection_of_large_panels() {
    let random = &mut Random::new(33);
    for (n, m) in LARGE.into_iter().filter(|(n, _)| *n <= 14) {
        let case = Case::filled(Call::Projection, n, m, [Fill::Uniform; 2], random);
        let expected = projection_by_blocks(m, &case.inputs[0], &case.inputs[1]);
        assert_same(&Call::Projection.run(&case).result, &expected, || format!("projection with n = {n}, m = {m}"));
    }
}

/// Where that takes too long: the sum of x^i times entry i is the whole-panel entry of the product of a and the exponential of
/// x times b.
#[test]
fn projection_of_the_largest_panels() {
    let random = &mut Random::new(34);
    for (n, m) in [(15, 4_294_967_295), (16, 4_294_967_294)] {
        let case = Case::filled(Call::Projection, n, m, [Fill::Uniform; 2], random);
        let (a, b) = (&case.inputs[0], &case.inputs[1]);
        let row = Call::Projection.run(&case).result;
        for x in [1, random.residue(m)] {
            let sum = row.iter().rev().fold(0, |sum, &entry| plus(times(sum, x, m), entry, m));
            let scaled: Vec<u32> = b.iter().map(|&entry| times(x, entry, m)).collect();
            assert_eq!(sum, whole_entry(m, a, &exponential_by_blocks(m, &scaled)), "n = {n}, m = {m}, x = {x}");
        }
    }
}

#[test]
fn projection_whatever_was_lent() {
    whatever_was_lent(Call::Projection);
}
