//! The union and the xor product against their pairs added up directly.

use crate::calls::{Call, Case};
use crate::random::{Fill, Random, FILLS};
use crate::reference::products::{union_product_at, xor_product_at};

fn small_panels(call: Call) {
    let random = &mut Random::new(8);
    for n in 0..=5 {
        for &m in call.moduli() {
            for left in FILLS {
                for right in FILLS {
                    call.compare(&Case::filled(call, n, m, [left, right], random));
                }
            }
        }
    }
}

fn larger_panels(call: Call) {
    let random = &mut Random::new(9);
    for n in 6..=9 {
        for &m in call.moduli() {
            for fills in [[Fill::Uniform; 2], [Fill::Largest; 2], [Fill::Sparse, Fill::Extremes]] {
                if n < 9 || fills[0] == Fill::Uniform {
                    let mut case = Case::filled(call, n, m, fills, random);
                    case.pad.iter_mut().chain(&mut case.result).for_each(|entry| *entry = random.word());
                    call.compare(&case);
                }
            }
        }
    }
    for n in [10, 11, 12] {
        call.compare(&Case::filled(call, n, 4_294_967_295, [Fill::Uniform, Fill::Largest], random));
    }
    let mut case = Case::filled(call, 8, 4_294_967_295, [Fill::Uniform; 2], random);
    case.inputs[1] = case.inputs[0].clone();
    case.same_slice = true;
    call.compare(&case);
}

/// Some entries for panels whose pairs are too many.
fn some_entries(call: Call, sets: usize, mut entry: impl FnMut(&mut Random, &Case) -> (usize, u32)) {
    let random = &mut Random::new(10);
    for (n, m) in [(13, 1155), (14, 2_147_483_647), (15, 4_294_967_291), (16, 4_294_967_295)] {
        for fills in [[Fill::Uniform; 2], [Fill::Largest; 2]] {
            let case = Case::filled(call, n, m, fills, random);
            let result = call.run(&case).result;
            for _ in 0..sets {
                let (set, expected) = entry(random, &case);
                assert_eq!(result[set], expected, "{call:?} with n = {n}, m = {m} at {set}");
            }
        }
    }
}

#[test]
fn union_product() {
    small_panels(Call::UnionProduct);
    larger_panels(Call::UnionProduct);
}

/// A union of size s has 3^s pairs.
#[test]
fn union_product_of_large_panels() {
    some_entries(Call::UnionProduct, 40, |random, case| {
        let some = random.below(1 << case.n) as usize;
        let set = if some.count_ones() > 11 { some & random.below(1 << case.n) as usize } else { some };
        (set, union_product_at(set, case.m, &case.inputs[0], &case.inputs[1]))
    });
}

#[test]
fn union_product_of_the_whole_largest_panel() {
    let case = Case::filled(Call::UnionProduct, 16, 4_294_967_294, [Fill::Uniform; 2], &mut Random::new(11));
    let everything = (1 << 16) - 1;
    let expected = union_product_at(everything, case.m, &case.inputs[0], &case.inputs[1]);
    assert_eq!(Call::UnionProduct.run(&case).result[everything], expected);
}

#[test]
fn xor_product() {
    small_panels(Call::XorProduct);
    larger_panels(Call::XorProduct);
}

#[test]
fn xor_product_of_large_panels() {
    some_entries(Call::XorProduct, 100, |random, case| {
        let set = random.below(1 << case.n) as usize;
        (set, xor_product_at(set, case.m, &case.inputs[0], &case.inputs[1]))
    });
}

/// Every even modulus is refused, and only for that when nothing else is wrong.
#[test]
fn xor_product_under_even_moduli() {
    let random = &mut Random::new(12);
    for n in [0, 1, 4] {
        for m in [2, 4, 6, 256, 30030, 4_294_967_294] {
            let mut case = Case::filled(Call::XorProduct, n, m, [Fill::Uniform; 2], random);
            assert_eq!(Call::XorProduct.run(&case).number, 7);
            *case.inputs[1].last_mut().unwrap() = m;
            assert_eq!(Call::XorProduct.run(&case).number, 5);
        }
    }
}
