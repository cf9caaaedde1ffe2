//! Sum, difference and binomial product against their definitions.

use crate::calls::{Call, Case};
use crate::random::{Random, FILLS};

/// Every panel, every modulus, every pair of kinds of input.
fn every_panel(call: Call) {
    let random = &mut Random::new(2);
    for n in 0..=16 {
        for &m in call.moduli() {
            for left in FILLS {
                for right in FILLS {
                    if n <= 10 || left == right {
                        call.compare(&Case::filled(call, n, m, [left, right], random));
                    }
                }
            }
        }
    }
}

/// One slice may be lent for both inputs.
fn one_slice_twice(call: Call) {
    let random = &mut Random::new(3);
    for n in 0..=8 {
        let mut case = Case::filled(call, n, 4_294_967_295, [FILLS[2]; 2], random);
        case.inputs[1] = case.inputs[0].clone();
        case.same_slice = true;
        call.compare(&case);
    }
}

#[test]
fn sum() {
    every_panel(Call::Sum);
    one_slice_twice(Call::Sum);
}

#[test]
fn difference() {
    every_panel(Call::Difference);
    one_slice_twice(Call::Difference);
}

#[test]
fn binomial_product() {
    every_panel(Call::BinomialProduct);
    one_slice_twice(Call::BinomialProduct);
}
