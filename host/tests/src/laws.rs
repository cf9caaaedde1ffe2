//! Laws that tie calls together, on panels of every size.

use crate::calls::{assert_same, Call, Case};
use crate::random::{Fill, Random};
use crate::reference::{plus, times};

const PANELS: std::ops::RangeInclusive<u32> = 0..=16;
const MODULI: [u32; 8] = [4_294_967_295, 4_294_967_294, 4_294_967_291, 3_037_000_499, 2, 3, 6, 30030];

/// The result of an accepted call.
fn result(call: Call, n: u32, m: u32, inputs: &[&[u32]]) -> Vec<u32> {
    let outcome = call.run(&Case::new(call, n, m, inputs.iter().map(|input| input.to_vec()).collect()));
    assert_eq!(outcome.number, 0, "{call:?} with n = {n}, m = {m}");
    outcome.result
}

/// Shows `law` each panel, the larger ones with a large and a small modulus.
fn for_each_panel(mut law: impl FnMut(u32, u32, &mut Random)) {
    let random = &mut Random::new(19);
    for n in PANELS {
        for (i, m) in MODULI.into_iter().enumerate() {
            if n <= 10 || i as u32 % 4 == n % 4 {
                law(n, m, random);
            }
        }
    }
}

fn filled(fill: Fill, n: u32, m: u32, first: u32, random: &mut Random) -> Vec<u32> {
    let mut entries = fill.entries(1 << n, m, random);
    entries[0] = first;
    entries
}

fn table(n: u32, m: u32, first: u32, random: &mut Random) -> Vec<u32> {
    filled(Fill::Uniform, n, m, first, random)
}

fn row(n: u32, m: u32, random: &mut Random) -> Vec<u32> {
    Fill::Uniform.entries(n as usize + 1, m, random)
}

#[test]
fn exponential_of_a_sum_is_the_product_of_exponentials() {
    for_each_panel(|n, m, random| {
        let (a, b) = (table(n, m, 0, random), table(n, m, 0, random));
        let of_sum = result(Call::Exponential, n, m, &[&result(Call::Sum, n, m, &[&a, &b])]);
        let (of_a, of_b) = (result(Call::Exponential, n, m, &[&a]), result(Call::Exponential, n, m, &[&b]));
        assert_same(&of_sum, &result(Call::SubsetProduct, n, m, &[&of_a, &of_b]), || format!("n = {n}, m = {m}"));
    });
}

#[test]
fn logarithm_and_exponential_undo_each_other() {
    for_each_panel(|n, m, random| {
        let (a, e) = (table(n, m, 0, random), table(n, m, 1, random));
        let back = result(Call::Logarithm, n, m, &[&result(Call::Exponential, n, m, &[&a])]);
        assert_same(&back, &a, || format!("log exp, n = {n}, m = {m}"));
        let back = result(Call::Exponential, n, m, &[&result(Call::Logarithm, n, m, &[&e])]);
        assert_same(&back, &e, || format!("exp log, n = {n}, m = {m}"));
    });
}

#[test]
fn composition_turns_binomial_into_subset_products() {
    for_each_panel(|n, m, random| {
        let (a, f, g) = (table(n, m, 0, random), row(n, m, random), row(n, m, random));
        let with_product = result(Call::Composition, n, m, &[&a, &result(Call::BinomialProduct, n, m, &[&f, &g])]);
        let (with_f, with_g) = (result(Call::Composition, n, m, &[&a, &f]), result(Call::Composition, n, m, &[&a, &g]));
        assert_same(&with_product, &result(Call::SubsetProduct, n, m, &[&with_f, &with_g]), || format!("n = {n}, m = {m}"));
    });
}

#[test]
fn logarithm_of_a_product_is_the_sum_of_logarithms() {
    for_each_panel(|n, m, random| {
        for fill in [Fill::Uniform, Fill::Largest] {
            let (e, f) = (filled(fill, n, m, 1, random), filled(fill, n, m, 1, random));
            let of_product = result(Call::Logarithm, n, m, &[&result(Call::SubsetProduct, n, m, &[&e, &f])]);
            let (of_e, of_f) = (result(Call::Logarithm, n, m, &[&e]), result(Call::Logarithm, n, m, &[&f]));
            assert_same(&of_product, &result(Call::Sum, n, m, &[&of_e, &of_f]), || format!("{fill:?}, n = {n}, m = {m}"));
        }
    });
}

#[test]
fn inverse_of_an_exponential_is_the_exponential_of_zero_minus_the_table() {
    for_each_panel(|n, m, random| {
        for fill in [Fill::Uniform, Fill::Largest] {
            let (a, zeros) = (filled(fill, n, m, 0, random), vec![0; 1 << n]);
            let inverse = result(Call::Inverse, n, m, &[&result(Call::Exponential, n, m, &[&a])]);
            let difference = result(Call::Difference, n, m, &[&zeros, &a]);
            assert_same(&inverse, &result(Call::Exponential, n, m, &[&difference]), || format!("{fill:?}, n = {n}, m = {m}"));
        }
    });
}

#[test]
fn exponential_is_composition_with_ones() {
    for_each_panel(|n, m, random| {
        let a = table(n, m, 0, random);
        let with_ones = result(Call::Composition, n, m, &[&a, &vec![1; n as usize + 1]]);
        assert_same(&with_ones, &result(Call::Exponential, n, m, &[&a]), || format!("n = {n}, m = {m}"));
    });
}

#[test]
fn product_with_the_inverse_is_one_at_the_empty_set() {
    for_each_panel(|n, m, random| {
        for first in [1, m - 1] {
            let a = table(n, m, first, random);
            let inverse = result(Call::Inverse, n, m, &[&a]);
            let mut unit = vec![0; 1 << n];
            unit[0] = 1;
            assert_same(&result(Call::SubsetProduct, n, m, &[&a, &inverse]), &unit, || format!("n = {n}, m = {m}"));
        }
    });
}

#[test]
fn difference_undoes_the_sum() {
    for_each_panel(|n, m, random| {
        let (a, b) = (table(n, m, 0, random), table(n, m, 1, random));
        let sum = result(Call::Sum, n, m, &[&a, &b]);
        assert_same(&result(Call::Difference, n, m, &[&sum, &b]), &a, || format!("n = {n}, m = {m}"));
    });
}

/// For each row f, the sum of f[i] times the projection's entry i is the whole-panel entry of a times b composed with f.
#[test]
fn projection_sums_to_the_whole_panel_of_a_composition() {
    for_each_panel(|n, m, random| {
        let first = random.residue(m);
        let (a, b, f) = (table(n, m, first, random), table(n, m, 0, random), row(n, m, random));
        let projection = result(Call::Projection, n, m, &[&a, &b]);
        let sum = f.iter().zip(&projection).fold(0, |sum, (&x, &y)| plus(sum, times(x, y, m), m));
        let product = result(Call::SubsetProduct, n, m, &[&a, &result(Call::Composition, n, m, &[&b, &f])]);
        assert_eq!(sum, product[(1 << n) - 1], "n = {n}, m = {m}");
    });
}
