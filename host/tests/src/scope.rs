//! The specification's own examples: the twelve entries worked by hand, where composers slip, and the edges; and projections
//! and ceilings worked by hand.

use crate::calls::{Call, Case};
use crate::ffi;
use crate::reference::refusals::pad_length;

const P: [u32; 4] = [1, 2, 3, 4];
const Q: [u32; 4] = [5, 6, 7, 8];
const R: [u32; 4] = [0, 2, 3, 4];

/// The call on these inputs, the first of them a table or row that tells n, gives the result; returns the ceiling.
fn gives(call: Call, m: u32, inputs: &[&[u32]], expected: &[u32]) -> u32 {
    let n = match call {
        Call::BinomialProduct => inputs[0].len() as u32 - 1,
        _ => inputs[0].len().trailing_zeros(),
    };
    let outcome = call.run(&Case::new(call, n, m, inputs.iter().map(|input| input.to_vec()).collect()));
    assert_eq!((outcome.number, &outcome.result[..]), (0, expected), "{call:?} of {inputs:?}");
    outcome.ceiling
}

#[test]
fn entries_1_11_12_subset_product() {
    gives(Call::SubsetProduct, 101, &[&P, &Q], &[5, 16, 22, 60]);
    gives(Call::SubsetProduct, 5, &[&[3], &[4]], &[2]);
    assert_eq!(gives(Call::SubsetProduct, 101, &[&[0, 2, 0, 0], &[0, 3, 0, 0]], &[0; 4]), 255);
}

#[test]
fn entry_2_union_product() {
    gives(Call::UnionProduct, 101, &[&P, &Q], &[5, 28, 43, 83]);
}

#[test]
fn entry_3_xor_product() {
    gives(Call::XorProduct, 101, &[&P, &Q], &[70, 68, 62, 60]);
}

#[test]
fn entry_4_inverse() {
    gives(Call::Inverse, 101, &[&P], &[1, 99, 98, 8]);
}

#[test]
fn entries_5_9_10_exponential() {
    gives(Call::Exponential, 101, &[&R], &[1, 2, 3, 10]);
    gives(Call::Exponential, 101, &[&[0, 1, 1, 1, 1, 1, 1, 1]], &[1, 1, 1, 2, 1, 2, 2, 5]);
    gives(Call::Exponential, 2, &[&[0, 1, 1, 1]], &[1, 1, 1, 0]);
}

#[test]
fn entry_6_logarithm() {
    gives(Call::Logarithm, 101, &[&[1, 2, 3, 10]], &R);
}

#[test]
fn entry_7_composition() {
    gives(Call::Composition, 101, &[&R, &[1, 0, 5]], &[1, 0, 0, 30]);
}

#[test]
fn entry_8_binomial_product() {
    gives(Call::BinomialProduct, 101, &[&[1, 0, 5], &[1, 1, 1]], &[1, 1, 6]);
}

/// Of P and R: with no block, P's own 4; with one, 1 · 4 + 2 · 3 + 3 · 2; with two, 1 · 2 · 3.
#[test]
fn projection() {
    gives(Call::Projection, 101, &[&P, &R], &[4, 16, 6]);
    gives(Call::Projection, 5, &[&[3], &[0]], &[3]);
    gives(Call::Projection, 2, &[&[1, 1, 1, 1], &[0, 1, 1, 1]], &[1, 1, 1]);
    let largest = 4_294_967_294;
    gives(Call::Projection, 4_294_967_295, &[&[largest; 4], &[0, largest, largest, largest]], &[largest, 3, largest]);
}

/// Ranks cut too short leave overlapping pairs in; a ceiling of n every time is no ceiling.
#[test]
fn slips_of_the_subset_product() {
    assert_eq!(gives(Call::SubsetProduct, 101, &[&[0, 1, 0, 0], &[0, 1, 0, 0]], &[0; 4]), 255);
    assert_eq!(gives(Call::SubsetProduct, 101, &[&[1, 0], &[1, 0]], &[1, 0]), 0);
    assert_eq!(gives(Call::SubsetProduct, 101, &[&P, &P], &[1, 4, 6, 20]), 2);
}

/// The ceiling is that of the product: 255 if it is all zeros, whether an input is or not, and smaller where the entries of the
/// largest sets cancel under m. The last is of P and its inverse.
#[test]
fn ceiling_of_the_product() {
    let ceiling = |m, a: &[u32], b: &[u32], expected: &[u32]| gives(Call::SubsetProduct, m, &[a, b], expected);
    assert_eq!(ceiling(101, &[0; 4], &[0; 4], &[0; 4]), 255);
    assert_eq!(ceiling(101, &[0; 4], &P, &[0; 4]), 255);
    assert_eq!(ceiling(101, &P, &[0; 4], &[0; 4]), 255);
    assert_eq!(ceiling(101, &[0; 4], &[1, 0, 0, 0], &[0; 4]), 255);
    assert_eq!(ceiling(5, &[0], &[4], &[0]), 255);
    assert_eq!(ceiling(5, &[0], &[0], &[0]), 255);
    assert_eq!(ceiling(101, &[1, 0, 0, 0], &[1, 0, 0, 0], &[1, 0, 0, 0]), 0);
    assert_eq!(ceiling(101, &[0, 4, 0, 0, 0, 0, 0, 0], &[0, 0, 5, 0, 0, 0, 0, 0], &[0, 0, 0, 20, 0, 0, 0, 0]), 2);
    assert_eq!(ceiling(6, &[2], &[3], &[0]), 255);
    assert_eq!(ceiling(6, &[0, 2], &[3, 0], &[0, 0]), 255);
    assert_eq!(ceiling(101, &[0, 2, 3, 0], &[0, 2, 98, 0], &[0; 4]), 255);
    assert_eq!(ceiling(6, &[1, 0, 2, 0], &[1, 3, 0, 0], &[1, 3, 2, 0]), 1);
    assert_eq!(ceiling(101, &P, &[1, 99, 98, 8], &[1, 0, 0, 0]), 0);
}

/// A refusal has ceiling 0, also where the product would be all zeros.
#[test]
fn ceiling_of_a_refusal() {
    let answer = |m, pad: usize| ffi::subset_product(2, m, &[0; 4], &[0; 4], &mut [9; 4], &mut vec![9; pad]);
    assert_eq!(answer(101, 32), 255 << 32);
    assert_eq!(answer(101, 31), 4);
    assert_eq!(answer(1, 32), 2);
}

/// Under m = 3 with n = 3 no factorial can be divided by.
#[test]
fn slip_of_dividing_by_a_factorial() {
    for code in 0..3u32.pow(7) {
        let digit = |i| code / 3u32.pow(i) % 3;
        let case = |call, first| {
            let table = std::iter::once(first).chain((0..7).map(digit)).collect();
            Case::new(call, 3, 3, vec![table])
        };
        Call::Exponential.compare(&case(Call::Exponential, 0));
        Call::Logarithm.compare(&case(Call::Logarithm, 1));
    }
}

/// A difference goes round through m.
#[test]
fn slip_of_subtracting() {
    gives(Call::Difference, 101, &[&P, &Q], &[97; 4]);
    gives(Call::Difference, 4_294_967_295, &[&[0, 0], &[1, 4_294_967_294]], &[4_294_967_294, 1]);
    gives(Call::Difference, 2, &[&[0, 1], &[1, 1]], &[1, 0]);
}

/// n 16 is accepted, 17 refused; m 2 accepted, 1 refused; 4294967295 accepted, and no larger m can be lent; entry m − 1
/// accepted, m refused. With n = 0 a table has one entry.
#[test]
fn edges_of_panel_modulus_and_entry() {
    let number =
        |n: u32, m, length: usize, entry| ffi::sum(n, m, &vec![entry; length], &vec![0; length], &mut vec![9; length]);
    assert_eq!(number(16, 7, 1 << 16, 6), 0);
    assert_eq!(number(17, 7, 1 << 17, 6), 1);
    assert_eq!(number(2, 2, 4, 1), 0);
    assert_eq!(number(2, 1, 4, 0), 2);
    assert_eq!(number(2, 4_294_967_295, 4, 4_294_967_294), 0);
    assert_eq!(number(2, 4_294_967_295, 4, 4_294_967_295), 5);
    assert_eq!(number(2, 7, 4, 6), 0);
    assert_eq!(number(2, 7, 4, 7), 5);
    assert_eq!(number(0, 7, 1, 6), 0);
    assert_eq!(number(0, 7, 0, 6), 3);
    assert_eq!(number(0, 7, 2, 6), 3);
}

/// With n = 0 a row has one entry.
#[test]
fn edge_of_rows() {
    gives(Call::BinomialProduct, 5, &[&[3], &[4]], &[2]);
    assert_eq!(ffi::binomial_product(0, 5, &[3, 0], &[4], &mut [9]), 3);
    assert_eq!(ffi::binomial_product(0, 5, &[3], &[], &mut [9]), 3);
}

/// Pad W is accepted, W − 1 refused.
#[test]
fn edge_of_the_pad() {
    for n in [0, 1, 2, 3, 8, 16] {
        let table = vec![1; 1 << n];
        let number = |pad: usize| {
            let answer = ffi::subset_product(n, 7, &table, &table, &mut vec![9; 1 << n], &mut vec![9; pad]);
            answer as u32
        };
        assert_eq!(number(pad_length(n)), 0);
        assert_eq!(number(pad_length(n) - 1), 4);
    }
    assert_eq!(pad_length(2), 32);
}

/// The group bytes 80 00 are refused, and so is an empty file.
#[test]
fn edges_of_files() {
    assert_eq!(ffi::header_check(&[0x80, 0x00, 7]), 8 << 40);
    assert_eq!(ffi::header_check(&[]), 8 << 40);
    assert_eq!(ffi::header_check(&[2, 7]), 2 << 32 | 7);
    assert_eq!(ffi::header_check(&[16, 0xff, 0xff, 0xff, 0xff, 0x0f]), 16 << 32 | 4_294_967_295);
    assert_eq!(ffi::header_check(&[16, 0x80, 0x80, 0x80, 0x80, 0x10]), 8 << 40);
}

#[test]
fn edges_of_the_reader() {
    let table = &mut [9; 4];
    assert_eq!(ffi::read_table(&[], table), 8 << 40);
    assert_eq!(ffi::read_table(&[2, 7, 0, 0x80, 0x00, 3, 0], table), 8 << 40);
    assert_eq!(*table, [9; 4]);
    assert_eq!(ffi::read_table(&[2, 7, 0, 3, 0, 5], table), 2 << 32 | 7);
    assert_eq!(*table, [0, 3, 0, 5]);
    let largest = [0, 0xff, 0xff, 0xff, 0xff, 0x0f];
    let entry = |lowest| [&largest[..], &[lowest, 0xff, 0xff, 0xff, 0x0f]].concat();
    assert_eq!(ffi::read_table(&entry(0xfe), &mut table[..1]), 4_294_967_295);
    assert_eq!(*table, [4_294_967_294, 3, 0, 5]);
    assert_eq!(ffi::read_table(&entry(0xff), &mut table[..1]), 5 << 40);
    assert_eq!(*table, [4_294_967_294, 3, 0, 5]);
}

/// First numbers 0 to 16 are full files and 32 to 48 sparse ones; all others are refused (1). A gap to code 2^n − 1 is
/// accepted, to 2^n refused (15); value m − 1 accepted, 0 (16) and m (5) refused.
#[test]
fn edges_of_sparse_files() {
    let header = |first| ffi::header_check(&[first, 7]);
    assert_eq!([16, 17, 31, 32, 48, 49].map(header), [16 << 32 | 7, 1 << 40, 1 << 40, 7, 16 << 32 | 7, 1 << 40]);
    let table = &mut [9; 4];
    for (gap, value, word) in [(4, 6, 15), (3, 0, 16), (3, 7, 5)] {
        assert_eq!(ffi::read_table(&[34, 7, 1, gap, value], table), word << 40);
        assert_eq!(*table, [9; 4]);
    }
    assert_eq!(ffi::read_table(&[34, 7, 1, 3, 6], table), 2 << 32 | 7);
    assert_eq!(*table, [0, 0, 0, 6]);
}
