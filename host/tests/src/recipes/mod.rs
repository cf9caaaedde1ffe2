//! Recipes against the independent implementation: what they are lent, and how all outcomes are compared.

mod lines;
mod making;
mod panels;
mod refusals;
mod signs;

use std::borrow::Borrow;

use crate::calls::{assert_same, Call, Case};
use crate::ffi;
use crate::lent::Lent;
use crate::random::{Fill, Random};
use crate::reference::greatest_common_divisor;
use crate::reference::recipes::{recipe_pad_length, Given, Outcome};

/// Odd and even, prime and not.
const MODULI: [u32; 14] =
    [2, 3, 4, 6, 9, 15, 101, 256, 30030, 998_244_353, 3_037_000_499, 4_294_967_291, 4_294_967_294, 4_294_967_295];

/// Four tables of any residues but for first entries: 0 in A, 1 in B, and in C one that shares no divisor above 1 with m.
fn tables(n: u32, m: u32, random: &mut Random) -> [Vec<u32>; 4] {
    let mut tables = [(); 4].map(|_| Fill::Uniform.entries(1 << n, m, random));
    tables[0][0] = 0;
    tables[1][0] = 1;
    while greatest_common_divisor(tables[2][0], m) > 1 {
        tables[2][0] = random.residue(m);
    }
    tables
}

/// Such openings, the text and as many closings.
fn nested(openings: &[impl Borrow<str>], text: &str) -> String {
    openings.concat() + text + &")".repeat(openings.len())
}

/// Lends those tables, a result and a longer pad that are full of any numbers.
fn given(n: u32, m: u32, line: impl AsRef<[u8]>, random: &mut Random) -> Given {
    let tables = tables(n, m, random);
    let mut words = |length| (0..length).map(|_| random.word()).collect();
    Given { n, m, line: line.as_ref().to_vec(), tables, result: words(1 << n), pad: words(recipe_pad_length(n) + 7) }
}

/// Makes the recipe between guards; inputs stay. The line has this byte before and behind it.
fn make_between(given: &Given, byte: u8) -> Outcome {
    let guarded = |contents: &[u32], before| Lent::new(contents, 0xa5a5_5a5a, before);
    let line = Lent::new(&given.line, byte, 3);
    let tables = [0, 1, 2, 3].map(|i| guarded(&given.tables[i], i));
    let (mut result, mut pad) = (guarded(&given.result, 3), guarded(&given.pad, 2));

    let lent = [0, 1, 2, 3].map(|i| tables[i].slice());
    let number = ffi::recipe(given.n, given.m, line.slice(), lent, result.slice_mut(), pad.slice_mut());

    line.check_unchanged_from(0, "line of a recipe");
    tables.iter().for_each(|table| table.check_unchanged_from(0, "table of a recipe"));
    result.check_guards("result of a recipe");
    pad.check_guards("pad of a recipe");
    Outcome { number, result: result.slice().to_vec(), pad: pad.slice().to_vec() }
}

fn make(given: &Given) -> Outcome {
    make_between(given, b')')
}

/// Makes the recipe and compares number, result and pad; the number.
fn compare(given: &Given) -> u32 {
    compare_between(given, b')')
}

fn compare_between(given: &Given, byte: u8) -> u32 {
    let found = make_between(given, byte);
    check(given, &found, &given.outcome());
    found.number
}

fn check(given: &Given, found: &Outcome, expected: &Outcome) {
    let Given { n, m, line, .. } = given;
    let about = |what: &str| format!("{what} of {} with n = {n}, m = {m}", line.escape_ascii());
    assert_eq!(found.number, expected.number, "{}", about("number"));
    assert_same(&found.result, &expected.result, || about("result"));
    assert_same(&found.pad, &expected.pad, || about("pad"));
}

/// What a call by itself gives, made through C: its table or its word.
fn by_itself(call: Call, n: u32, m: u32, inputs: Vec<Vec<u32>>) -> Result<Vec<u32>, u32> {
    let outcome = call.run(&Case::new(call, n, m, inputs));
    match outcome.number {
        0 => Ok(outcome.result),
        word => Err(word),
    }
}
