//! What the signs and functions mean and in which order they are worked.

use super::{by_itself, check, compare, given, make, tables, MODULI};
use crate::calls::{assert_same, Call};
use crate::ffi;
use crate::random::Random;
use crate::reference::recipes::{Given, Outcome};

/// Each sign, its call, and how tightly it binds.
const SIGNS: [(char, Call, u32); 5] = [
    ('*', Call::SubsetProduct, 3),
    ('|', Call::UnionProduct, 2),
    ('^', Call::XorProduct, 2),
    ('+', Call::Sum, 1),
    ('-', Call::Difference, 1),
];

/// Worked by hand from the specification's own entries: A, B and C are its P, Q and R.
#[test]
fn worked_by_hand() {
    let tables = [[1, 2, 3, 4], [5, 6, 7, 8], [0, 2, 3, 4], [1, 2, 3, 10]];
    for (line, expected) in [
        ("A", [1, 2, 3, 4]),
        ("B", [5, 6, 7, 8]),
        ("C", [0, 2, 3, 4]),
        ("D", [1, 2, 3, 10]),
        ("A*B", [5, 16, 22, 60]),
        ("A|B", [5, 28, 43, 83]),
        ("A^B", [70, 68, 62, 60]),
        ("A+B", [6, 8, 10, 12]),
        ("A-B", [97, 97, 97, 97]),
        ("exp(C)", [1, 2, 3, 10]),
        ("log(D)", [0, 2, 3, 4]),
        ("inv(A)", [1, 99, 98, 8]),
        ("A*B+exp(C)", [6, 18, 25, 70]),
        ("A*(B+exp(C))", [6, 20, 28, 86]),
        ("A-B-C", [97, 95, 94, 93]),
        ("A-(B-C)", [97, 99, 100, 0]),
        ("exp(log(D))-D", [0, 0, 0, 0]),
        ("A*inv(A)", [1, 0, 0, 0]),
        ("((A))", [1, 2, 3, 4]),
    ] {
        let given = Given { tables: tables.map(|table| table.to_vec()), ..given(2, 101, line, &mut Random::new(51)) };
        let outcome = make(&given);
        assert_eq!((outcome.number, &outcome.result[..]), (0, &expected[..]), "{line}");
        assert_eq!(compare(&given), 0);
    }
}

/// `A s B t C` for every pair of signs: next to the two calls made one by one, in the order that the signs ask for and in
/// the other. Only `+` before `+` or `-`, and products of one kind, do not tell the two orders apart.
#[test]
fn every_pair_of_signs() {
    let random = &mut Random::new(52);
    for (n, m) in [(2, 101), (3, 4_294_967_295), (4, 30030), (5, 4_294_967_294)] {
        let odd = |call: Call| m % 2 == 1 || call != Call::XorProduct;
        for (s, first, binds) in SIGNS.into_iter().filter(|sign| odd(sign.1)) {
            for (t, second, next_binds) in SIGNS.into_iter().filter(|sign| odd(sign.1)) {
                let tables = tables(n, m, random);
                let of = |call, a: &[u32], b: &[u32]| by_itself(call, n, m, vec![a.to_vec(), b.to_vec()]).unwrap();
                let [a, b, c, _] = &tables;
                let left_first = of(second, &of(first, a, b), c);
                let right_first = of(first, a, &of(second, b, c));
                let alike = (s == t && s != '-') || (s, t) == ('+', '-');
                assert_eq!(left_first == right_first, alike, "{s} and {t}");

                let expected = if next_binds > binds { &right_first } else { &left_first };
                for (line, expected) in [
                    (format!("A{s}B{t}C"), expected),
                    (format!("(A{s}B){t}C"), &left_first),
                    (format!("A{s}(B{t}C)"), &right_first),
                ] {
                    let given = Given { tables: tables.clone(), ..given(n, m, &line, random) };
                    assert_same(&make(&given).result, expected, || format!("{line} with n = {n}, m = {m}"));
                    assert_eq!(compare(&given), 0);
                }
            }
        }
    }
}

#[test]
fn every_three_signs() {
    let random = &mut Random::new(53);
    for (s, t, u) in SIGNS.iter().flat_map(|s| SIGNS.iter().flat_map(move |t| SIGNS.iter().map(move |u| (s.0, t.0, u.0)))) {
        for (n, m) in [(1, 15), (3, 4_294_967_291)] {
            for line in [format!("A{s}B{t}C{u}D"), format!("D{s}(C{t}B){u}A"), format!("C{s}(B{t}A{u}D)")] {
                assert_eq!(compare(&given(n, m, line, random)), 0);
            }
        }
    }
}

/// A function takes all that stands in its parentheses and nothing else.
#[test]
fn functions_next_to_signs() {
    let random = &mut Random::new(54);
    for (sign, call, _) in SIGNS {
        for m in MODULI {
            let accepted = if call == Call::XorProduct && m % 2 == 0 { 7 } else { 0 };
            for (function, letter) in [("exp", 'A'), ("log", 'B'), ("inv", 'C')] {
                for line in [
                    format!("{function}({letter}){sign}D"),
                    format!("D{sign}{function}({letter})"),
                    format!("{function}({letter}){sign}{function}({letter}){sign}D"),
                ] {
                    assert_eq!(compare(&given(3, m, line, random)), accepted);
                }
                compare(&given(3, m, format!("{function}({letter}{sign}{letter})"), random));
            }
        }
    }
}

/// One slice may be lent for all four tables.
#[test]
fn one_slice_four_times() {
    let random = &mut Random::new(55);
    for (n, line) in [(0, "A*B+C|D"), (3, "A-B*C+D|A"), (7, "exp(A)*B-inv(C*D+exp(B))")] {
        let given = given(n, 4_294_967_295, line, random);
        let table = given.tables[0].clone();
        let same = Given { tables: [(); 4].map(|_| table.clone()), ..given };
        let (mut result, mut pad) = (same.result.clone(), same.pad.clone());
        let number = ffi::recipe(n, same.m, line.as_bytes(), [&table[..]; 4], &mut result, &mut pad);
        assert_eq!(number, 0);
        check(&same, &Outcome { number, result, pad }, &same.outcome());
    }
}
