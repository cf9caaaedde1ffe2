//! Every refusal of a recipe, alone and in company; which call is refused first; and what is left of result and pad.

use super::{check, compare, given, make};
use crate::random::Random;
use crate::reference::recipes::{recipe_pad_length, Given, Outcome};
use crate::reference::refusals::pad_length;

// ---- the words in their order

/// Something wrong with what is given, and the number of the refusal it calls for.
type Damage = (u32, Box<dyn Fn(&mut Given)>);

/// The numbers in the order in which they count.
const ORDER: [u32; 9] = [1, 2, 3, 4, 13, 14, 5, 6, 7];

/// All damages, the last to count first: one that comes earlier spoils none that follows.
fn damages(n: u32) -> Vec<Damage> {
    let mut all: Vec<Damage> = vec![(
        7,
        Box::new(|given| {
            given.m -= 1;
            given.tables.iter_mut().flatten().for_each(|entry| *entry %= given.m);
            given.line = b"C*D-A^B".to_vec();
        }),
    )];
    let lines = |word: u32, lines: &[String]| -> Vec<Damage> {
        let of_line = |line: &String| -> Damage {
            let line = line.clone().into_bytes();
            (word, Box::new(move |given| given.line = line.clone()))
        };
        lines.iter().map(of_line).collect()
    };
    all.extend(lines(6, &["A+exp(B)".into(), "D-log(A)*C".into()]));
    let length = 1usize << n;
    for table in 0..4 {
        for index in [0, length / 2, length - 1] {
            all.push((5, Box::new(move |given| given.tables[table][index] = given.m)));
            all.push((5, Box::new(move |given| given.tables[table][index] = u32::MAX)));
        }
    }
    let nested = |opened, closed| "(".repeat(opened) + "A" + &")".repeat(closed);
    all.extend(lines(14, &[nested(9, 9), nested(59, 59), format!("exp(B)+{}", nested(9, 9))]));
    all.extend(lines(13, &["".into(), "A+".into(), nested(9, 8), nested(60, 60), "exp(B)+exp".into(), "A".repeat(70_000)]));
    for short in [recipe_pad_length(n) - 1, pad_length(n), 0] {
        all.push((4, Box::new(move |given| given.pad.truncate(short))));
    }
    for wrong in [length + 1, length - 1, 0, 2 * length] {
        for table in 0..4 {
            all.push((3, Box::new(move |given| given.tables[table].resize(wrong, 0))));
        }
        all.push((3, Box::new(move |given| given.result.resize(wrong, 0))));
    }
    for m in [0, 1] {
        all.push((2, Box::new(move |given| given.m = m)));
    }
    for n in [17, 18, 32, 33, 64, u32::MAX] {
        all.push((1, Box::new(move |given| given.n = n)));
    }
    all
}

/// Only success and the refusal of a call, 6 or 7, alter something: the pad that is used is 0; a refusal leaves the result.
fn check_left(given: &Given, after: &Outcome) {
    let cleared = if [0, 6, 7].contains(&after.number) { recipe_pad_length(given.n) } else { 0 };
    assert!(after.pad[..cleared].iter().all(|entry| *entry == 0), "number {}", after.number);
    assert!(after.pad[cleared..] == given.pad[cleared..], "number {}", after.number);
    assert!(after.number == 0 || after.result == given.result, "number {}", after.number);
}

/// Makes the recipe with these damages; the first in the order counts.
fn try_damaged(whole: &Given, inflicted: &[&Damage]) {
    let mut damaged = whole.clone();
    inflicted.iter().for_each(|(_, inflict)| inflict(&mut damaged));
    let first = ORDER.into_iter().find(|word| inflicted.iter().any(|(inflicted, _)| inflicted == word)).unwrap_or(0);
    let after = make(&damaged);
    check(&damaged, &after, &damaged.outcome());
    assert_eq!(after.number, first);
    check_left(&damaged, &after);
}

#[test]
fn every_refusal() {
    let random = &mut Random::new(62);
    for n in [0, 1, 2, 4] {
        for m in [3, 101, 4_294_967_295] {
            let whole = given(n, m, "A*B+exp(A)|C^D", random);
            let damages = damages(n);
            try_damaged(&whole, &[]);
            for (i, first) in damages.iter().enumerate() {
                try_damaged(&whole, &[first]);
                for second in &damages[i + 1..] {
                    try_damaged(&whole, &[first, second]);
                }
            }
            for _ in 0..100 {
                let several: Vec<_> = damages.iter().filter(|_| random.below(8) == 0).collect();
                try_damaged(&whole, &several);
            }
        }
    }
}

#[test]
fn refusals_on_the_largest_panel() {
    let random = &mut Random::new(63);
    let whole = given(16, 101, "A+B-C", random);
    let damages = damages(16);
    for word in ORDER {
        let of_word: Vec<_> = damages.iter().filter(|damage| damage.0 == word).collect();
        for _ in 0..3 {
            try_damaged(&whole, &[*random.pick(&of_word)]);
        }
    }
}

/// Lengths that would be right for a panel too large do not change its refusal.
#[test]
fn seventeen_controls() {
    let mut too_large = given(1, 101, "A", &mut Random::new(64));
    too_large.n = 17;
    too_large.tables.iter_mut().chain([&mut too_large.result]).for_each(|table| table.resize(1 << 17, 7));
    too_large.pad.resize(recipe_pad_length(17), 7);
    let after = make(&too_large);
    assert_eq!(after.number, 1);
    check_left(&too_large, &after);
}

/// A pad of W + 32 · 2^n entries is enough; one less is not, and W, enough for the calls, is not.
#[test]
fn edge_of_the_pad() {
    let random = &mut Random::new(65);
    assert_eq!((recipe_pad_length(0), recipe_pad_length(2), recipe_pad_length(16)), (36, 160, 4_456_448));
    for n in 0..=16 {
        let mut lent = given(n, 4_294_967_295, "A-B|C", random);
        for (length, number) in [(recipe_pad_length(n), 0), (recipe_pad_length(n) - 1, 4), (pad_length(n), 4)] {
            lent.pad.truncate(length);
            let after = make(&lent);
            assert_eq!(after.number, number, "n = {n}, pad of {length}");
            check_left(&lent, &after);
        }
    }
}

/// The entries of every table are looked at, used or not, after the line is read.
#[test]
fn entries_of_tables_that_are_not_used() {
    let random = &mut Random::new(66);
    for m in [2, 101, 4_294_967_295] {
        for (line, word) in [("A", 5), ("B", 5), ("C", 5), ("D", 5), ("A|B-C*D", 5), ("exp(B)", 5), ("A^B", 5), ("E", 13)] {
            let whole = given(2, m, line, random);
            for (table, index) in (0..4).flat_map(|table| (0..4).map(move |index| (table, index))) {
                let mut damaged = whole.clone();
                damaged.tables[table][index] = m;
                assert_eq!(compare(&damaged), word, "{line} with a wrong entry {index} in table {table}");
            }
        }
    }
}

// ---- the calls' own refusals

/// Under an even modulus: 6 and 7 tell which of two calls comes first.
#[test]
fn the_first_call_that_refuses() {
    let random = &mut Random::new(67);
    for (line, number) in [
        // one call
        ("A^B", 7),
        ("exp(B)", 6),
        ("exp(C)", 6),
        ("log(A)", 6),
        ("inv(A)", 6),
        ("inv(D)", 6),
        // the left operand is worked before the right
        ("exp(B)+(A^B)", 6),
        ("(A^B)+exp(B)", 7),
        ("A^B-log(A)", 7),
        ("log(A)-A^B", 6),
        ("inv(D)*(A^B)", 6),
        ("(A^B)*inv(D)", 7),
        ("(A^B)|exp(B)", 7),
        ("A*B+C|D-A^C+exp(B)", 7),
        ("A*B+C|D-exp(B)+A^C", 6),
        ("(A+B*(C^D))-(A+inv(D))", 7),
        ("(A+B*inv(D))-(A+B*(C^D))", 6),
        // both operands before their sign, whatever its first operand is
        ("exp(B)^A", 6),
        ("A^exp(B)", 6),
        ("A|B^inv(D)", 6),
        ("A|exp(B)^C", 6),
        ("A^B^exp(B)", 7),
        ("A^(B+exp(B))", 6),
        ("A^B*log(A)", 6),
        ("exp(A)^exp(B)", 6),
        // what is inside comes first
        ("exp(A^B)", 7),
        ("exp(B^C)", 7),
        ("inv(D^A)", 7),
        ("log(exp(B)^A)", 6),
        ("exp(log(A))", 6),
        ("exp(B+(A^C))", 7),
        ("(exp(log(inv(D)*(A^B))))", 6),
        ("(exp(log((A^B)*inv(D))))", 7),
        ("exp(B)*A^C", 6),
        // accepted calls before and behind
        ("exp(A)*log(B)+inv(C)-A^B", 7),
        ("exp(A)*log(B)+inv(C)-log(C-C)", 6),
        ("A^B+exp(A)*log(B)+inv(C)", 7),
        ("log(B+B)-exp(A)*log(B)+inv(C)", 6),
        // none
        ("exp(A)*log(B)+inv(C)|D", 0),
    ] {
        for (n, m) in [(0, 4), (1, 30030), (2, 6), (3, 256), (3, 4_294_967_294)] {
            let mut lent = given(n, m, line, random);
            // The inverse does not take D; C's first entry is neither 0 nor 1.
            lent.tables[3][0] = 2;
            lent.tables[2][0] = m - 1;
            assert_eq!(compare(&lent), number, "{line} with n = {n}, m = {m}");
            check_left(&lent, &make(&lent));
        }
    }
}

/// The same line without an xor product is accepted under every even modulus, and with one under every odd one.
#[test]
fn even_moduli() {
    let random = &mut Random::new(68);
    for m in super::MODULI {
        for line in ["A^B", "A*B^C+D", "exp(A)^inv(C)", "D-A^B*C", "inv(C+(A^B-(B^A)))", "A|B^C", "log(B)^A|D"] {
            assert_eq!(compare(&given(3, m, line, random)), if m % 2 == 0 { 7 } else { 0 }, "{line}, m = {m}");
            for sign in ["|", "*", "+"] {
                assert_eq!(compare(&given(3, m, line.replace('^', sign), random)), 0, "{line} by {sign}, m = {m}");
            }
        }
    }
}

/// Which first entries the functions take, for every modulus up to 40, lent or worked out; by the divisors themselves.
#[test]
fn every_first_entry() {
    let random = &mut Random::new(69);
    for m in 2..=40 {
        for first in 0..m {
            let shares = (2..=m).any(|d| m % d == 0 && first % d == 0);
            for (function, taken) in [("exp", first == 0), ("log", first == 1), ("inv", !shares)] {
                for inside in ["D", "(D)", "D+A", "B*D", "D|B", "D-A*C"] {
                    let mut lent = given(2, m, format!("{function}({inside})"), random);
                    lent.tables[3][0] = first;
                    assert_eq!(compare(&lent) == 0, taken, "{function}({inside}) with first entry {first}, m = {m}");
                }
            }
        }
    }
}
