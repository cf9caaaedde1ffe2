//! Recipes on panels of every size, recipes with as many operands waiting as can be, and recipes made at random.

use super::making::{line, recipe};
use super::{by_itself, check, compare, given, make, nested, MODULI};
use crate::random::Random;
use crate::reference::recipes::{recipe_pad_length, Given, Outcome, Recipe};

/// With every sign and function, for odd moduli; for even ones without the xor product.
const EVERYTHING: &str = "exp(A)*inv(C)|log(B)^D+A*(D-B)";
const WITHOUT_XOR: &str = "A*log(exp(A)+A)-(inv(B-A)|C)+D*B";

/// The number, the result and the pad, by the calls made through C one by one.
fn compare_with_calls(given: &Given) -> u32 {
    let Given { n, m, tables, .. } = given;
    let recipe = given.tested().expect("a recipe");
    let worth = recipe.worked(tables, &mut |call, inputs| by_itself(call, *n, *m, inputs));
    let mut pad = given.pad.clone();
    pad[..recipe_pad_length(*n)].fill(0);
    let expected = match worth {
        Ok(result) => Outcome { number: 0, result, pad },
        Err(number) => Outcome { number, result: given.result.clone(), pad },
    };
    check(given, &make(given), &expected);
    expected.number
}

#[test]
fn every_panel_by_definition() {
    let random = &mut Random::new(70);
    for n in 0..=12 {
        for m in [3, 30030, 3_037_000_499, 4_294_967_294, 4_294_967_295] {
            if n <= 9 || m > 4_000_000_000 {
                let line = if m % 2 == 1 { EVERYTHING } else { WITHOUT_XOR };
                assert_eq!(compare(&given(n, m, line, random)), 0);
            }
        }
    }
}

#[test]
fn every_panel_by_the_calls() {
    let random = &mut Random::new(71);
    for n in 0..=16 {
        for (m, line, number) in [
            (4_294_967_295, EVERYTHING, 0),
            (4_294_967_294, WITHOUT_XOR, 0),
            (4_294_967_291, "A+log(B)-exp(B)", 6),
            (4_294_967_294, "A|B-C^D", 7),
        ] {
            assert_eq!(compare_with_calls(&given(n, m, line, random)), number);
        }
    }
}

/// What result and pad held beforehand does not matter, nor how much longer the pad is.
#[test]
fn whatever_was_lent() {
    let random = &mut Random::new(72);
    for n in 0..=8 {
        for tail in [0, 1, 1000] {
            let lent = given(n, 4_294_967_295, EVERYTHING, random);
            let mut any = |length| (0..length).map(|_| random.word()).collect::<Vec<_>>();
            let (words, pad) = (any(1 << n), any(recipe_pad_length(n) + tail));
            for (result, pad) in [
                (words, pad.clone()),
                (vec![0; 1 << n], vec![0; pad.len()]),
                (vec![u32::MAX; 1 << n], vec![u32::MAX; pad.len()]),
                (lent.tables[3].clone(), vec![1; pad.len()]),
            ] {
                assert_eq!(compare(&Given { result, pad, ..lent.clone() }), 0);
            }
        }
    }
}

/// Three operands wait at each of eight levels, four are in the last: 28 tables at once, in parentheses or in functions.
#[test]
fn most_operands_waiting() {
    let random = &mut Random::new(73);
    let mut lines = vec![
        nested(&["A+B|C*("; 8], "A+B|C*D"),
        nested(&["D-B|A*("; 8], "C-A|D*B"),
        nested(&["D-C|B*(", "(", "A+D|C*(", "D-A|B*(", "B+C|D*(", "(", "C-B|D*(", "A-D|B*("], "D-B|C*A"),
    ];
    // Inside of each exponential the first entry is 0, inside of each logarithm and inverse 1.
    for functions in
        [["exp("; 8], ["log("; 8], ["inv("; 8], ["exp(", "log(", "inv(", "exp(", "inv(", "log(", "log(", "exp("]]
    {
        let waiting = |i: usize| if i > 0 && functions[i - 1] == "exp(" { "A+B|A*" } else { "B+A|C*" };
        let openings: Vec<_> = (0..8).map(|i| waiting(i).to_string() + functions[i]).collect();
        lines.push(nested(&openings, &(waiting(8).to_string() + "D")));
    }
    for (n, m) in [(0, 15), (1, 4_294_967_295), (2, 2), (3, 4_294_967_291), (5, 30030), (8, 4_294_967_294)] {
        for line in &lines {
            assert_eq!(compare(&given(n, m, line, random)), 0);
            let xor = line.replace('|', "^");
            assert_eq!(compare(&given(n, m, xor, random)) == 7, m % 2 == 0);
        }
    }
    for (n, line) in [(14, &lines[0]), (16, &nested(&["A-B|("; 8], "C-D^B"))] {
        assert_eq!(compare_with_calls(&given(n, 4_294_967_295, line, random)), 0);
    }
}

/// A recipe from the grammar, written as a line, is read as that recipe; and all outcomes are compared.
#[test]
fn random_recipes() {
    let random = &mut Random::new(74);
    let mut seen = [0; 15];
    for i in 0..3000 {
        let (n, m) = (i % 6, *random.pick(&MODULI));
        let calls = random.below(40);
        let xor = m % 2 == 1 || random.below(8) == 0;
        let recipe = recipe(calls, xor, random);
        let line = line(&recipe, random);
        if let Ok(read) = Recipe::read(&line) {
            assert_eq!(read, recipe, "{}", line.escape_ascii());
        }
        let lent = given(n, m, line, random);
        seen[compare(&lent) as usize] += 1;
        if i % 8 == 0 && lent.tested().is_ok() {
            compare_with_calls(&lent);
        }
    }
    assert!(seen[0] > 1000 && [6, 7, 13, 14].iter().all(|number| seen[*number] > 30), "{seen:?}");
}
