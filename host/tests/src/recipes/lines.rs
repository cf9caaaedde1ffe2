//! Which lines are recipes: those outside of the grammar or too long are 13, those that nest too deep 14.

use super::making::{line, recipe};
use super::{compare, compare_between, given, nested};
use crate::random::Random;
use crate::reference::recipes::{Given, LONGEST};

const M: u32 = 4_294_967_295;

/// The number of each line is this one, and all else is as it shall be.
fn all_have(number: u32, lines: &[impl AsRef<[u8]>]) {
    let random = &mut Random::new(56);
    for line in lines.iter().map(AsRef::as_ref) {
        assert_eq!(compare(&given(2, M, line, random)), number, "{}", line.escape_ascii());
    }
}

// ---- outside of the grammar

#[test]
fn empty_or_unfinished() {
    all_have(
        13,
        &["", "(", ")", "()", "(A", "A)", "((A)", "(A))", ")A(", "A)(B", "A+(B", "(A+)B", "A(+B)", "(A+)", "(+A)", "(*)"],
    );
    all_have(13, &["+", "A+", "A-", "A*", "A|", "A^", "+A", "-A", "*A", "|A", "^A", "-(A)", "A*(-B)", "exp(-A)"]);
    all_have(13, &["A**B", "A||B", "A^^B", "A++B", "A--B", "A+-B", "A*-B", "A|^B", "A-*B", "A*B+", "A*(B+)", "A+()"]);
}

#[test]
fn operands_without_a_sign() {
    all_have(
        13,
        &["AB", "A(B)", "(A)B", "(A)(B)", "exp(A)B", "Bexp(A)", "exp(A)exp(A)", "exp(A)(B)", "(B)exp(A)", "AA", "ABCD"],
    );
}

#[test]
fn blanks() {
    all_have(
        13,
        &[" ", " A", "A ", "A B", "A +B", "A+ B", "A * B", "( A)", "(A )", "exp (A)", "exp( A)", "e xp(A)", "exp(A) "],
    );
    all_have(13, &["\tA", "A\t", "A\n", "\nA", "A\r\n", "A+\nB", "A\0", "\0A", "\0", "\u{a0}A"]);
}

#[test]
fn lower_case_and_other_bytes() {
    all_have(
        13,
        &["a", "b", "c", "d", "a*b", "A+b", "exp(a)", "E", "Z", "@", "A*E", "x", "1", "A1", "2*A", "A+1", "A/B", "A&B"],
    );
    all_have(13, &["A,B", "[A]", "{A}", "A;", "A=B", "A.B", "A~B", "A\u{d7}B", "A\u{2212}B", "\u{391}", "_", "A'", "A!"]);
    let bytes = (0..=255).filter(|byte| !(b'A'..=b'D').contains(byte)).map(|byte| [byte]).collect::<Vec<_>>();
    all_have(13, &bytes);
}

#[test]
fn functions_that_are_none() {
    for function in ["exp", "log", "inv"] {
        let upper = function.to_uppercase();
        let (short, first) = (&function[..2], &upper[..1]);
        let rest = &function[1..];
        for line in [
            function.to_string(),
            format!("{function}A"),
            format!("{function}("),
            format!("{function})"),
            format!("{function}()"),
            format!("{function}(A"),
            format!("{function}A)"),
            format!("{function}(A))"),
            format!("{function}((A)"),
            format!("{function}+A"),
            format!("{function}*(A)"),
            format!("A*{function}"),
            format!("({function})(A)"),
            format!("{function}{function}(A)"),
            format!("{function}(A,B)"),
            format!("{function}(A)({function}(A))"),
            format!("{upper}(A)"),
            format!("{first}{rest}(A)"),
            format!("{short}(A)"),
            format!("{rest}(A)"),
            format!("{function}{}(A)", &rest[1..]),
        ] {
            all_have(13, &[line]);
        }
    }
    all_have(
        13,
        &["elp(A)", "eog(A)", "lxp(B)", "inp(C)", "exv(A)", "lov(B)", "ing(C)", "exg(A)", "sin(A)", "log2(B)", "e(A)"],
    );
}

// ---- nesting

/// Parentheses around a letter: up to 8 are accepted, 59 have 119 bytes, and 60 are too many bytes.
#[test]
fn every_depth_of_parentheses() {
    for depth in 0..=70 {
        let number = match depth {
            0..=8 => 0,
            9..=59 => 14,
            _ => 13,
        };
        all_have(number, &[nested(&vec!["("; depth], "A")]);
    }
}

/// The parentheses of the functions count too. Exponential and logarithm in turn are accepted, and so is an inverse of an inverse.
#[test]
fn every_depth_of_functions() {
    for depth in 1..=30 {
        let number = |accepted| match depth {
            0..=8 => accepted,
            9..=23 => 14,
            _ => 13,
        };
        let in_turn = |outer: &'static str, inner: &'static str| -> Vec<&str> {
            (0..depth).rev().map(|i| if i % 2 == 0 { inner } else { outer }).collect()
        };
        all_have(number(0), &[nested(&vec!["inv("; depth], "C")]);
        all_have(number(0), &[nested(&in_turn("log(", "exp("), "A"), nested(&in_turn("exp(", "log("), "B")]);
        // The second exponential, of a table with first entry 1, and the second logarithm are refused.
        let refused = if depth == 1 { 0 } else { 6 };
        all_have(number(refused), &[nested(&vec!["exp("; depth], "A"), nested(&vec!["log("; depth], "B")]);
    }
    // 120 bytes in all
    let (one, many) = ([&["exp("][..], &["("; 57]].concat(), [&["("; 2][..], &["inv("; 23]].concat());
    for line in [nested(&one, "A"), nested(&many, "C")] {
        assert_eq!(line.len(), 120);
        all_have(14, &[line]);
    }
}

#[test]
fn parentheses_side_by_side_do_not_add_up() {
    let eight = |letter| nested(&["("; 8], letter);
    all_have(0, &[format!("{}*{}", eight("A"), eight("B")), format!("{}-{}|{}^D", eight("A"), eight("B"), eight("C"))]);
    all_have(
        0,
        &["(A)*(B)*(C)*(D)*(A)*(B)*(C)*(D)*(A)*(B)", "exp(A)+exp(A)+exp(A)+exp(A)+exp(A)+exp(A)+exp(A)+exp(A)+exp(A)"],
    );
    all_have(0, &["((((((((A)))))+B)))", "(A+(B+(C+(D+(A+(B+(C+(D+A))))))))", "((((((((A+B)+C)+D)+A)+B)+C)+D)+A)"]);
}

/// Anywhere in the line, and with functions among the parentheses.
#[test]
fn nine_levels_anywhere() {
    let nine = &nested(&["("; 9], "A");
    for line in [
        format!("{nine}+B"),
        format!("B*{nine}"),
        format!("B-{nine}|C"),
        format!("D^B*{nine}"),
        format!("(B)+{nine}"),
        "(A+(B+(C+(D+(A+(B+(C+(D+(A+B)))))))))".to_string(),
        "(((((((((A+B)+C)+D)+A)+B)+C)+D)+A)+B)".to_string(),
        format!("exp({})", nested(&["("; 8], "A")),
        nested(&["(", "(", "(", "(", "(", "(", "(", "(", "inv("], "C"),
        nested(&["(", "(", "(", "(", "inv(", "(", "(", "(", "("], "C"),
        format!("{}+{nine}", nested(&["("; 8], "B")),
        // The calls that come first are not made.
        format!("exp(B)+{nine}"),
    ] {
        all_have(14, &[line]);
    }
}

/// 13 is looked for in the whole line before 14.
#[test]
fn outside_of_the_grammar_and_deep() {
    let deep = |depth| nested(&vec!["("; depth], "A");
    for depth in [9, 10, 20, 50] {
        let line = deep(depth);
        for line in [
            format!("{line})"),
            format!("({line}"),
            format!("{line}+"),
            format!("+{line}"),
            format!("{line} "),
            format!("{line}+a"),
            format!("a+{line}"),
            format!("{line}B"),
            format!("{line}*exp"),
            nested(&vec!["("; depth], ""),
            nested(&vec!["("; depth], "a"),
            nested(&vec!["("; depth], "A+"),
            nested(&vec!["("; depth], "AB"),
            "(".repeat(depth),
            "(".repeat(depth) + "A",
        ] {
            all_have(13, &[line]);
        }
    }
    all_have(13, &["(".repeat(LONGEST), "exp(".repeat(30), deep(59) + "+A", deep(100), deep(10_000)]);
    all_have(14, &[deep(9), deep(59)]);
}

// ---- length

#[test]
fn longest_lines() {
    let chain = |first: &str, count: usize| first.to_string() + &"+B".repeat(count);
    let (shorter, longest, longer) = (chain("A", 59), chain("inv(C)", 57), chain("A", 60));
    let mixed = "inv(C)".to_string() + &"*B|C^D+A-B".repeat(11) + "*B|C";
    assert_eq!([&shorter, &longest, &mixed, &longer].map(String::len), [119, 120, 120, 121]);
    let only = |sign| longest.replace('+', sign);
    all_have(0, &[shorter, only("-"), only("*"), only("|"), only("^"), longest.clone(), mixed]);
    all_have(13, &[longer, longest + "+", chain("exp(B)", 58), chain("inv(C)", 58)]);
    // A length that is taken modulo 128, 256 or 65,536 would be short.
    for length in [122, 127, 129, 255, 257, 259, 383, 1000, 65_537, 65_539, 100_000] {
        all_have(13, &[chain("A", length / 2), " ".repeat(length), "A".to_string() + &" ".repeat(length - 1)]);
    }
}

// ---- every line near a recipe

/// It has every sign, every function and every letter, nests to 8 and has 120 bytes.
const LONG: &str = "A*B+exp(A|C*(A-log(B)))-inv(C)^D+((((((((A|B-C))))))))*(C-D)^B|\
    log(exp(A)*inv(B))+D-exp(log(inv(exp(A-A))))*(B+D)|inv(B)";

/// Such lines with one recipe's tables, result and pad; how many were accepted, and how many were not.
fn compare_each(base: &Given, lines: impl Iterator<Item = Vec<u8>>) -> (u32, u32) {
    let mut counts = (0, 0);
    for line in lines {
        match compare(&Given { line, ..base.clone() }) {
            0 => counts.0 += 1,
            _ => counts.1 += 1,
        }
    }
    counts
}

/// Whatever stands behind a line in memory is no part of it.
#[test]
fn every_prefix() {
    let base = given(2, M, LONG, &mut Random::new(57));
    assert_eq!((base.line.len(), compare(&base)), (LONGEST, 0));
    for length in 0..LONGEST {
        let prefix = Given { line: LONG.as_bytes()[..length].to_vec(), ..base.clone() };
        let behind = LONG.as_bytes()[length];
        let numbers = [behind, b')', b'A', b'(', b'+'].map(|byte| compare_between(&prefix, byte));
        assert!(numbers.iter().all(|number| *number == numbers[0]));
    }
}

#[test]
fn every_byte_changed() {
    let base = given(2, M, LONG, &mut Random::new(58));
    let changed = (0..LONGEST).flat_map(|place| {
        (0..=255).map(move |byte| {
            let mut line = LONG.as_bytes().to_vec();
            line[place] = byte;
            line
        })
    });
    let (accepted, refused) = compare_each(&base, changed);
    assert!(accepted > 200 && refused > 20_000, "{accepted} accepted, {refused} refused");
}

/// With parts left out or doubled, bytes put in, and neighbours exchanged.
#[test]
fn bytes_put_in_and_left_out() {
    const SHORTER: &str = "A*B+exp(A|C*(A-log(B)))-inv(C)^D|((((((((B))))))))*log(exp(A)*B)+D";
    let base = given(1, M, SHORTER, &mut Random::new(59));
    assert_eq!(compare(&base), 0);
    let with = |place: usize, put_in: &[u8], left_out: usize| {
        let mut line = SHORTER.as_bytes().to_vec();
        line.splice(place..place + left_out, put_in.iter().copied());
        line
    };
    let length = SHORTER.len();
    let put_in = (0..=length).flat_map(|place| b"ABCD*|^+-()explogivn ".map(|byte| with(place, &[byte], 0)));
    let left_out = (0..length).flat_map(|place| (1..=length - place).map(move |count| with(place, &[], count)));
    let doubled =
        (0..length).flat_map(|place| (place + 1..length).map(move |end| with(end, &SHORTER.as_bytes()[place..end], 0)));
    let around = (0..length - 1).map(|place| with(place, &[base.line[place + 1], base.line[place]], 2));
    let (accepted, refused) = compare_each(&base, put_in.chain(left_out).chain(doubled).chain(around));
    assert!(accepted > 100 && refused > 1000, "{accepted} accepted, {refused} refused");
}

/// Every line of up to so many of these parts.
fn every_line(parts: &'static [&'static str], most: u32) -> impl Iterator<Item = Vec<u8>> {
    (0..=most).flat_map(move |count| {
        (0..parts.len().pow(count)).map(move |code| {
            let part = |place| parts[code / parts.len().pow(place) % parts.len()];
            (0..count).map(part).collect::<String>().into_bytes()
        })
    })
}

#[test]
fn every_short_line() {
    let base = given(1, M, "", &mut Random::new(60));
    for (parts, most) in [
        (&["A", "D", "*", "|", "+", "-", "(", ")"][..], 5),
        (&["B", "log", "exp", "inv", "*", "^", "(", ")", " "], 5),
        (&["A", "exp", "(", ")", "*", "-"], 6),
    ] {
        let (accepted, refused) = compare_each(&base, every_line(parts, most));
        assert!(accepted > 15 && refused > 1000, "{accepted} accepted, {refused} refused");
    }
}

/// Lines of random recipes with some bytes changed for others that a recipe may have.
#[test]
fn nearly_recipes() {
    let random = &mut Random::new(61);
    let base = given(1, M, "", random);
    let lines: Vec<_> = (0..10_000)
        .map(|_| {
            let calls = random.below(14);
            let recipe = recipe(calls, true, random);
            let mut line = line(&recipe, random);
            for _ in 0..=random.below(3) {
                let place = random.below(line.len() as u64) as usize;
                line[place] = *random.pick(b"AABBCD*|^+-(())explogivn");
            }
            line
        })
        .collect();
    let (accepted, refused) = compare_each(&base, lines.into_iter());
    assert!(accepted > 500 && refused > 5000, "{accepted} accepted, {refused} refused");
}
