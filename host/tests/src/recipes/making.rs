//! Recipes made at random, so that most of their calls are accepted, and the lines that they are written as.

use crate::calls::Call;
use crate::random::Random;
use crate::reference::recipes::{Recipe, FUNCTIONS, SIGNS};

/// What the first entry of a recipe's table shall be; a unit shares no divisor above 1 with m.
#[derive(Clone, Copy)]
enum First {
    Any,
    Zero,
    One,
    Unit,
}
use First::{Any, One, Unit, Zero};

type Way = (Call, &'static [First]);

/// The calls that have such a first entry, with those of their operands.
fn ways(first: First) -> &'static [Way] {
    match first {
        Any => &[
            (Call::SubsetProduct, &[Any, Any]),
            (Call::UnionProduct, &[Any, Any]),
            (Call::XorProduct, &[Any, Any]),
            (Call::Sum, &[Any, Any]),
            (Call::Difference, &[Any, Any]),
            (Call::Exponential, &[Zero]),
            (Call::Logarithm, &[One]),
            (Call::Inverse, &[Unit]),
        ],
        Zero => &[
            (Call::SubsetProduct, &[Zero, Any]),
            (Call::SubsetProduct, &[Any, Zero]),
            (Call::UnionProduct, &[Any, Zero]),
            (Call::Sum, &[Zero, Zero]),
            (Call::Difference, &[One, One]),
            (Call::Logarithm, &[One]),
        ],
        One => &[
            (Call::SubsetProduct, &[One, One]),
            (Call::UnionProduct, &[One, One]),
            (Call::Sum, &[Zero, One]),
            (Call::Difference, &[One, Zero]),
            (Call::Exponential, &[Zero]),
            (Call::Inverse, &[One]),
        ],
        Unit => &[
            (Call::SubsetProduct, &[Unit, Unit]),
            (Call::UnionProduct, &[Unit, One]),
            (Call::Sum, &[Unit, Zero]),
            (Call::Difference, &[Zero, Unit]),
            (Call::Exponential, &[Zero]),
            (Call::Inverse, &[Unit]),
        ],
    }
}

/// A recipe of so many calls, with xor products or without. One operand in forty has any first entry, so that some calls are
/// refused.
pub fn recipe(calls: u64, xor: bool, random: &mut Random) -> Recipe {
    starting(Any, calls, xor, random)
}

fn starting(first: First, calls: u64, xor: bool, random: &mut Random) -> Recipe {
    if calls == 0 {
        // As the tables that are lent: 0 in A, 1 in B, a unit in C.
        let letters: &[usize] = match first {
            Any => &[0, 1, 2, 3],
            Zero => &[0],
            One => &[1],
            Unit => &[1, 2],
        };
        return Recipe::Table(*random.pick(letters));
    }
    let (call, firsts) = loop {
        let way = random.pick(ways(first));
        if xor || way.0 != Call::XorProduct {
            break way;
        }
    };
    let in_the_left = if firsts.len() == 2 { random.below(calls) } else { calls - 1 };
    let mut operand = |first, calls| match random.below(40) {
        0 => starting(Any, calls, xor, random),
        _ => starting(first, calls, xor, random),
    };
    let calls_of = [in_the_left, calls - 1 - in_the_left];
    Recipe::Of(*call, firsts.iter().zip(calls_of).map(|(&first, calls)| operand(first, calls)).collect())
}

/// The sign of a call and how tightly it binds.
fn sign_of(call: Call) -> Option<(u8, usize)> {
    let signs = (0..).zip(SIGNS).flat_map(|(binds, signs)| signs.iter().map(move |sign| (binds, sign)));
    signs.into_iter().find(|(_, sign)| sign.1 == call).map(|(binds, sign)| (sign.0, binds))
}

/// A line that says the recipe: with the parentheses that it needs, and here and there others.
pub fn line(recipe: &Recipe, random: &mut Random) -> Vec<u8> {
    operand(recipe, 0, random)
}

/// As an operand that must bind so tightly.
fn operand(recipe: &Recipe, least: usize, random: &mut Random) -> Vec<u8> {
    let (text, binds) = match recipe {
        Recipe::Table(letter) => (vec![b"ABCD"[*letter]], SIGNS.len()),
        Recipe::Of(call, operands) => match sign_of(*call) {
            // The right operand has no equal sign outside of parentheses.
            Some((sign, binds)) => {
                let (left, right) = (operand(&operands[0], binds, random), operand(&operands[1], binds + 1, random));
                ([&left, &[sign][..], &right].concat(), binds)
            }
            None => {
                let (opening, _) = FUNCTIONS.iter().find(|(_, function)| function == call).expect("a sign or a function");
                ([*opening, &operand(&operands[0], 0, random), b")"].concat(), SIGNS.len())
            }
        },
    };
    match binds < least || random.below(12) == 0 {
        true => [&b"("[..], &text, b")"].concat(),
        false => text,
    }
}
