//! Recipes on one line. A line is taken apart at the sign that is worked last, and what it gives is worked out call by call.

use super::partitions::{exponential_by_blocks, logarithm_by_blocks};
use super::refusals::{number, pad_length, MOST_CONTROLS};
use crate::calls::{Call, Case};

pub const LONGEST: usize = 120;
pub const DEEPEST: usize = 8;

/// The signs, the loosest first; those in one row bind alike.
pub const SIGNS: [&[(u8, Call)]; 3] = [
    &[(b'+', Call::Sum), (b'-', Call::Difference)],
    &[(b'|', Call::UnionProduct), (b'^', Call::XorProduct)],
    &[(b'*', Call::SubsetProduct)],
];

/// The functions, each with the parenthesis that opens it.
pub const FUNCTIONS: [(&[u8], Call); 3] =
    [(b"exp(", Call::Exponential), (b"log(", Call::Logarithm), (b"inv(", Call::Inverse)];

/// The calls that a line asks for.
#[derive(Clone, Debug, PartialEq)]
pub enum Recipe {
    /// 0 to 3 for A to D
    Table(usize),
    /// a call on what its operands give
    Of(Call, Vec<Recipe>),
}

/// What a recipe is given and lent. `result` and `pad` are what these hold beforehand.
#[derive(Clone, Debug)]
pub struct Given {
    pub n: u32,
    pub m: u32,
    pub line: Vec<u8>,
    pub tables: [Vec<u32>; 4],
    pub result: Vec<u32>,
    pub pad: Vec<u32>,
}

/// What a recipe answers, and what result and pad are afterwards.
#[derive(Debug, PartialEq)]
pub struct Outcome {
    pub number: u32,
    pub result: Vec<u32>,
    pub pad: Vec<u32>,
}

/// How many entries of its pad a recipe uses.
pub fn recipe_pad_length(n: u32) -> usize {
    pad_length(n) + (32 << n)
}

/// How many parentheses are open in front of each byte, and at the end; less than none where too many were closed.
fn open(text: &[u8]) -> Vec<i32> {
    let steps = text.iter().map(|byte| i32::from(*byte == b'(') - i32::from(*byte == b')'));
    let sums = steps.scan(0, |sum, step| {
        *sum += step;
        Some(*sum)
    });
    std::iter::once(0).chain(sums).collect()
}

/// The recipe that this is the text of, if there is one. Outside of parentheses the loosest signs are worked last, and of
/// equal ones the last; where there is none, the text is a letter or stands in parentheses.
fn taken_apart(text: &[u8]) -> Option<Recipe> {
    let open = open(text);
    for signs in SIGNS {
        let sign_at = |i: usize| signs.iter().find(|(sign, _)| text[i] == *sign && open[i] == 0);
        if let Some((place, (_, call))) = (0..text.len()).rev().find_map(|i| Some((i, sign_at(i)?))) {
            return Some(Recipe::Of(*call, vec![taken_apart(&text[..place])?, taken_apart(&text[place + 1..])?]));
        }
    }
    match text {
        [letter @ b'A'..=b'D'] => Some(Recipe::Table(usize::from(letter - b'A'))),
        [b'(', inside @ .., b')'] => taken_apart(inside),
        _ => FUNCTIONS.iter().find_map(|(opening, call)| {
            let inside = text.strip_prefix(*opening)?.strip_suffix(b")")?;
            Some(Recipe::Of(*call, vec![taken_apart(inside)?]))
        }),
    }
}

impl Recipe {
    /// What the line is read as, or its word: 13 is looked for in the whole line before 14.
    pub fn read(line: &[u8]) -> Result<Recipe, u32> {
        let recipe = if line.len() <= LONGEST { taken_apart(line) } else { None };
        let nesting = open(line).into_iter().max().unwrap_or(0);
        match recipe {
            None => Err(13),
            Some(_) if nesting > DEEPEST as i32 => Err(14),
            Some(recipe) => Ok(recipe),
        }
    }

    /// Its table, each call made by `make`, the left operand worked before the right; or the word of the first that refuses.
    pub fn worked<M>(&self, tables: &[Vec<u32>; 4], make: &mut M) -> Result<Vec<u32>, u32>
    where
        M: FnMut(Call, Vec<Vec<u32>>) -> Result<Vec<u32>, u32>,
    {
        match self {
            Recipe::Table(letter) => Ok(tables[*letter].clone()),
            Recipe::Of(call, operands) => {
                let mut values = Vec::new();
                for operand in operands {
                    values.push(operand.worked(tables, make)?);
                }
                make(*call, values)
            }
        }
    }
}

/// What a call by itself gives: its defined table or its word.
fn defined(call: Call, n: u32, m: u32, inputs: Vec<Vec<u32>>) -> Result<Vec<u32>, u32> {
    let case = Case::new(call, n, m, inputs);
    match (number(call, &case), call) {
        (0, Call::Exponential) => Ok(exponential_by_blocks(m, &case.inputs[0])),
        (0, Call::Logarithm) => Ok(logarithm_by_blocks(m, &case.inputs[0])),
        (0, _) => Ok(call.defined(&case)),
        (word, _) => Err(word),
    }
}

impl Given {
    /// The recipe whose calls are made, or the word that refuses it before any is. The line is read before any entry is
    /// looked at.
    pub fn tested(&self) -> Result<Recipe, u32> {
        let Given { n, m, line, tables, result, pad } = self;
        if *n > MOST_CONTROLS {
            return Err(1);
        }
        if *m < 2 {
            return Err(2);
        }
        if tables.iter().chain([result]).any(|table| table.len() != 1 << n) {
            return Err(3);
        }
        if pad.len() < recipe_pad_length(*n) {
            return Err(4);
        }
        let recipe = Recipe::read(line)?;
        match tables.iter().flatten().any(|entry| entry >= m) {
            true => Err(5),
            false => Ok(recipe),
        }
    }

    /// Once calls are made, the pad that a recipe uses is 0, also if one of them is refused; then the result is as it came.
    pub fn outcome(&self) -> Outcome {
        let (result, mut pad) = (self.result.clone(), self.pad.clone());
        match self.tested() {
            Err(number) => Outcome { number, result, pad },
            Ok(recipe) => {
                let worth = recipe.worked(&self.tables, &mut |call, inputs| defined(call, self.n, self.m, inputs));
                pad[..recipe_pad_length(self.n)].fill(0);
                match worth {
                    Ok(table) => Outcome { number: 0, result: table, pad },
                    Err(number) => Outcome { number, result, pad },
                }
            }
        }
    }
}

/// Of all lines of up to six parts, those that the grammar gives, each level from the one below it, are those that can be
/// taken apart.
#[test]
fn the_grammars_lines_are_those_taken_apart() {
    use std::collections::BTreeSet;
    const PARTS: [&[u8]; 7] = [b"A", b"exp", b"(", b")", b"*", b"^", b"-"];

    // Factors, products, alternatives and sums, each by its number of parts.
    let mut levels: [Vec<BTreeSet<Vec<u8>>>; 4] = Default::default();
    let mut lines = vec![Vec::new()];
    for parts in 0..=6 {
        let mut factors = BTreeSet::new();
        if parts == 1 {
            factors.insert(b"A".to_vec());
        }
        for (opening, others) in [(&b"("[..], 2), (b"exp(", 3)] {
            if parts >= others {
                let inside = levels[3][parts - others].iter();
                factors.extend(inside.map(|text| [opening, text, b")"].concat()));
            }
        }
        levels[0].push(factors);
        for (level, sign) in [(1, b'*'), (2, b'^'), (3, b'-')] {
            let mut texts = levels[level - 1][parts].clone();
            for left in 1..parts.saturating_sub(1) {
                for text in &levels[level][left] {
                    let operands = levels[level - 1][parts - 1 - left].iter();
                    texts.extend(operands.map(|operand| [text, &[sign][..], operand].concat()));
                }
            }
            levels[level].push(texts);
        }

        let taken: BTreeSet<_> = lines.iter().filter(|line| taken_apart(line).is_some()).cloned().collect();
        assert_eq!(taken, levels[3][parts], "of {parts} parts");
        lines = PARTS.iter().flat_map(|part| lines.iter().map(move |line| [line, *part].concat())).collect();
    }
}
