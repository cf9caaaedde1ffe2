//! The number that a call on tables and rows answers: the lowest of the conditions that apply. (Boards and recipes have their
//! own order.)

use super::greatest_common_divisor;
use crate::calls::{Call, Case, Shape};

pub const MOST_CONTROLS: u32 = 16;
pub const LARGEST_MODULUS: u32 = 4_294_967_295;

/// How many entries of a pad a call uses.
pub fn pad_length(n: u32) -> usize {
    (2 * n as usize + 4) << n
}

pub fn number(call: Call, case: &Case) -> u32 {
    let Case { n, m, inputs, result, pad, .. } = case;
    if *n > MOST_CONTROLS {
        return 1;
    }
    let inputs_fit = inputs.iter().zip(call.inputs()).all(|(input, shape)| input.len() == shape.length(*n));
    let first = || inputs[call.started()][0];
    let conditions = [
        (2, *m < 2 || *m > LARGEST_MODULUS),
        (3, !inputs_fit || result.len() != call.result().length(*n)),
        (4, call.has_pad() && pad.len() < pad_length(*n)),
        (5, inputs.iter().flatten().any(|entry| entry >= m)),
    ];
    if let Some((word, _)) = conditions.iter().find(|(_, applies)| *applies) {
        return *word;
    }
    match call {
        Call::Exponential | Call::Composition | Call::Projection if first() != 0 => 6,
        Call::Logarithm if first() != 1 => 6,
        Call::Inverse if greatest_common_divisor(first(), *m) > 1 => 6,
        Call::XorProduct if m % 2 == 0 => 7,
        _ => 0,
    }
}

impl Shape {
    /// How many entries it has on a panel of n controls.
    pub fn length(self, n: u32) -> usize {
        match self {
            Shape::Table => 1 << n,
            Shape::Row => n as usize + 1,
        }
    }
}
