//! The calls on tables and rows in one form: what each is lent, how it is run between guards, and what holds of every
//! outcome.

use crate::ffi;
use crate::lent::Lent;
use crate::random::{Fill, Random};
use crate::reference::refusals::{number, pad_length};
use crate::reference::{greatest_common_divisor, partitions, products};

#[derive(Clone, Copy, Debug, PartialEq)]
pub enum Call {
    Sum,
    Difference,
    SubsetProduct,
    UnionProduct,
    XorProduct,
    BinomialProduct,
    Exponential,
    Logarithm,
    Inverse,
    Composition,
    Projection,
}

#[derive(Clone, Copy, Debug, PartialEq)]
pub enum Shape {
    Table,
    Row,
}

/// What a call is given and lent. `result` and `pad` are what these hold beforehand.
#[derive(Clone, Debug)]
pub struct Case {
    pub n: u32,
    pub m: u32,
    pub inputs: Vec<Vec<u32>>,
    pub result: Vec<u32>,
    pub pad: Vec<u32>,
    /// lend the first input's slice for both inputs
    pub same_slice: bool,
}

/// What a call answered; the result as it stands afterwards.
#[derive(Debug, PartialEq)]
pub struct Outcome {
    pub number: u32,
    pub ceiling: u32,
    pub result: Vec<u32>,
}

impl Call {
    pub fn inputs(self) -> &'static [Shape] {
        match self {
            Call::BinomialProduct => &[Shape::Row, Shape::Row],
            Call::Composition => &[Shape::Table, Shape::Row],
            Call::Exponential | Call::Logarithm | Call::Inverse => &[Shape::Table],
            _ => &[Shape::Table, Shape::Table],
        }
    }

    pub fn result(self) -> Shape {
        match self {
            Call::BinomialProduct | Call::Projection => Shape::Row,
            _ => Shape::Table,
        }
    }

    /// Which input has the first entry that the call looks at, if it looks at one.
    pub fn started(self) -> usize {
        usize::from(self == Call::Projection)
    }

    pub fn has_pad(self) -> bool {
        !matches!(self, Call::Sum | Call::Difference | Call::BinomialProduct)
    }

    /// The moduli at which the call is tried. 2^64 is small modulo those near 2^32, but not modulo 3037000499.
    pub fn moduli(self) -> &'static [u32] {
        match self {
            Call::XorProduct => &[3, 9, 15, 101, 1155, 2_147_483_647, 3_037_000_499, 4_294_967_291, 4_294_967_295],
            _ => &[2, 3, 4, 6, 101, 256, 30030, 998_244_353, 3_037_000_499, 4_294_967_291, 4_294_967_294, 4_294_967_295],
        }
    }

    /// The result by its definition.
    pub fn defined(self, case: &Case) -> Vec<u32> {
        let (m, a) = (case.m, &case.inputs[0]);
        let b = case.inputs.last().unwrap();
        match self {
            Call::Sum => products::sum(m, a, b),
            Call::Difference => products::difference(m, a, b),
            Call::SubsetProduct => products::subset_product(m, a, b),
            Call::UnionProduct => products::union_product(m, a, b),
            Call::XorProduct => products::xor_product(m, a, b),
            Call::BinomialProduct => products::binomial_product(m, a, b),
            Call::Exponential => partitions::exponential(m, a),
            Call::Logarithm => partitions::logarithm(m, a),
            Call::Inverse => products::inverse(m, a),
            Call::Composition => partitions::composition(m, a, b),
            Call::Projection => partitions::projection(m, a, b),
        }
    }

    /// Its number and ceiling, the latter 0 where the call has none.
    fn answer(self, n: u32, m: u32, a: &[u32], b: &[u32], result: &mut [u32], pad: &mut [u32]) -> (u32, u32) {
        let number = match self {
            Call::Sum => ffi::sum(n, m, a, b, result),
            Call::Difference => ffi::difference(n, m, a, b, result),
            Call::SubsetProduct => {
                let packed = ffi::subset_product(n, m, a, b, result, pad);
                return (packed as u32, (packed >> 32) as u32);
            }
            Call::UnionProduct => ffi::union_product(n, m, a, b, result, pad),
            Call::XorProduct => ffi::xor_product(n, m, a, b, result, pad),
            Call::BinomialProduct => ffi::binomial_product(n, m, a, b, result),
            Call::Exponential => ffi::exponential(n, m, a, result, pad),
            Call::Logarithm => ffi::logarithm(n, m, a, result, pad),
            Call::Inverse => ffi::inverse(n, m, a, result, pad),
            Call::Composition => ffi::composition(n, m, a, b, result, pad),
            Call::Projection => ffi::projection(n, m, a, b, result, pad),
        };
        (number, 0)
    }

    /// Runs the call on lent copies and checks all but the entries of an accepted result: the number, the ceiling, that
    /// inputs and what lies around each slice stay, that a refusal leaves result and pad, and how the pad is left.
    pub fn run(self, case: &Case) -> Outcome {
        let Case { n, m, inputs, .. } = case;
        let guarded = |contents: &[u32], before| Lent::new(contents, 0xa5a5_5a5a, before);
        let inputs: Vec<_> = inputs.iter().enumerate().map(|(i, input)| guarded(input, i + 1)).collect();
        let (mut result, mut pad) = (guarded(&case.result, 3), guarded(&case.pad, 2));

        let (a, b) = (&inputs[0], if case.same_slice { &inputs[0] } else { inputs.last().unwrap() });
        let (answered, ceiling) = self.answer(*n, *m, a.slice(), b.slice(), result.slice_mut(), pad.slice_mut());

        let about = || format!("{self:?} with n = {n}, m = {m}, number {answered}");
        assert_eq!(answered, number(self, case), "{}", about());
        assert_eq!(ceiling, self.ceiling(answered, result.slice()), "ceiling of {}", about());
        for input in &inputs {
            input.check_unchanged_from(0, &format!("input of {}", about()));
        }
        let accepted = answered == 0;
        let (written, cleared) = match accepted {
            true => (self.result().length(*n), if self.has_pad() { pad_length(*n) } else { 0 }),
            false => (0, 0),
        };
        result.check_unchanged_from(written, &format!("result of {}", about()));
        pad.check_unchanged_from(cleared, &format!("pad of {}", about()));
        assert!(pad.slice()[..cleared].iter().all(|&x| x == 0), "pad not cleared by {}", about());
        Outcome { number: answered, ceiling, result: result.slice().to_vec() }
    }

    /// Runs the call and compares the result with its definition too.
    pub fn compare(self, case: &Case) {
        let outcome = self.run(case);
        if outcome.number == 0 {
            assert_same(&outcome.result, &self.defined(case), || format!("{self:?} with n = {}, m = {}", case.n, case.m));
        }
    }

    /// What it returns beside its number: the ceiling of the result of an accepted subset product, else 0.
    fn ceiling(self, number: u32, result: &[u32]) -> u32 {
        match self {
            Call::SubsetProduct if number == 0 => products::ceiling(result),
            _ => 0,
        }
    }
}

impl Case {
    /// A case that the call accepts, with what was lent full of large numbers and the pad longer than it must be.
    pub fn new(call: Call, n: u32, m: u32, inputs: Vec<Vec<u32>>) -> Self {
        let pad = if call.has_pad() { vec![u32::MAX; pad_length(n) + 5] } else { Vec::new() };
        Case { n, m, inputs, result: vec![u32::MAX; call.result().length(n)], pad, same_slice: false }
    }

    /// A case with inputs of these kinds, and a first entry that the call takes.
    pub fn filled(call: Call, n: u32, m: u32, fills: [Fill; 2], random: &mut Random) -> Self {
        let shapes = call.inputs().iter().zip(fills);
        let inputs = shapes.map(|(shape, fill)| fill.entries(shape.length(n), m, random)).collect();
        let mut case = Case::new(call, n, m, inputs);
        case.set_first(call, random);
        case
    }

    fn set_first(&mut self, call: Call, random: &mut Random) {
        let first = &mut self.inputs[call.started()][0];
        match call {
            Call::Exponential | Call::Composition | Call::Projection => *first = 0,
            Call::Logarithm => *first = 1,
            Call::Inverse => {
                while greatest_common_divisor(*first, self.m) > 1 {
                    *first = random.residue(self.m);
                }
            }
            _ => {}
        }
    }
}

/// What result and pad held beforehand does not matter, nor how much longer the pad is, nor that the inputs are one slice.
pub fn whatever_was_lent(call: Call) {
    let random = &mut Random::new(7);
    for n in 0..=9 {
        for tail in [0, 1, 1000] {
            let mut case = Case::filled(call, n, 4_294_967_295, [Fill::Uniform; 2], random);
            let both = case.inputs[call.started()].clone();
            case.inputs.fill(both);
            case.same_slice = tail == 1;
            case.pad.resize(case.pad.len() - 5 + tail, 0);
            case.pad.iter_mut().chain(&mut case.result).for_each(|entry| *entry = random.word());
            call.compare(&case);
        }
    }
}

/// Two tables or rows are the same, else the first difference is shown.
pub fn assert_same(found: &[u32], expected: &[u32], about: impl Fn() -> String) {
    assert_eq!(found.len(), expected.len(), "length of {}", about());
    if let Some(i) = (0..found.len()).find(|&i| found[i] != expected[i]) {
        panic!("{}: entry {i} is {}, expected {}", about(), found[i], expected[i]);
    }
}

/// The calls, with the name that a test of each has.
macro_rules! for_each_call {
    ($($name:ident $call:ident;)*) => {
        /// Makes a test of `$check`, a function of the call, for each of the calls.
        macro_rules! each_call {
            ($check:path) => {
                $(
                    #[test]
                    fn $name() {
                        $check($crate::calls::Call::$call)
                    }
                )*
            };
        }
        pub(crate) use each_call;
    };
}
for_each_call! {
    sum Sum;
    difference Difference;
    subset_product SubsetProduct;
    union_product UnionProduct;
    xor_product XorProduct;
    binomial_product BinomialProduct;
    exponential Exponential;
    logarithm Logarithm;
    inverse Inverse;
    composition Composition;
    projection Projection;
}
