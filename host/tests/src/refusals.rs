//! Every refusal of the calls on tables and rows, alone, in pairs and in random company; and what is just accepted.

use crate::calls::{each_call, Call, Case};
use crate::random::{Fill, Random};
use crate::reference::greatest_common_divisor;
use crate::reference::refusals::{number, pad_length};

/// Something wrong with a case, and the number of the refusal it calls for.
struct Damage {
    word: u32,
    inflict: Box<dyn Fn(&mut Case)>,
}

fn damage(word: u32, inflict: impl Fn(&mut Case) + 'static) -> Damage {
    Damage { word, inflict: Box::new(inflict) }
}

/// All the damages that the call knows, in falling order of their numbers: one that comes earlier spoils none that follows.
fn damages(call: Call, n: u32, m: u32) -> Vec<Damage> {
    let mut all = Vec::new();
    if call == Call::XorProduct {
        all.push(damage(7, |case| {
            case.m -= 1;
            let m = case.m;
            case.inputs.iter_mut().flatten().for_each(|entry| *entry %= m);
        }));
    }
    for first in wrong_first_entries(call, m) {
        all.push(damage(6, move |case| case.inputs[call.started()][0] = first));
    }
    for (input, shape) in call.inputs().iter().enumerate() {
        let length = shape.length(n);
        for index in [0, length / 2, length - 1] {
            all.push(damage(5, move |case| case.inputs[input][index] = case.m));
            all.push(damage(5, move |case| case.inputs[input][index] = u32::MAX));
        }
    }
    if call.has_pad() {
        all.push(damage(4, move |case| case.pad.truncate(pad_length(n) - 1)));
        all.push(damage(4, |case| case.pad.clear()));
    }
    let shapes = call.inputs().iter().copied().chain([call.result()]);
    for (slice, right) in shapes.map(|shape| shape.length(n)).enumerate() {
        for wrong in [right + 1, right - 1, 0, 2 * right] {
            all.push(damage(3, move |case| case.inputs.get_mut(slice).unwrap_or(&mut case.result).resize(wrong, 0)));
        }
    }
    for m in [0, 1] {
        all.push(damage(2, move |case| case.m = m));
    }
    for n in [17, 18, 32, 33, 64, u32::MAX] {
        all.push(damage(1, move |case| case.n = n));
    }
    all
}

fn wrong_first_entries(call: Call, m: u32) -> Vec<u32> {
    match call {
        Call::Exponential | Call::Composition | Call::Projection => vec![1, m - 1],
        Call::Logarithm if m == 2 => vec![0],
        Call::Logarithm => vec![0, m - 1],
        Call::Inverse => (0..m.min(50)).filter(|&first| greatest_common_divisor(first, m) > 1).collect(),
        _ => vec![],
    }
}

/// Runs the case with these damages; the lowest number counts.
fn try_damaged(call: Call, case: &Case, inflicted: &[&Damage]) {
    let mut damaged = case.clone();
    inflicted.iter().for_each(|damage| (damage.inflict)(&mut damaged));
    let lowest = inflicted.iter().map(|damage| damage.word).min().unwrap_or(0);
    assert_eq!(number(call, &damaged), lowest, "the reference, for {call:?} with n = {}, m = {}", damaged.n, damaged.m);
    assert_eq!(call.run(&damaged).number, lowest);
}

fn every_refusal(call: Call) {
    let random = &mut Random::new(1);
    for n in [0, 1, 2, 3, 5] {
        for &m in [3, 9, 101, 4_294_967_295].iter().chain(call.moduli().iter().filter(|_| n < 3)) {
            let case = Case::filled(call, n, m, [Fill::Uniform; 2], random);
            let damages = damages(call, n, m);
            try_damaged(call, &case, &[]);
            for (i, first) in damages.iter().enumerate() {
                try_damaged(call, &case, &[first]);
                for second in &damages[i + 1..] {
                    try_damaged(call, &case, &[first, second]);
                }
            }
            for _ in 0..100 {
                let several: Vec<_> = damages.iter().filter(|_| random.below(6) == 0).collect();
                try_damaged(call, &case, &several);
            }
        }
    }
}

/// Lengths that would be right for a panel too large do not change its refusal.
fn panel_too_large(call: Call) {
    let length = |shape: &crate::calls::Shape| shape.length(17);
    let inputs = call.inputs().iter().map(|shape| vec![0; length(shape)]).collect();
    let pad = if call.has_pad() { vec![7; pad_length(17)] } else { Vec::new() };
    let case = Case { n: 17, m: 101, inputs, result: vec![7; length(&call.result())], pad, same_slice: false };
    assert_eq!(call.run(&case).number, 1);
}

/// On the largest panel: a pad of W entries is enough, and every refusal by itself.
fn on_the_largest_panel(call: Call) {
    let (n, m) = (16, 101);
    let mut case = Case::filled(call, n, m, [Fill::Uniform; 2], &mut Random::new(36));
    case.pad.truncate(pad_length(n));
    try_damaged(call, &case, &[]);
    for damage in damages(call, n, m) {
        try_damaged(call, &case, &[&damage]);
    }
}

/// Which first entries a call takes, for every modulus up to 40; by the divisors themselves.
fn every_first_entry(call: Call) {
    for m in 2..=40 {
        for first in 0..m {
            let shares = (2..=m).any(|d| m % d == 0 && first % d == 0);
            let taken = match call {
                Call::Exponential | Call::Composition | Call::Projection => first == 0,
                Call::Logarithm => first == 1,
                Call::Inverse => !shares,
                Call::XorProduct => m % 2 == 1,
                _ => true,
            };
            for n in [0, 2] {
                let inputs = call.inputs().iter().map(|shape| {
                    let mut entries = vec![m - 1; shape.length(n)];
                    entries[0] = first;
                    entries
                });
                let case = Case::new(call, n, m, inputs.collect());
                assert_eq!(call.run(&case).number == 0, taken, "{call:?} with first entry {first}, m = {m}");
                call.compare(&case);
            }
        }
    }
}

mod alone_and_in_pairs {
    super::each_call!(super::every_refusal);
}

mod sixteen_controls {
    super::each_call!(super::on_the_largest_panel);
}

mod seventeen_controls {
    super::each_call!(super::panel_too_large);
}

mod first_entries {
    super::each_call!(super::every_first_entry);
}
