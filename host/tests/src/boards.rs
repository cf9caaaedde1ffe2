//! Boards: the three calls on any tables, all their refusals, and long lists of changes of a fresh board.

use crate::calls::{assert_same, Call, Case};
use crate::ffi;
use crate::lent::Lent;
use crate::random::{Fill, Random, FILLS};
use crate::reference::boards::{change_number, fresh_number, Board, Change, Kind};
use crate::reference::partitions::{exponential, exponential_by_blocks};
use crate::reference::products::{inverse, subset_product};
use crate::reference::{minus, plus};

const MODULI: [u32; 12] =
    [2, 3, 4, 6, 101, 256, 30030, 998_244_353, 3_037_000_499, 4_294_967_291, 4_294_967_294, 4_294_967_295];
const KINDS: [Kind; 2] = [Kind::Add, Kind::Take];

fn add(set: u32, weight: u32) -> Change {
    Change { kind: Kind::Add, set, weight }
}

fn take(set: u32, weight: u32) -> Change {
    Change { kind: Kind::Take, set, weight }
}

/// Runs the call between guards on the board, which it changes; the number.
fn lend(board: &mut Board, call: impl FnOnce([&mut [u32]; 3]) -> u32) -> u32 {
    let mut a = Lent::new(&board.a, 0xa5a5_5a5a, 1);
    let mut e = Lent::new(&board.e, 0x5a5a_a5a5, 2);
    let mut i = Lent::new(&board.i, 0x55aa_aa55, 3);
    let number = call([a.slice_mut(), e.slice_mut(), i.slice_mut()]);
    a.check_guards("a");
    e.check_guards("e");
    i.check_guards("i");
    *board = Board { a: a.slice().to_vec(), e: e.slice().to_vec(), i: i.slice().to_vec() };
    number
}

/// Makes the change by its call.
fn make(n: u32, m: u32, change: Change, board: &mut Board) -> u32 {
    let Change { kind, set, weight } = change;
    lend(board, |tables| match kind {
        Kind::Add => ffi::board_add(n, m, set, weight, tables),
        Kind::Take => ffi::board_take(n, m, set, weight, tables),
    })
}

/// Makes the change and compares the number and the tables.
fn compare(n: u32, m: u32, change: Change, board: &mut Board) -> u32 {
    let number = change_number(n, m, change, board);
    let expected = if number == 0 { board.changed(m, change) } else { board.clone() };
    let about = |table: &str| format!("{table} after {change:?} with n = {n}, m = {m}, number {number}");
    assert_eq!(make(n, m, change, board), number, "{}", about("number"));
    assert_same(&board.a, &expected.a, || about("a"));
    assert_same(&board.e, &expected.e, || about("e"));
    assert_same(&board.i, &expected.i, || about("i"));
    number
}

/// A fresh board in tables that held something else.
fn fresh(n: u32, m: u32, random: &mut Random) -> Board {
    let mut words = || (0..1 << n).map(|_| random.word()).collect();
    let mut board = Board { a: words(), e: words(), i: words() };
    assert_eq!(lend(&mut board, |tables| ffi::board_fresh(n, m, tables)), 0);
    assert_eq!(board, Board::fresh(n));
    board
}

fn filled(n: u32, m: u32, fills: [Fill; 3], random: &mut Random) -> Board {
    let [a, e, i] = fills.map(|fill| fill.entries(1 << n, m, random));
    Board { a, e, i }
}

// ---- by hand

/// Makes the changes of the board one after the other; each has this number and leaves these tables.
fn follow(m: u32, mut board: Board, steps: &[(Change, u32, [[u32; 4]; 3])]) {
    for (change, number, tables) in steps {
        assert_eq!(make(2, m, *change, &mut board), *number, "{change:?}");
        let [a, e, i] = tables.map(|table| table.to_vec());
        assert_eq!(board, Board { a, e, i }, "{change:?}");
    }
}

/// Weight 2 at {0}, 3 at {1} and 4 at {0, 1}; then more is taken at {0} than was added, and so on. Then any three tables.
#[test]
fn worked_by_hand() {
    let overdrawn = [[0, 98, 3, 4], [1, 98, 3, 96], [1, 3, 98, 88]];
    let steps = [
        (add(1, 2), 0, [[0, 2, 0, 0], [1, 2, 0, 0], [1, 99, 0, 0]]),
        (add(2, 3), 0, [[0, 2, 3, 0], [1, 2, 3, 6], [1, 99, 98, 6]]),
        (add(3, 4), 0, [[0, 2, 3, 4], [1, 2, 3, 10], [1, 99, 98, 2]]),
        (take(1, 5), 0, overdrawn),
        (add(0, 101), 11, overdrawn),
        (add(4, 101), 12, overdrawn),
        (take(2, 101), 5, overdrawn),
        (add(2, 0), 0, overdrawn),
        (take(3, 100), 0, [[0, 98, 3, 5], [1, 98, 3, 97], [1, 3, 98, 87]]),
    ];
    follow(101, fresh(2, 101, &mut Random::new(41)), &steps);
    let board = Board { a: vec![1, 2, 3, 4], e: vec![5, 6, 7, 8], i: vec![9, 8, 7, 6] };
    follow(101, board.clone(), &[(add(1, 10), 0, [[1, 12, 3, 4], [5, 56, 7, 78], [9, 19, 7, 37]])]);
    follow(101, board, &[(take(1, 10), 0, [[1, 93, 3, 4], [5, 57, 7, 39], [9, 98, 7, 76]])]);
}

/// With no control every set is the empty one or has too large a code.
#[test]
fn no_control() {
    let random = &mut Random::new(42);
    for kind in KINDS {
        let mut board = fresh(0, 5, random);
        for set in [0, 1, 2, 3, 1 << 16, u32::MAX] {
            for weight in [0, 1, 4, 5] {
                assert_eq!(compare(0, 5, Change { kind, set, weight }, &mut board), if set == 0 { 11 } else { 12 });
            }
        }
        assert_eq!(board, Board::fresh(0));
    }
}

/// Weights near the largest modulus go round through it.
#[test]
fn largest_weights() {
    let (m, largest) = (4_294_967_295, 4_294_967_294);
    let (full, second) = (vec![largest; 4], largest - 1);
    let steps = [
        (add(3, largest), 0, [[largest, largest, largest, second], [largest, largest, largest, 0], [largest, largest, largest, second]]),
        (take(1, largest), 0, [[largest, 0, largest, second], [largest, second, largest, largest], [largest, 0, largest, largest]]),
    ];
    follow(m, Board { a: full.clone(), e: full.clone(), i: full }, &steps);
}

// ---- any three accepted tables

#[test]
fn any_three_tables() {
    let random = &mut Random::new(43);
    for n in 1..=8 {
        for m in MODULI {
            for fills in FILLS.into_iter().flat_map(|a| FILLS.into_iter().flat_map(move |e| FILLS.map(|i| [a, e, i]))) {
                let board = &mut filled(n, m, fills, random);
                for kind in KINDS {
                    let set = 1 + random.residue((1 << n) - 1);
                    let any = random.residue(m);
                    let weight = *random.pick(&[0, 1, m / 2, m - 1, any, any]);
                    assert_eq!(compare(n, m, Change { kind, set, weight }, board), 0);
                }
            }
        }
    }
}

/// Changes keep the subset product of E and I, whatever it is.
#[test]
fn product_of_any_tables() {
    let random = &mut Random::new(50);
    for n in 1..=7 {
        for m in MODULI {
            let board = &mut filled(n, m, [Fill::Uniform; 3], random);
            let before = subset_product(m, &board.e, &board.i);
            for _ in 0..20 {
                make(n, m, any_change(n, m, random), board);
            }
            assert_same(&subset_product(m, &board.e, &board.i), &before, || format!("e times i with n = {n}, m = {m}"));
        }
    }
}

/// Every set of a panel of five controls, and the sets with one control or lacking one on the largest.
#[test]
fn every_set() {
    let random = &mut Random::new(44);
    let smaller = (1..32).map(|set| (5, set));
    let largest = (0..16).flat_map(|control| [(16, 1 << control), (16, 0xffff - (1 << control))]);
    for (n, set) in smaller.chain(largest).chain([(16, 0xffff)]) {
        for (kind, m) in [(Kind::Add, 4_294_967_295), (Kind::Take, 4_294_967_291)] {
            let board = &mut filled(n, m, [Fill::Uniform; 3], random);
            let weight = random.residue(m);
            assert_eq!(compare(n, m, Change { kind, set, weight }, board), 0);
        }
    }
}

// ---- refusals

/// What a call on a board is given.
#[derive(Clone)]
struct Given {
    n: u32,
    m: u32,
    change: Change,
    board: Board,
}

/// Something wrong with what is given, and the number of the refusal it calls for.
type Damage = (u32, Box<dyn Fn(&mut Given)>);

/// The numbers in the order in which they count.
const ORDER: [u32; 6] = [1, 2, 3, 11, 12, 5];

/// All damages, the last to count first: one that comes earlier spoils none that follows.
fn damages(n: u32) -> Vec<Damage> {
    let length = 1usize << n;
    let mut all: Vec<Damage> =
        vec![(5, Box::new(|given| given.change.weight = given.m)), (5, Box::new(|given| given.change.weight = u32::MAX))];
    for index in [0, length / 2, length - 1] {
        all.push((5, Box::new(move |given| given.board.a[index] = given.m)));
        all.push((5, Box::new(move |given| given.board.e[index] = u32::MAX)));
        all.push((5, Box::new(move |given| given.board.i[index] = given.m)));
    }
    for set in [1 << n, (1 << n) + 1, 1 << 31, u32::MAX] {
        all.push((12, Box::new(move |given| given.change.set = set)));
    }
    all.push((11, Box::new(|given| given.change.set = 0)));
    for wrong in [length + 1, length - 1, 0, 2 * length] {
        all.push((3, Box::new(move |given| given.board.a.resize(wrong, 0))));
        all.push((3, Box::new(move |given| given.board.e.resize(wrong, 0))));
        all.push((3, Box::new(move |given| given.board.i.resize(wrong, 0))));
    }
    for m in [0, 1] {
        all.push((2, Box::new(move |given| given.m = m)));
    }
    for n in [17, 18, 32, 33, 64, u32::MAX] {
        all.push((1, Box::new(move |given| given.n = n)));
    }
    all
}

/// Both kinds of change and a fresh board with these damages: the first in the order counts, and nothing lent is altered.
fn try_damaged(given: &Given, inflicted: &[&Damage]) {
    let mut damaged = given.clone();
    inflicted.iter().for_each(|(_, inflict)| inflict(&mut damaged));
    let first = ORDER.into_iter().find(|word| inflicted.iter().any(|(inflicted, _)| inflicted == word)).unwrap_or(0);
    let Given { n, m, change, board } = damaged;
    for kind in KINDS {
        assert_eq!(compare(n, m, Change { kind, ..change }, &mut board.clone()), first);
    }
    let number = if first <= 3 { first } else { 0 };
    assert_eq!(fresh_number(n, m, &board), number);
    let mut made = board.clone();
    assert_eq!(lend(&mut made, |tables| ffi::board_fresh(n, m, tables)), number);
    assert_eq!(made, if number == 0 { Board::fresh(n) } else { board });
}

#[test]
fn every_refusal() {
    let random = &mut Random::new(45);
    for n in [1, 2, 3, 5] {
        for m in [2, 3, 101, 4_294_967_295] {
            let change = add(1 + random.residue((1 << n) - 1), random.residue(m));
            let given = Given { n, m, change, board: filled(n, m, [Fill::Uniform; 3], random) };
            let damages = damages(n);
            try_damaged(&given, &[]);
            for (i, first) in damages.iter().enumerate() {
                try_damaged(&given, &[first]);
                for second in &damages[i + 1..] {
                    try_damaged(&given, &[first, second]);
                }
            }
            for _ in 0..100 {
                let several: Vec<_> = damages.iter().filter(|_| random.below(8) == 0).collect();
                try_damaged(&given, &several);
            }
        }
    }
}

#[test]
fn every_refusal_on_the_largest_panel() {
    let random = &mut Random::new(46);
    let given = Given { n: 16, m: 101, change: add(0xffff, 100), board: filled(16, 101, [Fill::Uniform; 3], random) };
    for damage in damages(16) {
        try_damaged(&given, &[&damage]);
    }
}

/// Lengths that would be right for a panel too large do not change its refusal.
#[test]
fn seventeen_controls() {
    let board = &mut Board::fresh(17);
    assert_eq!(compare(17, 101, add(1, 1), board), 1);
    assert_eq!(lend(board, |tables| ffi::board_fresh(17, 101, tables)), 1);
}

// ---- lists of changes

/// A change that may be refused: at least one time in sixteen its set or its weight is wrong, and any set may be the empty one.
fn any_change(n: u32, m: u32, random: &mut Random) -> Change {
    let kind = *random.pick(&KINDS);
    match random.below(16) {
        0 => Change { kind, set: *random.pick(&[0, 1 << n, u32::MAX]), weight: random.word() },
        1 if m < u32::MAX => Change { kind, set: random.residue(1 << n), weight: m + random.residue(u32::MAX - m) },
        _ => Change { kind, set: random.residue(1 << n), weight: random.residue(m) },
    }
}

/// The added less the taken weight of the accepted changes at each set.
fn weights(n: u32, m: u32, changes: &[(Change, u32)]) -> Vec<u32> {
    let mut weights = vec![0; 1 << n];
    for (change, _) in changes.iter().filter(|(_, number)| *number == 0) {
        let entry = &mut weights[change.set as usize];
        *entry = match change.kind {
            Kind::Add => plus(*entry, change.weight, m),
            Kind::Take => minus(*entry, change.weight, m),
        };
    }
    weights
}

/// Makes so many changes of a fresh board; each with its number, and the board.
fn run(n: u32, m: u32, count: usize, random: &mut Random) -> (Vec<(Change, u32)>, Board) {
    let mut board = fresh(n, m, random);
    let changes = (0..count).map(|_| any_change(n, m, random)).collect::<Vec<_>>();
    (changes.into_iter().map(|change| (change, compare(n, m, change, &mut board))).collect(), board)
}

/// A is the added less the taken weight, E its exponential, summed over partitions that are listed one by one, and I the inverse of
/// that, solved entry by entry.
#[test]
fn lists_of_changes() {
    let random = &mut Random::new(47);
    for n in 0..=7 {
        for m in MODULI {
            let (changes, board) = run(n, m, 150, random);
            assert_same(&board.a, &weights(n, m, &changes), || format!("a with n = {n}, m = {m}"));
            assert_same(&board.e, &exponential(m, &board.a), || format!("e with n = {n}, m = {m}"));
            assert_same(&board.i, &inverse(m, &board.e), || format!("i with n = {n}, m = {m}"));
        }
    }
}

/// The same by blocks, and by the library's own exponential and inverse.
#[test]
fn lists_of_changes_on_large_panels() {
    let random = &mut Random::new(48);
    for (n, m) in [(9, 30030), (11, 6), (13, 4_294_967_295), (14, 4_294_967_291), (15, 2_147_483_647), (16, 4_294_967_294)] {
        let (changes, board) = run(n, m, 400, random);
        assert!(changes.iter().any(|(_, number)| *number != 0));
        assert_same(&board.a, &weights(n, m, &changes), || format!("a with n = {n}, m = {m}"));
        let outcome = Call::Exponential.run(&Case::new(Call::Exponential, n, m, vec![board.a.clone()]));
        assert_same(&board.e, &outcome.result, || format!("e with n = {n}, m = {m}"));
        assert_same(&board.e, &exponential_by_blocks(m, &board.a), || format!("e by blocks with n = {n}, m = {m}"));
        let outcome = Call::Inverse.run(&Case::new(Call::Inverse, n, m, vec![board.e.clone()]));
        assert_same(&board.i, &outcome.result, || format!("i with n = {n}, m = {m}"));
        assert_same(&board.i, &inverse(m, &board.e), || format!("i entry by entry with n = {n}, m = {m}"));
    }
}

/// The accepted changes in another order give the same board; undone in any order they give a fresh one.
#[test]
fn another_order_and_undone() {
    let random = &mut Random::new(49);
    for (n, m) in [(3, 2), (5, 6), (8, 4_294_967_295), (16, 4_294_967_291)] {
        let (changes, board) = run(n, m, 60, random);
        let mut accepted: Vec<Change> =
            changes.iter().filter(|(_, number)| *number == 0).map(|(change, _)| *change).collect();
        let mut in_any_order = |start: &Board, undone: bool| {
            let mut board = start.clone();
            for last in (1..accepted.len()).rev() {
                accepted.swap(last, random.below(last as u64 + 1) as usize);
            }
            for change in &accepted {
                let kind = if (change.kind == Kind::Add) == undone { Kind::Take } else { Kind::Add };
                assert_eq!(make(n, m, Change { kind, ..*change }, &mut board), 0);
            }
            board
        };
        assert_eq!(in_any_order(&Board::fresh(n), false), board);
        assert_eq!(in_any_order(&board, true), Board::fresh(n));
    }
}

/// A board of one book divides a joint count: the product with its I is what the exercises of the other book alone give.
#[test]
fn book_taken_out() {
    let random = &mut Random::new(51);
    for (n, m) in [(1, 2), (3, 2), (5, 6), (8, 4_294_967_295), (10, 4_294_967_291)] {
        let (_, staying) = run(n, m, 30, random);
        let mut joint = staying.clone();
        let mut book = fresh(n, m, random);
        for _ in 0..30 {
            let change = any_change(n, m, random);
            assert_eq!(make(n, m, change, &mut joint), make(n, m, change, &mut book));
        }
        let case = Case::new(Call::SubsetProduct, n, m, vec![joint.e, book.i]);
        assert_same(&Call::SubsetProduct.run(&case).result, &staying.e, || format!("n = {n}, m = {m}"));
    }
}
