//! Sums over partitions.

use super::products::{subset_product, subsets};
use super::{minus, plus, times};

/// Shows `visit` the blocks of each partition of the set, each partition once: every control in turn joins a block that is
/// there or starts a new one.
fn for_each_partition(set: usize, visit: &mut impl FnMut(&[usize])) {
    fn place(left: usize, blocks: &mut Vec<usize>, visit: &mut impl FnMut(&[usize])) {
        if left == 0 {
            return visit(blocks);
        }
        let control = left & left.wrapping_neg();
        for i in 0..blocks.len() {
            blocks[i] |= control;
            place(left & !control, blocks, visit);
            blocks[i] &= !control;
        }
        blocks.push(control);
        place(left & !control, blocks, visit);
        blocks.pop();
    }
    place(set, &mut Vec::new(), visit)
}

fn product_over(blocks: &[usize], m: u32, a: &[u32]) -> u32 {
    blocks.iter().fold(1 % m, |product, &block| times(product, a[block], m))
}

pub fn composition(m: u32, a: &[u32], f: &[u32]) -> Vec<u32> {
    let at = |set| {
        let mut total = 0;
        for_each_partition(set, &mut |blocks| {
            total = plus(total, times(f[blocks.len()], product_over(blocks, m, a), m), m);
        });
        total
    };
    (0..a.len()).map(at).collect()
}

pub fn exponential(m: u32, a: &[u32]) -> Vec<u32> {
    let controls = a.len().trailing_zeros() as usize;
    composition(m, a, &vec![1; controls + 1])
}

/// Solved entry by entry: of the partitions of S only the one with the single block S has the unknown entry of S.
pub fn logarithm(m: u32, e: &[u32]) -> Vec<u32> {
    let mut a = vec![0; e.len()];
    for set in 1..e.len() {
        let mut known = 0;
        for_each_partition(set, &mut |blocks| {
            if blocks.len() > 1 {
                known = plus(known, product_over(blocks, m, &a), m);
            }
        });
        a[set] = minus(e[set], known, m);
    }
    a
}

/// Entry i is the whole-panel entry of the subset product of a with the composition of b with the row that is 1 at place i.
pub fn projection(m: u32, a: &[u32], b: &[u32]) -> Vec<u32> {
    let controls = a.len().trailing_zeros() as usize;
    let one_at = |i| (0..=controls).map(|k| u32::from(k == i)).collect::<Vec<_>>();
    let entry = |i| *subset_product(m, a, &composition(m, b, &one_at(i))).last().unwrap();
    (0..=controls).map(entry).collect()
}

/// For larger panels: the sums over the partitions into 0 blocks, 1 block, 2 blocks and so on, by the block that has the set's
/// lowest control.
fn tables_by_blocks(m: u32, a: &[u32]) -> impl Iterator<Item = Vec<u32>> + '_ {
    let mut none = vec![0; a.len()];
    none[0] = 1 % m;
    let one_more = move |rest: &Vec<u32>| Some((0..a.len()).map(|set| with_first_block(set, m, a, rest)).collect());
    std::iter::successors(Some(none), one_more)
}

/// The composition for larger panels; the number of blocks goes up one by one.
pub fn composition_by_blocks(m: u32, a: &[u32], f: &[u32]) -> Vec<u32> {
    let mut result = vec![0; a.len()];
    for (&weight, table) in f.iter().zip(tables_by_blocks(m, a)) {
        for (entry, &count) in result.iter_mut().zip(&table) {
            *entry = plus(*entry, times(weight, count, m), m);
        }
    }
    result
}

/// The projection for larger panels.
pub fn projection_by_blocks(m: u32, a: &[u32], b: &[u32]) -> Vec<u32> {
    let controls = a.len().trailing_zeros() as usize;
    tables_by_blocks(m, b).take(controls + 1).map(|table| whole_entry(m, a, &table)).collect()
}

/// The whole-panel entry of the subset product: each set with all the other controls.
pub fn whole_entry(m: u32, a: &[u32], b: &[u32]) -> u32 {
    a.iter().zip(b.iter().rev()).fold(0, |sum, (&x, &y)| plus(sum, times(x, y, m), m))
}

/// The exponential for larger panels, by the block that has the set's lowest control.
pub fn exponential_by_blocks(m: u32, a: &[u32]) -> Vec<u32> {
    let mut result = vec![1 % m];
    for set in 1..a.len() {
        result.push(with_first_block(set, m, a, &result));
    }
    result
}

/// The logarithm for larger panels: of the blocks that have the set's lowest control only the set itself has an unknown
/// entry, which still is 0.
pub fn logarithm_by_blocks(m: u32, e: &[u32]) -> Vec<u32> {
    let mut a = vec![0; e.len()];
    for set in 1..e.len() {
        a[set] = minus(e[set], with_first_block(set, m, &a, e), m);
    }
    a
}

/// The sum over the blocks inside the set that have its lowest control, of a at the block times `rest` at what is left.
fn with_first_block(set: usize, m: u32, a: &[u32], rest: &[u32]) -> u32 {
    if set == 0 {
        return 0;
    }
    let lowest = set & set.wrapping_neg();
    let others = set & !lowest;
    let terms = subsets(others).map(|part| u64::from(times(a[lowest | part], rest[others & !part], m)));
    (terms.sum::<u64>() % u64::from(m)) as u32
}

#[test]
fn both_ways_to_sum_over_partitions_agree() {
    let bell_numbers = [1, 1, 2, 5, 15, 52, 203, 877];
    for (n, &count) in bell_numbers.iter().enumerate() {
        let mut listed = 0;
        for_each_partition((1 << n) - 1, &mut |_| listed += 1);
        assert_eq!(listed, count);

        let (m, entries) = (1009, 1 << n);
        let a: Vec<u32> = (0..entries).map(|set| set * set * 7 % m).collect();
        let f: Vec<u32> = (0..=n as u32).map(|k| (5 * k + 3) % m).collect();
        assert_eq!(composition(m, &a, &f), composition_by_blocks(m, &a, &f));
        assert_eq!(exponential(m, &a), exponential_by_blocks(m, &a));
        assert_eq!(projection(m, &a, &a), projection_by_blocks(m, &a, &a));
        let e: Vec<u32> = std::iter::once(1).chain(a.into_iter().skip(1)).collect();
        assert_eq!(logarithm(m, &e), logarithm_by_blocks(m, &e));
    }
}
