//! Plans of which some column has not exactly three filled blocks: no bit is turned by them.
use crate::flip::{compare, compare_by, job_of, small_three, Job, Met};
use crate::inputs::{column_plan, Draft};
use crate::random::Random;
use crate::reference::flip::Flipper;
use crate::reference::refused;
use crate::seen::number;
use crate::words::random_word;

// Each column in turn with each number of blocks.
fn compare_columns(random: &Random, met: &mut Met) {
    for (rows, cols, lift) in [(3, 1, 1), (3, 4, 5), (4, 3, 2), (6, 5, 3), (9, 3, 4), (192, 3, 2)] {
        for (j, blocks) in (0..cols).flat_map(|j| (0..=rows).map(move |blocks| (j, blocks))) {
            let mut plan = column_plan(random, rows, cols, lift, 3);
            let places = random.distinct(blocks, rows);
            for i in 0..rows {
                plan.entries[i * cols + j] = if places.contains(&i) { random.below(2 * lift) as i16 } else { -1 };
            }
            let wanted = if blocks == 3 { 0 } else { 32 };
            assert_eq!(number(&compare(&plan, &random_word(random, cols * lift), met)), wanted, "{blocks} blocks");
        }
    }
}

// As many blocks in each column, or three times as many as columns, but not three in each.
fn compare_totals(random: &Random, met: &mut Met) {
    for weight in [0, 1, 2, 4, 5, 6] {
        let plan = column_plan(random, 6, 4, 5, weight);
        assert_eq!(number(&compare(&plan, &random_word(random, 20), met)), 32, "{weight} blocks in each column");
    }
    for (from, to) in (0..4).flat_map(|from| (0..4).map(move |to| (from, to))).filter(|(from, to)| from != to) {
        let mut plan = column_plan(random, 6, 4, 5, 3);
        let find = |j: usize, filled: bool| (0..6).map(|i| i * 4 + j).find(|&place| (plan.entries[place] >= 0) == filled);
        let (taken, given) = (find(from, true).expect("a filled block"), find(to, false).expect("an empty block"));
        plan.entries.swap(taken, given);
        assert_eq!(number(&compare(&plan, &random_word(random, 20), met)), 32, "a block of {from} in {to}");
    }
}

// A byte above 2 goes before an erasure, also where it stands behind it, and both go before a column of another weight.
fn compare_order(random: &Random, met: &mut Met) {
    for _ in 0..300 {
        let Job { mut plan, mut word } = job_of(random, small_three(random));
        let place = random.below(plan.entries.len());
        plan.entries[place] = if plan.entries[place] < 0 { 0 } else { -1 };
        assert_eq!(compare(&plan, &word, met), Err(refused(32, &[])));
        word[0] = 2;
        assert_eq!(compare(&plan, &word, met), Err(refused(19, &[0])));
        let last = word.len() - 1;
        word[last] = 3;
        assert_eq!(compare(&plan, &word, met), Err(refused(18, &[last])));
    }
}

// The plan with one block fewer in a column.
fn without_block(plan: &Draft, j: usize) -> Draft {
    let mut plan = plan.clone();
    let filled = (0..plan.rows).map(|i| i * plan.cols + j).find(|&place| plan.entries[place] >= 0);
    plan.entries[filled.expect("a filled block")] = -1;
    plan
}

// The last byte of the largest words, and the first and the last column of the largest plans.
fn compare_largest(random: &Random, met: &mut Met) {
    for (rows, cols, lift) in [(192, 512, 128), (3, 16, 4096), (192, 16, 4096), (192, 512, 1)] {
        let Job { plan, word } = job_of(random, column_plan(random, rows, cols, lift, 3));
        let (flipper, last) = (Flipper::new(plan.lent()), word.len() - 1);
        for (byte, refusal) in [(2, 19), (3, 18), (255, 18)] {
            let mut word = word.clone();
            word[last] = byte;
            assert_eq!(compare_by(&flipper, &word, met).0, Err(refused(refusal, &[last])));
        }
        assert_eq!(compare_by(&flipper, &word[1..], met).0, Err(refused(16, &[])));
        for j in [0, cols - 1] {
            assert_eq!(compare(&without_block(&plan, j), &word, met), Err(refused(32, &[])), "column {j}");
        }
    }
}

pub fn compare_all(random: &Random, met: &mut Met) {
    compare_columns(random, met);
    compare_totals(random, met);
    compare_order(random, met);
    compare_largest(random, met);
}
