//! Plans that miss the bi-diagonal shape in one way, by which no data are encoded.
use crate::bidiagonal::{any_three, shaped, shaped_at, EQUAL};
use crate::encode::{compare, job_of, Job, Met};
use crate::inputs::{plan_of, printed, Draft};
use crate::random::Random;
use crate::seen::number;

// One entry of a plan is another, and the answer is this.
fn compare_with(random: &Random, plan: &Draft, place: usize, entry: i16, wanted: u64, met: &mut Met) {
    let mut plan = plan.clone();
    plan.entries[place] = entry;
    let answer = number(&compare(&job_of(random, plan.clone()), met));
    assert_eq!(answer, wanted, "{entry} at {place} of {plan:?}");
}

// Each block of the bi-diagonal part other than it should be: empty, with each remainder, or filled where it is to be empty.
fn compare_diagonals(random: &Random, plan: &Draft, met: &mut Met) {
    for (i, k) in (0..plan.rows).flat_map(|i| (0..plan.rows - 1).map(move |k| (i, k))) {
        let on = i == k || i == k + 1;
        let mut with = |entry, wanted| compare_with(random, plan, i * plan.cols + k, entry, wanted, met);
        with(-1, if on { 30 } else { 0 });
        for remainder in 0..plan.lift {
            let wanted = if on && remainder == 0 { 0 } else { 30 };
            with(remainder as i16, wanted);
            with(printed(random, remainder, plan.lift), wanted);
        }
    }
}

// Column m − 1 with two blocks, with four, and with each remainder in the place of each of the three.
fn compare_last(random: &Random, plan: &Draft, met: &mut Met) {
    let column: Vec<usize> = (0..plan.rows).map(|i| i * plan.cols + plan.rows - 1).collect();
    let filled: Vec<usize> = column.iter().copied().filter(|&place| plan.entries[place] >= 0).collect();
    let by_lift = |place: &usize| plan.entries[*place] as usize % plan.lift;
    for place in column {
        let mut with = |entry, wanted| compare_with(random, plan, place, entry, wanted, met);
        with(-1, if filled.contains(&place) { 30 } else { 0 });
        for remainder in 0..plan.lift {
            let others: Vec<usize> = filled.iter().filter(|&&other| other != place).map(by_lift).collect();
            let fits = others.len() == 2 && (others[0] == others[1] || others.contains(&remainder));
            with(printed(random, remainder, plan.lift), if fits { 0 } else { 30 });
        }
    }
}

// Column m − 1 with any number of blocks but three.
fn compare_weights(random: &Random, rows: usize, met: &mut Met) {
    for blocks in (0..=rows).filter(|&blocks| blocks != 3) {
        let mut plan = shaped(random, [rows, rows + 2, 5], 4);
        let places = random.distinct(blocks, rows);
        for i in 0..rows {
            plan.entries[i * plan.cols + rows - 1] = if places.contains(&i) { 2 } else { -1 };
        }
        assert_eq!(number(&compare(&job_of(random, plan), met)), 30, "{blocks} blocks");
    }
}

// Plans of the shape in all but one block.
fn compare_shapes(random: &Random, met: &mut Met) {
    for (rows, lift) in [(3, 1), (3, 2), (3, 4), (4, 3), (5, 2), (6, 3), (9, 2)] {
        for equal in EQUAL {
            let plan = shaped_at(random, [rows, rows + 2, lift], 4, any_three(random, rows, lift, equal));
            compare_diagonals(random, &plan, met);
            compare_last(random, &plan, met);
        }
        compare_weights(random, rows, met);
    }
}

// Blocks far down and far to the right, of a plan with as many rows as it may have: on both diagonals, and beside them.
fn compare_far(random: &Random, met: &mut Met) {
    let plan = shaped(random, [192, 194, 3], 1);
    for k in (0..191).step_by(5).chain([189, 190]) {
        for (i, entry) in [(k, 1), (k + 1, -1), (k, -1), (k + 1, 2)] {
            compare_with(random, &plan, i * 194 + k, entry, 30, met);
        }
        let beside = (k + random.between(2, 191)) % 192;
        compare_with(random, &plan, beside * 194 + k, 0, 30, met);
    }
}

// The bi-diagonal columns alone, of one and of two rows, and those of more without a column of data.
fn compare_narrow(random: &Random, met: &mut Met) {
    for (rows, cols) in [(1, 1), (1, 2), (1, 5), (2, 2), (2, 3), (2, 7), (3, 2), (3, 3), (4, 1), (7, 7), (192, 192)] {
        let lift = random.between(1, 5);
        let mut plan = plan_of(random, rows, cols, lift, 8);
        for (i, j) in (0..rows).flat_map(|i| (0..cols.min(rows)).map(move |j| (i, j))) {
            let filled = if j + 1 == rows { i < 3 } else { j == i || j + 1 == i };
            plan.entries[i * cols + j] = if filled { 0 } else { -1 };
        }
        let (data, word) = (vec![1; cols.saturating_sub(rows) * lift], vec![2; cols * lift]);
        assert_eq!(number(&compare(&Job { plan, data, word }, met)), 30, "{rows} x {cols}");
    }
}

pub fn compare_all(random: &Random, met: &mut Met) {
    compare_shapes(random, met);
    compare_far(random, met);
    compare_narrow(random, met);
}
