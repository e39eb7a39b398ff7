//! The plans that the two girth tests go over, and the targets.
use crate::inputs::{any_plan, column_plan, limit_plans, Draft};
use crate::random::Random;
use crate::tables::{built_plans, cyclic_plan};
use crate::{steiner, table_vi};
use qcldpc::Plan;

pub const TARGETS: [usize; 7] = [6, 8, 10, 12, 14, 16, 18];

/// Targets that are refused.
pub const OTHER_TARGETS: [usize; 13] = [0, 2, 4, 5, 7, 11, 13, 15, 17, 19, 20, 6 + (1 << 32), usize::MAX];

/// Judges a plan at every target, allowed or not. Gives its girth, up to 18, where it is not refused.
pub type Judge<'a> = dyn FnMut(&Plan) -> Option<usize> + 'a;

/// A plan of which each girth from 4 to 18 and more is likely; 14 is so of Steiner plans.
pub fn likely_plan(random: &Random) -> Draft {
    if random.once_in(8) {
        return steiner::random_plan(random, 7, random.between(20, 1000));
    }
    let lift = random.between(2, 60);
    let (rows, cols) = random.choice(&[(2, 2), (2, 3), (2, 5), (3, 3), (3, 4), (4, 6), (8, 8), (12, 20)]);
    let weight = random.choice(&[2, 2, 3]).min(rows);
    column_plan(random, rows, cols, lift, weight)
}

/// A plan without blocks.
pub fn empty_plan(rows: usize, cols: usize, lift: usize) -> Draft {
    Draft { entries: vec![-1; rows * cols], rows, cols, lift }
}

/// A cycle of 2n edges in the n rows and columns from (row, col) on. A shift is the sum of a number of its row and one of its
/// column, so that the cycle closes on its first round.
pub fn put_ring(plan: &mut Draft, row: usize, col: usize, n: usize) {
    for k in 0..n {
        let i = row + k;
        for j in [col + k, col + (k + 1) % n] {
            plan.entries[i * plan.cols + j] = ((3 * i + 5 * j) % plan.lift) as i16;
        }
    }
}

// Cycles side by side, one of 2n edges for each n, with no edge between them.
fn rings(halves: &[usize], lift: usize) -> Draft {
    let size = halves.iter().sum();
    let mut plan = empty_plan(size, size, lift);
    let mut first = 0;
    for &n in halves {
        put_ring(&mut plan, first, first, n);
        first += n;
    }
    plan
}

// Cycles of several lengths: the girth is that of the shortest, wherever it stands.
fn judge_rings(judge: &mut Judge) {
    for choice in 1..128 {
        let rising: Vec<usize> = (2..9).filter(|n| choice >> (n - 2) & 1 == 1).collect();
        let falling: Vec<usize> = rising.iter().rev().copied().collect();
        for lift in [1, 2, 7] {
            for halves in [&rising, &falling] {
                assert_eq!(judge(&rings(halves, lift).lent()), Some(2 * rising[0]), "the girth of {halves:?}");
            }
        }
    }
}

// One cycle in the last rows and columns of the largest plans, where the search begins last.
fn judge_last_rings(judge: &mut Judge) {
    for (rows, cols, lift) in [(192, 512, 128), (192, 16, 4096), (8, 512, 1), (192, 8, 4096)] {
        for n in 2..9 {
            let mut plan = empty_plan(rows, cols, lift);
            put_ring(&mut plan, rows - n, cols - n, n);
            assert_eq!(judge(&plan.lent()), Some(2 * n), "the girth of {n} rows of {rows}");
        }
    }
}

// Table plans, Steiner plans, and those of a source with the girth that it prints.
fn judge_built(random: &Random, judge: &mut Judge) {
    for plan in built_plans(random) {
        assert!(judge(&plan.lent()) >= Some(12), "every table plan passes at 12");
    }
    judge(&cyclic_plan(4, 1024).lent());
    for plan in steiner::built_plans(random) {
        assert!(judge(&plan.lent()) >= Some(6), "every Steiner plan passes at 6");
    }
    for (plan, girth) in table_vi::plans() {
        assert_eq!(judge(&plan.lent()), Some(girth), "the girth that is printed");
    }
}

// Small plans, some of them refused, and plans of every girth.
fn judge_random(random: &Random, judge: &mut Judge) {
    let mut met = [0; 19];
    for k in 0..6000 {
        let plan = if k < 3000 { any_plan(random, 8) } else { likely_plan(random) };
        if let Some(girth) = judge(&plan.lent()) {
            met[girth] += 1;
        }
    }
    assert!((4..=18).step_by(2).all(|g| met[g] > 80), "each girth is met: {met:?}");
}

/// The same plans in every run and for both tests.
pub fn go_over(judge: &mut Judge) {
    let random = Random::new(2);
    for plan in limit_plans(&random) {
        judge(&plan.lent());
    }
    judge_built(&random, judge);
    judge_rings(judge);
    judge_last_rings(judge);
    judge_random(&random, judge);
}
