//! The proved change of one block beside a plain one.
use crate::common::{judge, timed, OwnedPlan};
use qcldpc::Plan;
use std::hint::black_box;
use std::time::Duration;

// How many changes are made in one timing.
const CHANGES: usize = 100;

// What the plain change works on.
struct Plain {
    entries: Vec<i16>,
    rows: usize,
    cols: usize,
    lift: usize,
    row_weights: Vec<u16>,
    col_weights: Vec<u16>,
}

// The weights, counted row by row.
fn count(entries: &[i16], rows: usize, cols: usize) -> (Vec<u16>, Vec<u16>) {
    let (mut row_weights, mut col_weights) = (vec![0; rows], vec![0; cols]);
    for (row, row_weight) in entries.chunks_exact(cols).zip(&mut row_weights) {
        *row_weight = row.iter().filter(|&&e| e >= 0).count() as u16;
        row.iter().zip(&mut col_weights).for_each(|(&e, col_weight)| *col_weight += (e >= 0) as u16);
    }
    (row_weights, col_weights)
}

impl Plain {
    fn new(plan: &OwnedPlan) -> Plain {
        let Plan { entries, rows, cols, lift } = plan.lent();
        let (row_weights, col_weights) = count(entries, rows, cols);
        Plain { entries: entries.to_vec(), rows, cols, lift, row_weights, col_weights }
    }

    // The same work as the call's: the plan is judged and its weights are counted anew.
    fn change(&mut self, row: usize, col: usize, entry: i16) -> Result<(), u64> {
        let Plain { entries, rows, cols, lift, row_weights, col_weights } = self;
        judge(&Plan { entries, rows: *rows, cols: *cols, lift: *lift })?;
        if entry < -1 {
            return Err(6);
        }
        if row >= *rows || col >= *cols {
            return Err(24);
        }
        let (counted_rows, counted_cols) = count(entries, *rows, *cols);
        if counted_rows != *row_weights || counted_cols != *col_weights {
            return Err(25);
        }
        let before = std::mem::replace(&mut entries[row * *cols + col], entry);
        for weight in [&mut row_weights[row], &mut col_weights[col]] {
            *weight = *weight + (entry >= 0) as u16 - (before >= 0) as u16;
        }
        Ok(())
    }

    fn same(&self, plan: &OwnedPlan) -> bool {
        self.entries == plan.entries() && self.row_weights == plan.row_weights() && self.col_weights == plan.col_weights()
    }
}

/// Both in turn on the last block, which is emptied and filled; best of 7 each.
pub fn beside(name: &str, plan: &OwnedPlan) {
    let (row, col) = (plan.rows() - 1, plan.cols() - 1);
    let (mut ours, mut theirs) = (plan.clone(), Plain::new(plan));
    let mut best = [Duration::MAX; 2];
    for _ in 0..7 {
        let entries = || (0..CHANGES).map(|k| black_box([-1, 0][k % 2]));
        timed(&mut best[0], || entries().for_each(|e| ours.change(row, col, e).expect("a block of the plan")));
        timed(&mut best[1], || entries().for_each(|e| theirs.change(row, col, e).expect("a block of the plan")));
        assert!(theirs.same(&ours), "the plans differ");
    }
    let [ours, theirs] = best.map(|t| t.as_secs_f64() * 1e6 / CHANGES as f64);
    println!("{name}, {} x {}: qcldpc_change {ours:.1} µs", plan.rows(), plan.cols());
    println!("  reference, same work for each change, {theirs:.1} µs, ratio {:.2}", ours / theirs);
}
