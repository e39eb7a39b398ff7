//! The weights of a plan, two lists beside it, and refusal 25.
use super::refused;
use qcldpc::{Plan, Refusal};

/// How many filled blocks each row has, and how many each column has.
#[derive(Clone, Debug, PartialEq, Eq)]
pub struct Weights {
    pub rows: Vec<u16>,
    pub cols: Vec<u16>,
}

/// A plan's entries and the lists beside them, as they are lent to a call that writes them.
#[derive(Clone, Debug, PartialEq, Eq)]
pub struct Places {
    pub plan: Vec<i16>,
    pub weights: Weights,
}

/// The weights of a plan that is not refused.
pub fn weights(plan: &Plan) -> Weights {
    let filled = |i: usize, j: usize| plan.entries[i * plan.cols + j] >= 0;
    let row = |i: usize| (0..plan.cols).filter(|&j| filled(i, j)).count() as u16;
    let col = |j: usize| (0..plan.rows).filter(|&i| filled(i, j)).count() as u16;
    Weights { rows: (0..plan.rows).map(row).collect(), cols: (0..plan.cols).map(col).collect() }
}

/// Refusal 25: a list of another length, or with a wrong count.
pub fn check(right: &Weights, lent: &Weights) -> Result<(), Refusal> {
    if lent != right {
        return Err(refused(25, &[]));
    }
    Ok(())
}

/// Whether the lists have the lengths that a plan of so many rows and columns needs: a builder asks no more.
pub fn have_room(lent: &Weights, rows: usize, cols: usize) -> bool {
    lent.rows.len() == rows && lent.cols.len() == cols
}

/// What a builder leaves: the plan and its weights.
pub fn laid(plan: Vec<i16>, rows: usize, cols: usize) -> Places {
    let weights = weights(&Plan { entries: &plan, rows, cols, lift: 1 });
    Places { plan, weights }
}
