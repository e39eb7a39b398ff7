//! One block changed.
use super::weights::{laid, weights, Places, Weights};
use super::{plan, refused};
use qcldpc::{Plan, Refusal};

/// The block and its new entry.
#[derive(Clone, Copy, Debug)]
pub struct Change {
    pub row: usize,
    pub col: usize,
    pub entry: i16,
}

/// Refusals 1 to 6, 24 and 25; that of the plan comes before that of the new entry.
fn check(plan: &Plan, lent: &Weights, change: Change) -> Result<(), Refusal> {
    plan::check(plan)?;
    if change.entry < -1 {
        return Err(refused(6, &[plan.rows * plan.cols]));
    }
    if change.row >= plan.rows || change.col >= plan.cols {
        return Err(refused(24, &[]));
    }
    super::weights::check(&weights(plan), lent)
}

/// The answer, and the plan and the lists beside it as they are then.
pub fn change(plan: &Plan, lent: &Weights, change: Change) -> (Result<(), Refusal>, Places) {
    let mut entries = plan.entries.to_vec();
    if let Err(refusal) = check(plan, lent, change) {
        return (Err(refusal), Places { plan: entries, weights: lent.clone() });
    }
    entries[change.row * plan.cols + change.col] = change.entry;
    (Ok(()), laid(entries, plan.rows, plan.cols))
}
