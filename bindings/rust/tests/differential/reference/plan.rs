//! Refusals 1 to 6.
use super::{applying, refused};
use qcldpc::{Plan, Refusal};

/// All that apply, the lowest first.
pub fn refusals(plan: &Plan) -> Vec<Refusal> {
    let (rows, cols, lift) = (plan.rows as u128, plan.cols as u128, plan.lift as u128);
    let bad = plan.entries.iter().position(|&e| e < -1);
    applying([
        (!(1..=192).contains(&rows), refused(1, &[])),
        (!(1..=512).contains(&cols), refused(2, &[])),
        (!(1..=4096).contains(&lift), refused(3, &[])),
        (cols * lift > 65536, refused(4, &[])),
        (plan.entries.len() as u128 != rows * cols, refused(5, &[])),
        (bad.is_some(), refused(6, &[bad.unwrap_or(0)])),
    ])
}

pub fn check(plan: &Plan) -> Result<(), Refusal> {
    refusals(plan).into_iter().next().map_or(Ok(()), Err)
}
