//! One block changed in the largest plans.
use super::plans::{chain, full, largest, turned_away};
use super::weights::{any_weights, weights, wrong_weights, Weights};
use super::{expect, refusal, Call};
use qcldpc::{OwnedPlan, Refusal};

// The row, the column and the new entry.
type Block = (usize, usize, i16);

// The plan with an entry changed.
fn changed(plan: &OwnedPlan, (row, col, entry): Block) -> OwnedPlan {
    let mut entries = plan.entries().to_vec();
    entries[row * plan.cols() + col] = entry;
    OwnedPlan::new(entries, plan.rows(), plan.cols(), plan.lift()).expect("a good plan")
}

// The answer to a change, and whether the plan and its weights are then those of `after`.
fn changes(plan: &OwnedPlan, lent: Weights, block: Block, wanted: Result<(), Refusal>, after: (Vec<i16>, Weights)) -> Call {
    let (rows, cols, lift, mut entries) = (plan.rows(), plan.cols(), plan.lift(), plan.entries().to_vec());
    let ([mut row_weights, mut col_weights], (row, col, entry)) = (lent, block);
    let run = move || {
        let answer = qcldpc::change(&mut entries, rows, cols, lift, row, col, entry, &mut row_weights, &mut col_weights);
        (answer, (entries, [row_weights, col_weights]) == after)
    };
    expect(run, (wanted, true))
}

// A change that is made.
fn made(plan: &OwnedPlan, block: Block) -> Call {
    let after = changed(plan, block);
    changes(plan, weights(plan), block, Ok(()), (after.entries().to_vec(), weights(&after)))
}

// A change that is refused, with the plan and its weights as they were lent.
fn kept(plan: &OwnedPlan, lent: Weights, block: Block, wanted: Refusal) -> Call {
    let after = (plan.entries().to_vec(), lent.clone());
    changes(plan, lent, block, Err(wanted), after)
}

/// The first block and the last: emptied, filled with the least and with the largest entry.
pub fn change() -> Vec<Call> {
    let plans = largest().into_iter().chain([full(128)]);
    let all = |plan: OwnedPlan| {
        let places = [(0, 0), (plan.rows() - 1, plan.cols() - 1)];
        places.map(|(row, col)| [-1, 0, i16::MAX].map(|entry| made(&plan, (row, col, entry)))).into_iter().flatten()
    };
    plans.flat_map(all).collect()
}

pub fn change_refused() -> Vec<Call> {
    let mut calls = turned_away(|plan| {
        let (mut entries, [mut rows, mut cols]) = (plan.entries.to_vec(), any_weights());
        qcldpc::change(&mut entries, plan.rows, plan.cols, plan.lift, 0, 0, 0, &mut rows, &mut cols)
    });
    for plan in [chain(192, 512, 128), chain(192, 16, 4096), full(1)] {
        let (rows, cols) = (plan.rows(), plan.cols());
        let right = weights(&plan);
        let mut refused = |lent: &Weights, block, wanted| calls.push(kept(&plan, lent.clone(), block, wanted));
        refused(&right, (0, 0, -2), refusal(6, &[(rows * cols) as u64]));
        refused(&right, (rows, 0, 0), refusal(24, &[]));
        refused(&right, (0, cols, 0), refusal(24, &[]));
        wrong_weights(&plan).iter().for_each(|wrong| refused(wrong, (rows - 1, cols - 1, 0), refusal(25, &[])));
    }
    calls
}
