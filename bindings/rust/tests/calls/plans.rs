//! The largest plans and refused ones; the plan check and the girth test of them.
use super::{expect, refusal, tables, Call};
use qcldpc::{Girth, OwnedPlan, Plan, Refusal};
use std::fmt::Debug;

// The entries of a plan, row by row.
fn entries_of(rows: usize, cols: usize, entry: impl Fn(usize, usize) -> i16) -> Vec<i16> {
    (0..rows * cols).map(|k| entry(k / cols, k % cols)).collect()
}

pub fn plan_of(rows: usize, cols: usize, lift: usize, entry: impl Fn(usize, usize) -> i16) -> OwnedPlan {
    OwnedPlan::new(entries_of(rows, cols, entry), rows, cols, lift).expect("a good plan")
}

/// Row i has blocks in columns i and i + 1 alone, so that one known column gives the next.
pub fn chain(rows: usize, cols: usize, lift: usize) -> OwnedPlan {
    plan_of(rows, cols, lift, |i, j| if i + 1 < cols && (j == i || j == i + 1) { 0 } else { -1 })
}

/// Row i has blocks in columns 2i and 2i + 1, the last row in one column alone: the last lists of its alist alone are short.
pub fn pairs() -> OwnedPlan {
    plan_of(192, 383, 171, |i, j| if j / 2 == i { 170 } else { -1 })
}

/// All blocks are filled, with one remainder; most voltages are above the lift.
pub fn full(lift: usize) -> OwnedPlan {
    plan_of(192, 512, lift, |i, j| (lift - 1 + (i + j) % 8 * lift) as i16)
}

/// All columns, the largest lift, all blocks filled, and the largest table plan.
pub fn largest() -> [OwnedPlan; 4] {
    [chain(192, 512, 128), chain(192, 16, 4096), full(1), tables::largest_plan()]
}

/// The largest plan with blocks only in its last n rows and columns, around a cycle of 2n edges.
pub fn ring(n: usize) -> OwnedPlan {
    plan_of(192, 512, 128, |i, j| match (i.checked_sub(192 - n), j.checked_sub(512 - n)) {
        (Some(i), Some(j)) if j == i || j == (i + 1) % n => 127,
        _ => -1,
    })
}

// Entries, rows, columns and lift for each of refusals 1 to 6, with the refusal.
fn refused() -> [(Vec<i16>, [usize; 3], Refusal); 6] {
    let zeros = |rows: usize, cols: usize| vec![0; rows * cols];
    let last = |bad| entries_of(192, 512, |i, j| if i == 191 && j == 511 { bad } else { -1 });
    [
        (zeros(193, 512), [193, 512, 128], refusal(1, &[])),
        (zeros(192, 513), [192, 513, 127], refusal(2, &[])),
        (zeros(192, 15), [192, 15, 4097], refusal(3, &[])),
        (zeros(192, 512), [192, 512, 129], refusal(4, &[])),
        (vec![0; 192 * 512 - 1], [192, 512, 128], refusal(5, &[])),
        (last(-2), [192, 512, 128], refusal(6, &[192 * 512 - 1])),
    ]
}

/// A call on each refused plan.
pub fn turned_away<T: PartialEq + Debug + Send + 'static>(call: fn(&Plan) -> Result<T, Refusal>) -> Vec<Call> {
    let refuse = |(entries, [rows, cols, lift], wanted): (Vec<i16>, [usize; 3], Refusal)| {
        expect(move || call(&Plan { entries: &entries, rows, cols, lift }), Err(wanted))
    };
    refused().into_iter().map(refuse).collect()
}

pub fn check() -> Vec<Call> {
    let plans = largest().into_iter().chain([full(128)]);
    plans.map(|plan| expect(move || qcldpc::check(&plan.lent()), Ok(()))).collect()
}

pub fn check_refused() -> Vec<Call> {
    turned_away(qcldpc::check)
}

fn joins(plan: &Plan, check: usize, bit: usize) -> bool {
    let e = plan.entries[check / plan.lift * plan.cols + bit / plan.lift];
    e >= 0 && (check + e as usize) % plan.lift == bit % plan.lift
}

// How many checks the shown cycle has, which must be one; 0 where the plan passes.
fn shown(plan: &Plan, target: usize) -> Result<usize, Refusal> {
    let Girth::Failed { checks, bits } = qcldpc::girth(plan, target)? else { return Ok(0) };
    let n = checks.len();
    assert!((0..n).all(|k| joins(plan, checks[k], bits[k]) && joins(plan, checks[(k + 1) % n], bits[k])), "no cycle");
    Ok(n)
}

pub fn girth() -> Vec<Call> {
    let mut calls = vec![];
    let mut add = |plan: OwnedPlan, target, n| calls.push(expect(move || shown(&plan.lent(), target), Ok(n)));
    for n in 2..9 {
        let target = 2 * n + 2;
        add(ring(n), target, n);
        add(full(128), target, 2);
        add(chain(192, 512, 128), target, 0);
        add(chain(192, 16, 4096), target, 0);
        // Its girth is 12.
        add(tables::largest_plan(), target, if target > 12 { 6 } else { 0 });
    }
    calls
}

pub fn girth_refused() -> Vec<Call> {
    let mut calls = turned_away(|plan| qcldpc::girth(plan, 18));
    let plan = tables::largest_plan();
    calls.push(expect(move || qcldpc::girth(&plan.lent(), 20), Err(refusal(14, &[]))));
    calls
}
