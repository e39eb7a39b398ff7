//! Two of the largest plans joined.
use super::plans::{chain, full, plan_of, turned_away};
use super::{expect, refusal, tables, Call};
use qcldpc::{OwnedPlan, Plan, Refusal};

// Each place of the joined plan before the call.
const BEFORE: i16 = 7;

// A plan that is never refused for itself.
const SMALLEST: Plan = Plan { entries: &[0], rows: 1, cols: 1, lift: 1 };

// The plan with another lift and voltages.
fn other(plan: &OwnedPlan, lift: usize) -> OwnedPlan {
    let entry = |place: usize| if plan.entries()[place] < 0 { -1 } else { i16::MAX - (place % 512) as i16 };
    plan_of(plan.rows(), plan.cols(), lift, |i, j| entry(i * plan.cols() + j))
}

// Whether an entry of the joined plan is in range and leaves a plan's remainder, or is empty where that is.
fn leaves(plan: &Plan, place: usize, lift: usize, x: i16) -> bool {
    match plan.entries[place] {
        -1 => x == -1,
        e => x >= 0 && (x as usize) < lift && x as usize % plan.lift == e as usize % plan.lift,
    }
}

// The answer, and whether all entries are right.
fn joins(first: OwnedPlan, second: OwnedPlan) -> Call {
    let mut joined = vec![BEFORE; first.entries().len()];
    let lift = first.lift() * second.lift();
    let run = move || {
        let (first, second) = (first.lent(), second.lent());
        let answer = qcldpc::join(&first, &second, &mut joined);
        let right = |plan: &Plan| joined.iter().enumerate().all(|(place, &x)| leaves(plan, place, lift, x));
        (answer, right(&first) && right(&second))
    };
    expect(run, (Ok(lift), true))
}

// A refusal, with the place as it was lent.
fn refuses(first: OwnedPlan, second: OwnedPlan, places: usize, wanted: Refusal) -> Call {
    let mut joined = vec![BEFORE; places];
    let run = move || {
        let answer = qcldpc::join(&first.lent(), &second.lent(), &mut joined);
        (answer, joined.iter().all(|&x| x == BEFORE))
    };
    expect(run, (Err(wanted), true))
}

/// All blocks filled, few filled, a table plan, the largest lifts; the larger lift first and last.
pub fn join() -> Vec<Call> {
    let plans = [
        (full(8), 15),
        (full(127), 1),
        (full(1), 128),
        (chain(192, 512, 11), 9),
        (chain(192, 16, 4096), 1),
        (chain(192, 16, 63), 65),
        (chain(192, 16, 1), 4096),
        (tables::largest_plan(), 1),
    ];
    let both = |(first, lift)| {
        let second = other(&first, lift);
        [joins(first.clone(), second.clone()), joins(second, first)]
    };
    plans.into_iter().flat_map(both).collect()
}

pub fn join_refused() -> Vec<Call> {
    let mut calls = turned_away(|plan| qcldpc::join(plan, &SMALLEST, &mut []));
    calls.extend(turned_away(|plan| qcldpc::join(&SMALLEST, plan, &mut [])));
    let all = 192 * 512;
    let mut refused = |first: OwnedPlan, second: OwnedPlan, places, number| {
        calls.push(refuses(first, second, places, refusal(number, &[])));
    };
    refused(chain(192, 16, 4096), chain(192, 16, 4095), 192 * 16, 3);
    refused(chain(192, 16, 17), chain(192, 16, 241), 192 * 16, 3);
    refused(full(3), full(43), all, 4);
    refused(full(8), full(16), all, 27);
    refused(chain(192, 16, 64), chain(192, 16, 64), 192 * 16, 27);
    // The last block alone is filled in one of them.
    refused(plan_of(192, 512, 11, |_, _| -1), plan_of(192, 512, 9, |i, j| if i + j == 702 { 0 } else { -1 }), all, 28);
    refused(chain(192, 16, 7), chain(16, 192, 8), 192 * 16, 28);
    for places in [0, all - 1, all + 1] {
        refused(full(8), full(15), places, 29);
    }
    calls
}
