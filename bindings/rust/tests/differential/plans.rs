//! The plan check.
use crate::door::{agree, left, lend_numbers, no_room, reply, with_room, Short};
use crate::inputs::{any_plan, every_entry, limit_plans, Draft};
use crate::owned;
use crate::random::Random;
use crate::reference;
use crate::seen::Seen;
use qcldpc::raw::qcldpc_check;
use qcldpc::OwnedPlan;

// Also as the entries of an owned plan.
fn compare(draft: &Draft, seen: &mut Seen) {
    let plan = &draft.lent();
    let wanted = reference::plan::check(plan);
    let input = &Short(plan);
    let (rows, cols, lift) = (plan.rows as u64, plan.cols as u64, plan.lift as u64);
    let mut lent = lend_numbers(plan.entries);
    // SAFETY: here and in the other subjects, each pointer goes with the length of its memory.
    let mut call = |out, places| unsafe { qcldpc_check(lent.pointer(), lent.len(), rows, cols, lift, out, places) };
    no_room(&mut call);
    agree(input, with_room(&mut call), reply(&wanted.clone().map(|_| vec![])));
    left(input, &lent, plan.entries);
    agree(input, &qcldpc::check(plan), &wanted);
    let made = OwnedPlan::new(draft.entries.clone(), draft.rows, draft.cols, draft.lift);
    owned::same(input, made, wanted.clone().map(|_| draft.clone()));
    seen.note_on(plan, &wanted);
}

/// All ways in which limits can be passed by one.
fn edges() -> Vec<Draft> {
    let shape = |rows, cols, lift| Draft { entries: vec![0; rows * cols], rows, cols, lift };
    let mut plans = vec![];
    for rows in [0, 1, 2, 191, 192, 193] {
        for cols in [0, 1, 15, 16, 17, 127, 128, 129, 511, 512, 513] {
            for lift in [0, 1, 127, 128, 129, 511, 512, 513, 4095, 4096, 4097] {
                plans.push(shape(rows, cols, lift));
            }
        }
    }
    plans
}

pub fn compare_all() -> Seen {
    let (random, mut seen) = (Random::new(1), Seen::default());
    limit_plans(&random).iter().for_each(|plan| compare(plan, &mut seen));
    edges().iter().for_each(|plan| compare(plan, &mut seen));
    [1, 7, 4096].into_iter().flat_map(every_entry).for_each(|plan| compare(&plan, &mut seen));
    for _ in 0..20000 {
        compare(&any_plan(&random, 2), &mut seen);
    }
    seen
}
