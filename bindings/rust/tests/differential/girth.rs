//! The girth test.
use crate::door::{agree, left, lend_numbers, no_room, reply, with_room, Short};
use crate::inputs::{every_entry, small_plan};
use crate::judged::{self, likely_plan, OTHER_TARGETS, TARGETS};
use crate::random::Random;
use crate::reference;
use crate::reference::graph::{graph, Graph};
use crate::seen::Seen;
use qcldpc::raw::qcldpc_girth;
use qcldpc::{Girth, Plan};

// A plan and a target that are refused.
fn compare_refused(plan: &Plan, target: usize, seen: &mut Seen) {
    let wanted = reference::girth::refusal(plan, target).expect_err("this input is to be refused");
    let input = &(Short(plan), target);
    agree(input, raw_reply(plan, target), reply(&Err(wanted.clone())));
    agree(input, &qcldpc::girth(plan, target), &Err(wanted.clone()));
    seen.note_on(plan, &Err::<(), _>(wanted));
}

// What the raw function returns and leaves in `out`.
fn raw_reply(plan: &Plan, target: usize) -> (u64, Vec<u64>) {
    let (rows, cols, lift) = (plan.rows as u64, plan.cols as u64, plan.lift as u64);
    let mut lent = lend_numbers(plan.entries);
    let mut call =
        |out, places| unsafe { qcldpc_girth(lent.pointer(), lent.len(), rows, cols, lift, target as u64, out, places) };
    no_room(&mut call);
    let got = with_room(&mut call);
    left(&Short(plan), &lent, plan.entries);
    got
}

// The shown cycle in `out`: n, then eight places of checks and eight of bits; the other places keep what they held.
fn out_of(checks: &[usize], bits: &[usize]) -> (u64, Vec<u64>) {
    let mut values = vec![checks.len()];
    for nodes in [checks, bits] {
        values.extend((0..8).map(|k| nodes.get(k).copied().unwrap_or(0)));
    }
    reply(&Ok(values))
}

// A good plan at a target, with its graph and girth.
fn compare_good(plan: &Plan, graph: &Graph, girth: usize, target: usize, seen: &mut Seen) {
    let input = &(Short(plan), target);
    let answer = qcldpc::girth(plan, target);
    seen.note_on(plan, &answer);
    let answer = answer.unwrap_or_else(|refusal| panic!("{refusal} for {input:?}"));
    agree(input, answer.girth(), (girth < target).then_some(girth));
    let (checks, bits) = match answer {
        Girth::Passed => (vec![], vec![]),
        Girth::Failed { checks, bits } => (checks, bits),
    };
    if girth < target {
        agree(input, reference::girth::fault(graph, girth, &checks, &bits), None);
    }
    agree(input, raw_reply(plan, target), out_of(&checks, &bits));
}

/// A plan at every target, allowed or not. Gives its girth, up to 18, where it is not refused.
pub fn compare(plan: &Plan, seen: &mut Seen) -> Option<usize> {
    if reference::plan::check(plan).is_err() {
        TARGETS.iter().for_each(|&target| compare_refused(plan, target, seen));
        compare_refused(plan, 7, seen);
        return None;
    }
    OTHER_TARGETS.iter().for_each(|&target| compare_refused(plan, target, seen));
    let graph = graph(plan);
    let girth = reference::girth::girth(&graph, plan.lift);
    TARGETS.iter().for_each(|&target| compare_good(plan, &graph, girth, target, seen));
    Some(girth)
}

// The search from the bits with z = 0 finds what the search from every bit finds.
fn compare_starts(random: &Random) {
    for k in 0..2000 {
        let plan = if k % 2 == 0 { small_plan(random) } else { likely_plan(random) };
        let graph = graph(&plan.lent());
        let every = reference::girth::girth_from_every_bit(&graph);
        agree(&Short(&plan.lent()), reference::girth::girth(&graph, plan.lift), every);
    }
}

pub fn compare_all() -> Seen {
    let mut seen = Seen::default();
    compare_starts(&Random::new(2));
    judged::go_over(&mut |plan| compare(plan, &mut seen));
    // By the remainders 0 to 3 of e: girth 4, 16, 8, 16.
    every_entry(4).for_each(|plan| _ = compare(&plan.lent(), &mut seen));
    seen
}
