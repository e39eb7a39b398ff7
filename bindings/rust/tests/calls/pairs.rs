//! The girth test by sorted pairs of the largest plans, and with the largest trees.
use super::plans::{chain, full, plan_of, ring, turned_away};
use super::{expect, refusal, tables, Call};
use qcldpc::{OwnedPlan, Refusal};

// Blocks in the last three rows of the last two columns alone: many walks come over one bit to one check, and such nodes, which
// are alike, are the last that sorting parts from others.
fn corner(cols: usize, lift: usize) -> OwnedPlan {
    plan_of(192, cols, lift, |i, j| if i >= 189 && j + 2 >= cols { lift as i16 - 1 } else { -1 })
}

// The answer with a work list of so many places, which a refusal leaves as it was.
fn pairs(plan: OwnedPlan, target: usize, places: usize, wanted: Result<bool, Refusal>) -> Call {
    let before: Vec<u64> = (0..places as u64).collect();
    let mut work = before.clone();
    let run = move || {
        let answer = qcldpc::girth_pairs(&plan.lent(), target, &mut work);
        let free_or_kept = answer.is_ok() || work == before;
        (answer, free_or_kept)
    };
    expect(run, (wanted, true))
}

pub fn girth_pairs() -> Vec<Call> {
    let mut calls = vec![];
    for n in 2..9 {
        let target = 2 * n + 2;
        let mut add = |plan, passes| calls.push(pairs(plan, target, 1 << 16, Ok(passes)));
        add(ring(n), false);
        add(corner(512, 128), false);
        add(corner(16, 4096), false);
        add(chain(192, 512, 128), true);
        add(chain(192, 16, 4096), true);
        // Its girth is 12.
        add(tables::largest_plan(), target <= 12);
    }
    // A tree has 1 + 192 + 192 * 511 nodes.
    calls.push(pairs(full(128), 6, 98_305, Ok(false)));
    calls
}

pub fn girth_pairs_refused() -> Vec<Call> {
    let mut calls = turned_away(|plan| qcldpc::girth_pairs(plan, 18, &mut [0; 9]));
    let mut refused = |plan, target, places, number| calls.push(pairs(plan, target, places, Err(refusal(number, &[]))));
    refused(tables::largest_plan(), 20, 1 << 16, 14);
    // A tree has 1 + 3 + 18 + 36 + 216 + 432 + 2,592 + 5,184 + 31,104 nodes.
    refused(tables::largest_plan(), 18, 39_585, 26);
    refused(corner(16, 4096), 18, 90, 26);
    refused(chain(192, 16, 4096), 18, 0, 26);
    refused(full(128), 6, 98_304, 26);
    refused(full(128), 18, 1 << 20, 26);
    calls
}
