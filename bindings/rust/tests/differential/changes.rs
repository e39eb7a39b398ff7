//! One block changed.
use crate::door::{agree, lend_places, writes, Short};
use crate::inputs::{any_plan, column_plan, limit_plans, plan_of, small_plan, Draft};
use crate::lent::LentPlaces;
use crate::random::Random;
use crate::reference;
use crate::reference::change::Change;
use crate::reference::weights::{Places, Weights};
use crate::seen::{number, Seen};
use crate::walk::compare_list;
use crate::weights::{any_weights, wrong_weights, WAYS};
use crate::{owned, steiner, tables};
use qcldpc::raw::qcldpc_change;
use qcldpc::{OwnedPlan, Refusal};

/// What the inputs have met: results, by whether the block was filled before and is after; refusals of the new entry.
#[derive(Default)]
pub struct Met {
    seen: Seen,
    turns: [[usize; 2]; 2],
    new_entries: usize,
}

impl Met {
    pub fn note(&mut self, plan: &Draft, change: Change, answer: &Result<(), Refusal>) {
        self.seen.note_on(&plan.lent(), answer);
        match answer {
            Ok(()) => {
                let before = plan.entries[change.row * plan.cols + change.col];
                self.turns[(before >= 0) as usize][(change.entry >= 0) as usize] += 1;
            }
            Err(refusal) => self.new_entries += (refusal.values == [plan.entries.len() as u64]) as usize,
        }
    }
}

/// The raw function on lent memory.
pub fn raw_change(plan: &Draft, change: Change, memory: &mut LentPlaces, out: *mut u64, len: usize) -> u64 {
    let (rows, cols, lift) = (plan.rows as u64, plan.cols as u64, plan.lift as u64);
    let (row, col, entry) = (change.row as u64, change.col as u64, change.entry);
    let (p, n, r, rn, c, cn) = memory.raw();
    unsafe { qcldpc_change(p, n, rows, cols, lift, row, col, entry, r, rn, c, cn, out, len) }
}

fn safe_change(plan: &Draft, change: Change, Places { plan: entries, weights }: &mut Places) -> Result<(), Refusal> {
    let (Change { row, col, entry }, Weights { rows, cols }) = (change, weights);
    qcldpc::change(entries, plan.rows, plan.cols, plan.lift, row, col, entry, rows, cols)
}

pub fn owned_plan(plan: &Draft) -> Result<OwnedPlan, Refusal> {
    OwnedPlan::new(plan.entries.clone(), plan.rows, plan.cols, plan.lift)
}

// An owned plan answers as the call does with the plan's weights.
fn compare_owned(plan: &Draft, change: Change) {
    let Ok(mut owned) = owned_plan(plan) else { return };
    let (answer, after) = reference::change::change(&plan.lent(), &plan.weights(), change);
    let input = &(Short(&plan.lent()), change);
    agree(input, owned.change(change.row, change.col, change.entry), answer);
    agree(input, owned::places(&owned), after);
}

// Through the raw function, with all lent memory compared, and through the safe ones. Gives the number of the answer.
fn compare(plan: &Draft, weights: &Weights, change: Change, met: &mut Met) -> u64 {
    let (answer, after) = reference::change::change(&plan.lent(), weights, change);
    let input = &(Short(&plan.lent()), weights, change);
    let lent = plan.with(weights);
    let call = |memory: &mut LentPlaces, out, len| raw_change(plan, change, memory, out, len);
    writes(input, lend_places(&lent), [&lent, &after], &answer.clone().map(|_| vec![]), call);
    let mut copy = lent;
    agree(input, &safe_change(plan, change, &mut copy), &answer);
    agree(input, &copy, &after);
    compare_owned(plan, change);
    met.note(plan, change, &answer);
    number(&answer)
}

// Entries at the ends of what is allowed, and beyond.
fn entries(lift: usize) -> [i16; 7] {
    [-1, 0, lift as i16 - 1, lift as i16, i16::MAX, -2, i16::MIN]
}

// A good plan, and with one fault for each of refusals 1 to 6.
fn faulty(good: &Draft) -> [Draft; 7] {
    let with = |damage: fn(&mut Draft)| {
        let mut plan = good.clone();
        damage(&mut plan);
        plan
    };
    [
        with(|_| ()),
        with(|plan| plan.rows = 0),
        with(|plan| plan.cols = 513),
        with(|plan| plan.lift = 0),
        with(|plan| plan.lift = 65536 / plan.cols + 1),
        with(|plan| _ = plan.entries.pop()),
        with(|plan| plan.entries[7] = -2),
    ]
}

// Every fault beside every other: of the plan, the new entry, the row, the column and the weights.
fn compare_faults(random: &Random, met: &mut Met) {
    let good = plan_of(random, 4, 20, 7, 5);
    let right = good.weights();
    for plan in faulty(&good) {
        for entry in entries(7) {
            for (row, col) in [2, 4, usize::MAX].into_iter().flat_map(|row| [3, 20, usize::MAX].map(|col| (row, col))) {
                let change = Change { row, col, entry };
                compare(&plan, &right, change, met);
                (0..WAYS).for_each(|way| _ = compare(&plan, &wrong_weights(&right, way), change, met));
            }
        }
    }
}

// The sides of the largest plans, and just outside; entries at the ends; weights that are wrong in every way.
fn compare_limits(random: &Random, met: &mut Met) {
    for plan in limit_plans(random) {
        let (right, last) = (plan.weights(), (plan.rows - 1, plan.cols - 1));
        let change = |(row, col), entry| Change { row, col, entry };
        for row in [0, last.0, plan.rows, usize::MAX] {
            for col in [0, last.1, plan.cols, usize::MAX] {
                let wanted = if row <= last.0 && col <= last.1 { 0 } else { 24 };
                assert_eq!(compare(&plan, &right, change((row, col), 0), met), wanted, "{row}, {col}");
            }
        }
        for entry in entries(plan.lift) {
            let wanted = if entry >= -1 { 0 } else { 6 };
            assert_eq!(compare(&plan, &right, change(last, entry), met), wanted, "{entry}");
        }
        for way in 0..WAYS {
            let wrong = wrong_weights(&right, way);
            assert_eq!(compare(&plan, &wrong, change(last, 0), met), 25, "{wrong:?}");
        }
    }
}

// Every entry that there is, in place of an empty and of a filled block.
fn compare_entries(met: &mut Met) {
    let plan = Draft { entries: vec![0, 4, -1, 1], rows: 2, cols: 2, lift: 3 };
    for entry in i16::MIN..=i16::MAX {
        compare(&plan, &plan.weights(), Change { row: 1, col: 0, entry }, met);
        compare(&plan, &plan.weights(), Change { row: 0, col: 1, entry }, met);
    }
}

/// A change; most are made, and half of them empty a block.
pub fn any_change(random: &Random, plan: &Draft) -> Change {
    let side = |n: usize| {
        let within = random.below(n.clamp(1, 512));
        let outside = [n, n.saturating_add(1), within + (1 << 16), within + (1 << 32), within + (1 << 63), usize::MAX];
        if random.once_in(16) {
            random.choice(&outside)
        } else {
            within
        }
    };
    let entry = match random.below(4) {
        0 | 1 => -1,
        2 => random.choice(&entries(plan.lift.min(4096))),
        _ => random.below(1 << 15) as i16,
    };
    Change { row: side(plan.rows), col: side(plan.cols), entry }
}

// Lists of changes of table plans, of Steiner plans, of the largest plan with few blocks and with all, and of small plans.
fn compare_lists(random: &Random, met: &mut Met) {
    tables::built_plans(random).iter().for_each(|plan| compare_list(random, plan, 60, met));
    steiner::built_plans(random).iter().for_each(|plan| compare_list(random, plan, 200, met));
    let largest = [column_plan(random, 192, 512, 1, 3), plan_of(random, 192, 512, 1, 8)];
    largest.iter().for_each(|plan| compare_list(random, plan, 60, met));
    (0..500).for_each(|_| compare_list(random, &small_plan(random), 60, met));
}

pub fn compare_all() -> Seen {
    let (random, mut met) = (Random::new(11), Met::default());
    compare_faults(&random, &mut met);
    compare_limits(&random, &mut met);
    compare_entries(&mut met);
    for _ in 0..12000 {
        let plan = any_plan(&random, 8);
        let weights = any_weights(&random, plan.weights(), 4);
        compare(&plan, &weights, any_change(&random, &plan), &mut met);
    }
    compare_lists(&random, &mut met);
    let Met { seen, turns, new_entries } = met;
    assert!(turns.as_flattened().iter().all(|&times| times > 1000), "blocks were emptied and filled: {turns:?}");
    assert!(new_entries > 1000, "only {new_entries} new entries were refused");
    seen
}
