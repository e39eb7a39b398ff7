//! What the benchmarks share: table and Steiner plans, what the references do with a plan, numbers, and the clock.
#![allow(dead_code)] // each benchmark uses a part
pub use qcldpc::OwnedPlan;
use qcldpc::{Girth, Plan};
use std::hint::black_box;
use std::time::{Duration, Instant};

/// The plan of entries that are not refused.
pub fn plan_of(entries: Vec<i16>, rows: usize, cols: usize, lift: usize) -> OwnedPlan {
    OwnedPlan::new(entries, rows, cols, lift).expect("a good plan")
}

/// The plan of the cyclic table of an order, with a mask.
pub fn cyclic_plan(order: usize, lift: usize, mask: &[u8]) -> OwnedPlan {
    let mut table = vec![0; order * order];
    qcldpc::cyclic_table(order, &mut table).unwrap();
    OwnedPlan::build(order, lift, &table, mask).unwrap()
}

/// The plan with voltages as some program may print them: one to five times the lift above their remainders.
pub fn printed(plan: &OwnedPlan) -> OwnedPlan {
    let Plan { entries, rows, cols, lift } = plan.lent();
    let above = |(k, &e): (usize, &i16)| if e < 0 { e } else { e + ((1 + k % 5) * lift) as i16 };
    plan_of(entries.iter().enumerate().map(above).collect(), rows, cols, lift)
}

/// The plan with its last filled block changed, so that it may fail.
pub fn changed(plan: &OwnedPlan, by: i16) -> OwnedPlan {
    let mut plan = plan.clone();
    let last = plan.entries().iter().rposition(|&e| e >= 0).expect("a filled block");
    let entry = plan.entries()[last] + by;
    plan.change(last / plan.cols(), last % plan.cols(), entry).expect("a block of the plan");
    plan
}

/// Whether the first columns of a plan, taken as a plan, pass at a target.
pub fn first_columns_pass(plan: &OwnedPlan, cols: usize, target: usize) -> bool {
    let entries = plan.entries().chunks_exact(plan.cols()).flat_map(|row| &row[..cols]).copied().collect();
    let first = plan_of(entries, plan.rows(), cols, plan.lift());
    qcldpc::girth(&first.lent(), target) == Ok(Girth::Passed)
}

/// A Steiner plan of order 19 that passes at 12: voltages are drawn column by column, those of a column until the columns so far
/// pass.
pub fn steiner_plan() -> OwnedPlan {
    let (lift, cols) = (1000, 57);
    let build = |voltages: &[i16]| OwnedPlan::steiner(19, lift, voltages).expect("voltages of the right number");
    let mut sequence = Sequence(1);
    let mut voltages = vec![0; 3 * cols];
    let mut k = 0;
    while k < cols {
        voltages[3 * k..3 * k + 3].fill_with(|| (sequence.next() % lift as u64) as i16);
        k += first_columns_pass(&build(&voltages), k + 1, 12) as usize;
    }
    build(&voltages)
}

/// Refusals 1 to 6, as a plain implementation finds them.
pub fn judge(plan: &Plan) -> Result<(), u64> {
    let Plan { entries, rows, cols, lift } = plan;
    match () {
        _ if !(1..=192).contains(rows) => Err(1),
        _ if !(1..=512).contains(cols) => Err(2),
        _ if !(1..=4096).contains(lift) => Err(3),
        _ if cols * lift > 65536 => Err(4),
        _ if entries.len() != rows * cols => Err(5),
        _ if entries.iter().any(|&e| e < -1) => Err(6),
        _ => Ok(()),
    }
}

/// The shift of a filled block: its voltage's remainder by the lift, without a division where it is below the lift.
pub fn shift(e: i16, lift: usize) -> usize {
    let e = e as usize;
    if e < lift {
        e
    } else {
        e % lift
    }
}

/// A fixed sequence of numbers.
pub struct Sequence(pub u64);

impl Sequence {
    pub fn next(&mut self) -> u64 {
        self.0 = self.0.wrapping_mul(6364136223846793005).wrapping_add(1442695040888963407);
        self.0 >> 33
    }
}

/// Runs something, and keeps its time where that is the least so far.
pub fn timed<T>(best: &mut Duration, run: impl FnOnce() -> T) -> T {
    let begin = Instant::now();
    let answer = black_box(run());
    *best = begin.elapsed().min(*best);
    answer
}

/// The median times of some runs, in seconds; each is run once in every turn.
pub fn medians<R>(turns: usize, runs: &[R], mut run: impl FnMut(&R)) -> Vec<f64> {
    let mut times = vec![vec![]; runs.len()];
    for _ in 0..turns {
        for (each, times) in runs.iter().zip(&mut times) {
            let begin = Instant::now();
            run(each);
            times.push(begin.elapsed().as_secs_f64());
        }
    }
    let median = |times: &mut Vec<f64>| {
        times.sort_by(f64::total_cmp);
        times[turns / 2]
    };
    times.iter_mut().map(median).collect()
}
