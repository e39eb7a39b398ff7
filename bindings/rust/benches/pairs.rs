//! Times the girth test by sorted pairs beside plain C of the same (bindings/c/pairs.c), once with qsort and once with a sort
//! that halves the range of the numbers, and beside the library's other girth test. Each takes the plan as numbers, judges it
//! and builds its own lists of it; the work list has exactly the places that it needs.
mod common;

use common::{changed, cyclic_plan, first_columns_pass, medians, plan_of, steiner_plan, OwnedPlan, Sequence};
use qcldpc::{Girth, Plan};
use std::hint::black_box;

#[link(name = "plain_pairs", kind = "static")]
extern "C" {
    fn plain_pairs(
        plan: *const i16,
        plan_len: usize,
        rows: usize,
        cols: usize,
        lift: usize,
        target: usize,
        work: *mut u64,
        places: usize,
        halves: i32,
        fails: *mut u32,
    ) -> u32;
}

// How often each test is timed.
const TURNS: usize = 31;

// The number of a refusal, or whether the plan passes.
type Answer = Result<bool, u64>;

type Test = (&'static str, fn(&OwnedPlan, usize, &mut [u64]) -> Answer);

const TESTS: [Test; 4] = [
    ("qcldpc_girth_pairs", proved),
    ("C with qsort", by_qsort),
    ("C with a sort by halves", by_halves),
    ("qcldpc_girth", other_test),
];

fn proved(plan: &OwnedPlan, target: usize, work: &mut [u64]) -> Answer {
    qcldpc::girth_pairs(&plan.lent(), target, work).map_err(|refusal| refusal.number)
}

fn other_test(plan: &OwnedPlan, target: usize, _: &mut [u64]) -> Answer {
    qcldpc::girth(&plan.lent(), target).map(|answer| answer == Girth::Passed).map_err(|refusal| refusal.number)
}

fn plain(plan: &OwnedPlan, target: usize, work: &mut [u64], halves: bool) -> Answer {
    let Plan { entries, rows, cols, lift } = plan.lent();
    let mut fails = 0;
    let (p, n, w, places) = (entries.as_ptr(), entries.len(), work.as_mut_ptr(), work.len());
    // SAFETY: each pointer goes with the length of its memory. No other thread calls the function.
    match unsafe { plain_pairs(p, n, rows, cols, lift, target, w, places, halves.into(), &mut fails) } {
        0 => Ok(fails == 0),
        number => Err(number.into()),
    }
}

fn by_qsort(plan: &OwnedPlan, target: usize, work: &mut [u64]) -> Answer {
    plain(plan, target, work, false)
}

fn by_halves(plan: &OwnedPlan, target: usize, work: &mut [u64]) -> Answer {
    plain(plan, target, work, true)
}

// How many nodes the largest tree of a plan has: with so many places it is not refused, with fewer it is.
fn largest_tree(plan: &OwnedPlan, target: usize, test: &Test) -> usize {
    let has_room = |places: usize| test.1(plan, target, &mut vec![0; places]) != Err(26);
    let (mut fewer, mut enough) = (0, 1);
    while !has_room(enough) {
        (fewer, enough) = (enough, 2 * enough);
    }
    while enough - fewer > 1 {
        let middle = (fewer + enough) / 2;
        match has_room(middle) {
            true => enough = middle,
            false => fewer = middle,
        }
    }
    enough
}

// Prints the median of each test, and how many times as long the first takes as each other; gives these ratios.
fn beside(name: &str, plan: &OwnedPlan, target: usize) -> [f64; 3] {
    let sizes: Vec<usize> = TESTS[..3].iter().map(|test| largest_tree(plan, target, test)).collect();
    assert!(sizes.iter().all(|size| *size == sizes[0]), "all count the same nodes: {sizes:?}");
    let mut work = vec![0; sizes[0]];
    let answer = proved(plan, target, &mut work);
    for (name, test) in &TESTS {
        assert_eq!(test(plan, target, &mut work), answer, "{name} gives the same answer");
    }
    let verdict = if answer == Ok(true) { "passes" } else { "fails" };
    println!("{name}: {} x {}, lift {}, {verdict} at {target}", plan.rows(), plan.cols(), plan.lift());
    let times = medians(TURNS, &TESTS, |(_, test)| _ = black_box(test(black_box(plan), black_box(target), &mut work)));
    println!("  {} {:.3} ms, trees of up to {} nodes", TESTS[0].0, times[0] * 1e3, sizes[0]);
    for ((name, _), time) in TESTS.iter().zip(&times).skip(1) {
        println!("  {name} {:.3} ms, ratio {:.3}", time * 1e3, times[0] / time);
    }
    [1, 2, 3].map(|k| times[0] / times[k])
}

// The largest table plan with its last filled block changed, so that it fails.
fn failing() -> OwnedPlan {
    let plan = cyclic_plan(7, 191, &[1; 49]);
    let fails = |plan: &OwnedPlan| qcldpc::girth(&plan.lent(), 12) != Ok(Girth::Passed);
    (1..191).map(|by| changed(&plan, by)).find(fails).expect("a plan that fails")
}

// All columns that a plan may have, each with two blocks in rows that are drawn until the columns so far pass at 12.
fn many_columns() -> OwnedPlan {
    let (rows, cols, lift) = (192, 512, 128);
    let mut sequence = Sequence(1);
    let mut entries = vec![-1; rows * cols];
    let mut k = 0;
    while k < cols {
        (0..rows).for_each(|i| entries[i * cols + k] = -1);
        let mut below = |n: usize| (sequence.next() % n as u64) as usize;
        let first = below(rows);
        for i in [first, (first + 1 + below(rows - 1)) % rows] {
            entries[i * cols + k] = below(lift) as i16;
        }
        k += first_columns_pass(&plan_of(entries.clone(), rows, cols, lift), k + 1, 12) as usize;
    }
    plan_of(entries, rows, cols, lift)
}

fn main() {
    let steiner = steiner_plan();
    let ratios = [
        beside("cyclic table, J = 7", &cyclic_plan(7, 28, &[1; 49]), 12),
        beside("Steiner plan of order 19", &steiner, 12),
        beside("Steiner plan of order 19", &steiner, 14),
        beside("Steiner plan of order 19", &steiner, 18),
        beside("cyclic table, J = 7, one block changed", &failing(), 12),
        beside("many columns, each with two blocks", &many_columns(), 12),
    ];
    for (k, (name, _)) in TESTS.iter().skip(1).enumerate() {
        let most = ratios.iter().map(|ratios| ratios[k]).fold(0.0, f64::max);
        println!("{} takes at most {most:.2} times as long as {name}", TESTS[0].0);
    }
}
