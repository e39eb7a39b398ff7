//! Times two plans made one beside plain C of the same algorithm at -O3 (bindings/c/join.c), which judges both plans too: plans
//! of 192 x 512 filled blocks, with voltages below the lift and with printed ones, and table plans.
mod common;

use common::{cyclic_plan, medians, plan_of, printed, OwnedPlan, Sequence};
use qcldpc::Plan;
use std::hint::black_box;

#[link(name = "plain_join", kind = "static")]
extern "C" {
    fn plain_join(
        first: *const i16,
        first_len: usize,
        rows: usize,
        cols: usize,
        lift: usize,
        second: *const i16,
        second_len: usize,
        rows2: usize,
        cols2: usize,
        lift2: usize,
        joined: *mut i16,
        joined_len: usize,
    ) -> u32;
}

// How often each is timed.
const TURNS: usize = 201;

// The number of a refusal, or the joined lift.
type Answer = Result<usize, u64>;

type Join = (&'static str, fn(&Plan, &Plan, &mut [i16]) -> Answer);

const JOINS: [Join; 2] = [("qcldpc_join", proved), ("plain C at -O3", plain)];

fn proved(first: &Plan, second: &Plan, joined: &mut [i16]) -> Answer {
    qcldpc::join(first, second, joined).map_err(|refusal| refusal.number)
}

fn plain(first: &Plan, second: &Plan, joined: &mut [i16]) -> Answer {
    let Plan { entries: a, rows, cols, lift } = *first;
    let Plan { entries: b, rows: rows2, cols: cols2, lift: lift2 } = *second;
    let (p, n, p2, n2, j, jn) = (a.as_ptr(), a.len(), b.as_ptr(), b.len(), joined.as_mut_ptr(), joined.len());
    // SAFETY: each pointer goes with the length of its memory.
    match unsafe { plain_join(p, n, rows, cols, lift, p2, n2, rows2, cols2, lift2, j, jn) } {
        0 => Ok(lift * lift2),
        number => Err(number.into()),
    }
}

// Prints the median of both, and how many times as long the first takes.
fn beside(name: &str, first: &OwnedPlan, second: &OwnedPlan) {
    let (first, second) = (&first.lent(), &second.lent());
    let results = JOINS.map(|(_, join)| {
        let mut joined = vec![0; first.entries.len()];
        (join(first, second, &mut joined), joined)
    });
    assert!(results[0] == results[1] && results[0].0.is_ok(), "both give the same plan");
    let mut joined = vec![0; first.entries.len()];
    let times = medians(TURNS, &JOINS, |(_, join)| {
        _ = black_box(join(black_box(first), black_box(second), black_box(&mut joined)));
    });
    println!("{name}: {} x {}, lifts {} and {}", first.rows, first.cols, first.lift, second.lift);
    println!("  {} {:.1} µs", JOINS[0].0, times[0] * 1e6);
    println!("  {} {:.1} µs, ratio {:.2}", JOINS[1].0, times[1] * 1e6, times[0] / times[1]);
}

// All blocks are filled, with any voltages below the lift.
fn full(sequence: &mut Sequence, lift: usize) -> OwnedPlan {
    let entries = (0..192 * 512).map(|_| (sequence.next() % lift as u64) as i16).collect();
    plan_of(entries, 192, 512, lift)
}

fn main() {
    let mut sequence = Sequence(1);
    let (first, second) = (full(&mut sequence, 8), full(&mut sequence, 15));
    beside("all blocks filled", &first, &second);
    beside("all blocks filled, the larger lift first", &second, &first);
    beside("all blocks filled, printed voltages", &printed(&first), &printed(&second));
    let (first, second) = (cyclic_plan(7, 7, &[1; 49]), cyclic_plan(7, 27, &[1; 49]));
    beside("cyclic table, J = 7", &first, &second);
}
