//! Times the proved girth test beside two plain references. On cyclic table plans at target 12: a search of closed walks over
//! sparse lists, in Rust, which is what the library had before; and the library's own search, of two ways that meet halfway,
//! in C (bindings/c/halfway.c). The latter alone on the slowest plans that were found, at 12, and on a Steiner plan of order 19
//! and girth 12, at 12, 14 and 18. Each takes the plan as numbers and builds its own lists of it.
mod common;

use common::{changed, cyclic_plan, medians, plan_of, printed, shift, steiner_plan, OwnedPlan};
use qcldpc::{Girth, Plan};
use std::hint::black_box;

#[link(name = "plain_halfway", kind = "static")]
extern "C" {
    fn plain_halfway(
        plan: *const i16,
        rows: usize,
        cols: usize,
        lift: usize,
        target: usize,
        checks: *mut usize,
        bits: *mut usize,
    ) -> u32;
}

fn proved(plan: &OwnedPlan, target: usize) -> Girth {
    qcldpc::girth(&plan.lent(), target).expect("a plan that is not refused")
}

fn halfway(plan: &OwnedPlan, target: usize) -> Girth {
    common::judge(&plan.lent()).expect("a plan that is not refused");
    assert!(target <= 18);
    let Plan { entries, rows, cols, lift } = plan.lent();
    let (mut checks, mut bits) = ([0; 8], [0; 8]);
    // SAFETY: the plan is valid, and a shown cycle has at most 8 checks and bits. No other thread calls the function.
    let n =
        unsafe { plain_halfway(entries.as_ptr(), rows, cols, lift, target, checks.as_mut_ptr(), bits.as_mut_ptr()) as usize };
    answer(checks[..n].to_vec(), bits[..n].to_vec())
}

fn answer(checks: Vec<usize>, bits: Vec<usize>) -> Girth {
    match checks.len() {
        0 => Girth::Passed,
        _ => Girth::Failed { checks, bits },
    }
}

// The filled blocks of each row (its columns, with their shifts) and of each column (its rows).
struct Sparse {
    by_row: Vec<Vec<(usize, usize)>>,
    by_col: Vec<Vec<(usize, usize)>>,
    lift: usize,
}

fn sparse(plan: &OwnedPlan) -> Sparse {
    let Plan { entries, rows, cols, lift } = plan.lent();
    let mut by_row = vec![vec![]; rows];
    let mut by_col = vec![vec![]; cols];
    for (i, row) in entries.chunks_exact(cols).enumerate() {
        for (j, &e) in row.iter().enumerate() {
            if e >= 0 {
                let e = shift(e, lift);
                by_row[i].push((j, e));
                by_col[j].push((i, e));
            }
        }
    }
    Sparse { by_row, by_col, lift }
}

type Path = Vec<(usize, usize)>;

fn at_bit(g: &Sparse, start: usize, depth: usize, col: usize, from: usize, v: usize, path: &mut Path) -> bool {
    for &(i, e) in &g.by_col[col] {
        if i == from {
            continue;
        }
        let y = (v + g.lift - e) % g.lift;
        if at_check(g, start, depth, i, col, y, path) {
            return true;
        }
    }
    false
}

fn at_check(g: &Sparse, start: usize, depth: usize, row: usize, from: usize, v: usize, path: &mut Path) -> bool {
    if depth == 0 {
        for &(j, e) in &g.by_row[row] {
            if j == start && j != from && (v + e) % g.lift == 0 {
                path.push((row * g.lift + v, start * g.lift));
                return true;
            }
        }
        return false;
    }
    for &(j, e) in &g.by_row[row] {
        if j == from || j < start {
            continue;
        }
        let z = (v + e) % g.lift;
        if at_bit(g, start, depth - 1, j, row, z, path) {
            path.push((row * g.lift + v, j * g.lift + z));
            return true;
        }
    }
    false
}

// A shortest closed walk below the target, from the bits at voltage 0; a path holds its checks and bits from the last on.
fn closed_walks(plan: &OwnedPlan, target: usize) -> Girth {
    let g = sparse(plan);
    for n in 2..target / 2 {
        for start in 0..plan.cols() {
            let mut path = vec![];
            if at_bit(&g, start, n - 1, start, usize::MAX, 0, &mut path) {
                let (checks, bits) = path.into_iter().rev().unzip();
                return answer(checks, bits);
            }
        }
    }
    Girth::Passed
}

fn joins(plan: &OwnedPlan, check: usize, bit: usize) -> bool {
    let Plan { entries, cols, lift, .. } = plan.lent();
    let (i, y, j, z) = (check / lift, check % lift, bit / lift, bit % lift);
    let e = entries[i * cols + j];
    e >= 0 && (y + e as usize) % lift == z
}

// Whether checks and bits are those of a simple cycle of the plan.
fn is_simple_cycle(plan: &OwnedPlan, checks: &[usize], bits: &[usize]) -> bool {
    let n = checks.len();
    let distinct = |list: &[usize]| (1..n).all(|k| !list[..k].contains(&list[k]));
    let joined = |k: usize| joins(plan, checks[k], bits[k]) && joins(plan, checks[(k + 1) % n], bits[k]);
    n == bits.len() && n >= 2 && distinct(checks) && distinct(bits) && (0..n).all(joined)
}

// How often each search is timed.
const TURNS: usize = 31;

type Search = (&'static str, fn(&OwnedPlan, usize) -> Girth);

const PROVED: Search = ("qcldpc_girth", proved);
const CLOSED_WALKS: Search = ("closed walks in Rust", closed_walks);
const HALFWAY: Search = ("halfway in C", halfway);

// The girth that all searches tell; each shows a simple cycle of so many edges, where the plan fails.
fn agreed(plan: &OwnedPlan, target: usize, searches: &[Search]) -> Option<usize> {
    let girth = proved(plan, target).girth();
    for (name, search) in searches {
        let answer = search(plan, target);
        assert_eq!(answer.girth(), girth, "{name} tells the same girth");
        if let Girth::Failed { checks, bits } = &answer {
            assert!(is_simple_cycle(plan, checks, bits), "{name} shows a simple cycle");
        }
    }
    girth
}

// Prints the median of each search, and how many times as long the first takes as each other; gives the first's, in seconds.
fn beside(name: &str, plan: &OwnedPlan, target: usize, searches: &[Search]) -> f64 {
    let girth = agreed(plan, target, searches).map_or(format!("{target} or more"), |girth| girth.to_string());
    println!("{name}: {} x {}, lift {}, girth {girth}", plan.rows(), plan.cols(), plan.lift());
    let times = medians(TURNS, searches, |(_, search)| _ = black_box(search(black_box(plan), black_box(target))));
    println!("  {} {:.3} ms", searches[0].0, times[0] * 1e3);
    for ((name, _), time) in searches.iter().zip(&times).skip(1) {
        println!("  {name} {:.3} ms, ratio {:.3}", time * 1e3, times[0] / time);
    }
    times[0]
}

// Two last rows that the last 128 columns join at every difference of shifts; before these, columns of one block each, 192 on the
// one row and 192 on the other; above them 190 rows of one block. From each of the 384 columns four edges lead to most of the
// bits, and its shortest cycles, of 8 edges, lie in the last columns alone.
fn grid() -> OwnedPlan {
    let (rows, cols, lift) = (192, 512, 128);
    let mut entries = vec![-1; rows * cols];
    for j in 0..384 {
        entries[(190 + j / 192) * cols + j] = 0;
    }
    for j in 384..cols {
        entries[190 * cols + j] = 0;
        entries[191 * cols + j] = (j - 384) as i16;
    }
    for i in 0..190 {
        entries[i * cols + 384 + i % 128] = 0;
    }
    plan_of(entries, rows, cols, lift)
}

// 128 rows of one block, in column 0; 63 rows with a block there and in two columns of their own, which the last row has at the
// shifts r and -r; it has all columns after these too. From each of the 128 rows five edges lead to nearly all bits, and there is
// no cycle of 8 edges.
fn hubs() -> OwnedPlan {
    let (rows, cols, lift) = (192, 512, 127);
    let mut entries = vec![-1; rows * cols];
    for i in 0..191 {
        entries[i * cols] = 0;
    }
    for r in 1..64 {
        let hub = (127 + r) * cols;
        entries[hub + 2 * r - 1] = 0;
        entries[hub + 2 * r] = 0;
        entries[191 * cols + 2 * r - 1] = r as i16;
        entries[191 * cols + 2 * r] = (lift - r) as i16;
    }
    entries[191 * cols + 127..].fill(0);
    plan_of(entries, rows, cols, lift)
}

// 32 rows of one block; in the other 160 every block (i, j) is filled, with the shift i j mod 257, so that two of these rows share
// 255 columns and no cycle of 4 edges.
fn plane() -> OwnedPlan {
    let (rows, cols, lift) = (192, 255, 257);
    let block = |k: usize| match (k / cols, k % cols) {
        (i, j) if i < 32 => [-1, 0][(j == i * 7) as usize],
        (i, j) => ((i - 32) * j % lift) as i16,
    };
    plan_of((0..rows * cols).map(block).collect(), rows, cols, lift)
}

// Table plans, at 12.
fn tables() {
    let (seven, six) = (cyclic_plan(7, 28, &[1; 49]), cyclic_plan(6, 19, &[1; 36]));
    let all = [PROVED, CLOSED_WALKS, HALFWAY];
    let girths: Vec<_> = (0..19).map(|by| agreed(&changed(&six, by), 12, &all)).collect();
    assert!(girths.contains(&None) && girths.contains(&Some(8)), "some of these plans pass and some fail");
    beside("cyclic table, J = 7, voltages below the lift", &seven, 12, &all);
    beside("cyclic table, J = 7, voltages above the lift", &printed(&seven), 12, &all);
    beside("cyclic table, J = 6, voltages below the lift", &six, 12, &all);
    beside("cyclic table, J = 6, voltages above the lift", &printed(&six), 12, &all);
}

// The slowest plans that were found, at 12.
fn slow_plans() {
    let slow = [("slow plan, grid", grid()), ("slow plan, hubs", hubs()), ("slow plan, plane", plane())];
    let slowest = slow.iter().map(|(name, plan)| beside(name, plan, 12, &[PROVED, HALFWAY])).fold(0.0, f64::max);
    println!("the slowest plan found takes {slowest:.3} s, of the 3 s allowed");
    assert!(slowest < 3.0, "each of these plans keeps the limit");
}

// A Steiner plan at the target where it passes, at the next, and at the largest.
fn steiner() {
    let plan = steiner_plan();
    for target in [12, 14, 18] {
        let time = beside(&format!("Steiner plan of order 19, target {target}"), &plan, target, &[PROVED, HALFWAY]);
        assert!(time < 0.5, "a verdict on a Steiner plan takes less than half a second");
    }
}

fn main() {
    tables();
    slow_plans();
    steiner();
}
