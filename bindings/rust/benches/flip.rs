//! Times a round of turned bits beside plain C at -O3 (bindings/c/flip.c), which judges plan, word and column weights too: once
//! from check to check, as the library goes, and once over whole runs of bytes. Beside them stands the library's syndrome check
//! of the same word, which ends at the first odd check. The plans have three filled blocks in each column; a word is a codeword,
//! a codeword with one error, or has any bits.
mod common;

use common::{cyclic_plan, medians, plan_of, printed, OwnedPlan, Sequence};
use qcldpc::{Plan, Refusal};
use std::hint::black_box;

type Plain = unsafe extern "C" fn(*const i16, usize, usize, usize, usize, *mut u8, usize, *mut usize) -> u32;

#[link(name = "plain_flip", kind = "static")]
extern "C" {
    fn plain_flip(
        plan: *const i16,
        plan_len: usize,
        rows: usize,
        cols: usize,
        lift: usize,
        word: *mut u8,
        word_len: usize,
        turned: *mut usize,
    ) -> u32;

    fn plain_flip_runs(
        plan: *const i16,
        plan_len: usize,
        rows: usize,
        cols: usize,
        lift: usize,
        word: *mut u8,
        word_len: usize,
        turned: *mut usize,
    ) -> u32;
}

// How often each is timed.
const TURNS: usize = 201;

// How many bits are gone over at least in a turn, so that the clock's own time does not count.
const BITS: usize = 1 << 16;

// How many bits were turned, or the number of a refusal.
type Answer = Result<usize, u64>;

type Call = (&'static str, fn(&Plan, &mut [u8]) -> Answer);

// Each call is given a copy of the word; the time of the copy alone is taken off.
const CALLS: [Call; 5] = [
    ("qcldpc_flip", |plan, word| qcldpc::flip(plan, word).map_err(|Refusal { number, .. }| number)),
    ("plain C at -O3, check by check", |plan, word| plain(plain_flip, plan, word)),
    ("plain C at -O3, whole runs", |plan, word| plain(plain_flip_runs, plan, word)),
    ("qcldpc_syndrome", |plan, word| qcldpc::syndrome(plan, word).map(|_| 0).map_err(|Refusal { number, .. }| number)),
    ("the copy", |_, _| Ok(0)),
];

fn plain(flip: Plain, plan: &Plan, word: &mut [u8]) -> Answer {
    let Plan { entries, rows, cols, lift } = *plan;
    let mut turned = 0;
    // SAFETY: each pointer goes with the length of its memory.
    match unsafe { flip(entries.as_ptr(), entries.len(), rows, cols, lift, word.as_mut_ptr(), word.len(), &mut turned) } {
        0 => Ok(turned),
        number => Err(number.into()),
    }
}

fn below(sequence: &mut Sequence, n: usize) -> usize {
    (sequence.next() % n as u64) as usize
}

// Three blocks in each column, in any rows, with any voltages below the lift.
fn three_blocks(sequence: &mut Sequence, [rows, cols, lift]: [usize; 3]) -> OwnedPlan {
    let mut plan = vec![-1; rows * cols];
    for j in 0..cols {
        let mut filled = 0;
        while filled < 3 {
            let entry = &mut plan[below(sequence, rows) * cols + j];
            if *entry < 0 {
                *entry = below(sequence, lift) as i16;
                filled += 1;
            }
        }
    }
    plan_of(plan, rows, cols, lift)
}

// Prints the median of each for one word, and how many times as long the first takes.
fn beside(name: &str, plan: &OwnedPlan, word: &[u8]) {
    let lent = &plan.lent();
    let results = [0, 1, 2].map(|k| {
        let mut copy = word.to_vec();
        (CALLS[k].1(lent, &mut copy), copy)
    });
    assert!(results[0].0.is_ok() && results.iter().all(|result| *result == results[0]), "all turn the same bits");
    let (mut copy, times) = (word.to_vec(), BITS.div_ceil(word.len()));
    let medians = medians(TURNS, &CALLS, |(_, call)| {
        for _ in 0..times {
            copy.copy_from_slice(black_box(word));
            _ = black_box(call(black_box(lent), black_box(&mut copy)));
        }
    });
    let own = |k: usize| (medians[k] - medians[4]) / times as f64 * 1e6;
    let (turned, per_bit) = (results[0].0.expect("a result"), own(0) * 1e3 / word.len() as f64);
    println!("  {name}, {turned} turned: {} {:.2} µs, {per_bit:.2} ns a bit", CALLS[0].0, own(0));
    (1..4).for_each(|k| println!("    {} {:.2} µs, ratio {:.2}", CALLS[k].0, own(k), own(0) / own(k)));
}

// Zeros, which are a codeword, alone and with one error, and any bits.
fn all_words(sequence: &mut Sequence, name: &str, plan: &OwnedPlan) {
    let bits = plan.bits();
    println!("{name}: {} x {}, lift {}, {bits} bits", plan.rows(), plan.cols(), plan.lift());
    let mut word = vec![0; bits];
    beside("a codeword", plan, &word);
    word[bits / 2] = 1;
    beside("one error", plan, &word);
    let any: Vec<u8> = (0..bits).map(|_| below(sequence, 2) as u8).collect();
    beside("any bits", plan, &any);
}

fn main() {
    let sequence = &mut Sequence(1);
    let small = cyclic_plan(4, 7, &[1; 16]);
    all_words(sequence, "cyclic table, J = 4", &small);
    let middle = three_blocks(sequence, [6, 24, 96]);
    all_words(sequence, "of middle size", &middle);
    all_words(sequence, "of middle size, printed voltages", &printed(&middle));
    let longest = three_blocks(sequence, [3, 16, 4095]);
    all_words(sequence, "the longest columns", &longest);
    let wide = three_blocks(sequence, [192, 512, 128]);
    all_words(sequence, "all rows and columns", &wide);
    let table = cyclic_plan(7, 191, &[1; 49]);
    all_words(sequence, "cyclic table, J = 7", &table);
}
