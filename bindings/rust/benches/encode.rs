//! Times the encoding of data beside plain C at -O3 (bindings/c/encode.c), which judges plan, shape and data too and sums whole
//! runs of bytes: bi-diagonal plans of several sizes, with few and with many blocks in the columns that carry data.
mod common;

use common::{medians, plan_of, printed, OwnedPlan, Sequence};
use qcldpc::{Plan, Refusal};
use std::hint::black_box;

#[link(name = "plain_encode", kind = "static")]
extern "C" {
    fn plain_encode(
        plan: *const i16,
        plan_len: usize,
        rows: usize,
        cols: usize,
        lift: usize,
        data: *const u8,
        data_len: usize,
        word: *mut u8,
        word_len: usize,
    ) -> u32;
}

// How often each is timed.
const TURNS: usize = 201;

// How many bits are encoded at least in a turn, so that the clock's own time does not count.
const BITS: usize = 1 << 16;

type Encode = (&'static str, fn(&Plan, &[u8], &mut [u8]) -> Result<(), u64>);

const ENCODERS: [Encode; 2] = [("qcldpc_encode", proved), ("plain C at -O3", plain)];

fn proved(plan: &Plan, data: &[u8], word: &mut [u8]) -> Result<(), u64> {
    qcldpc::encode(plan, data, word).map_err(|Refusal { number, .. }| number)
}

fn plain(plan: &Plan, data: &[u8], word: &mut [u8]) -> Result<(), u64> {
    let Plan { entries, rows, cols, lift } = *plan;
    let (p, n, d, dn, w, wn) = (entries.as_ptr(), entries.len(), data.as_ptr(), data.len(), word.as_mut_ptr(), word.len());
    // SAFETY: each pointer goes with the length of its memory.
    match unsafe { plain_encode(p, n, rows, cols, lift, d, dn, w, wn) } {
        0 => Ok(()),
        number => Err(number.into()),
    }
}

fn below(sequence: &mut Sequence, n: usize) -> usize {
    (sequence.next() % n as u64) as usize
}

// Fills so many blocks of a column, in any rows, with any voltages below the lift.
fn fill_column(sequence: &mut Sequence, plan: &mut [i16], [cols, lift, j]: [usize; 3], blocks: usize) {
    let rows = plan.len() / cols;
    let mut filled = 0;
    while filled < blocks {
        let entry = &mut plan[below(sequence, rows) * cols + j];
        if *entry < 0 {
            *entry = below(sequence, lift) as i16;
            filled += 1;
        }
    }
}

// A bi-diagonal plan with from `least` to `most` blocks in each column that carries data. Rows 0 and m - 1 of column m - 1 have
// the same remainder, and a row between them has another.
fn bidiagonal(sequence: &mut Sequence, [rows, cols, lift]: [usize; 3], [least, most]: [usize; 2]) -> OwnedPlan {
    let mut plan = vec![-1; rows * cols];
    for k in 0..rows - 1 {
        (plan[k * cols + k], plan[(k + 1) * cols + k]) = (0, 0);
    }
    for (i, remainder) in [(0, 1), (rows / 2, 0), (rows - 1, 1)] {
        plan[i * cols + rows - 1] = remainder;
    }
    for j in rows..cols {
        let blocks = least + below(sequence, most - least + 1);
        fill_column(sequence, &mut plan, [cols, lift, j], blocks);
    }
    plan_of(plan, rows, cols, lift)
}

// Prints the median of both for one word, and how many times as long the first takes.
fn beside(sequence: &mut Sequence, name: &str, plan: &OwnedPlan) {
    let (lent, bits) = (&plan.lent(), plan.bits());
    let data: Vec<u8> = (plan.rows() * plan.lift()..bits).map(|_| below(sequence, 2) as u8).collect();
    let results = ENCODERS.map(|(_, encode)| {
        let mut word = vec![2; bits];
        (encode(lent, &data, &mut word), word)
    });
    assert!(results[0] == results[1] && results[0].0.is_ok(), "both give the same word");
    let (mut word, words) = (vec![2; bits], BITS.div_ceil(bits));
    let times = medians(TURNS, &ENCODERS, |(_, encode)| {
        (0..words).for_each(|_| _ = black_box(encode(black_box(lent), black_box(&data), black_box(&mut word))));
    });
    let [ours, theirs] = [0, 1].map(|k| times[k] / words as f64 * 1e6);
    let blocks = plan.entries().iter().filter(|&&entry| entry >= 0).count();
    println!("{name}: {} x {}, lift {}, {blocks} filled blocks, {bits} bits", plan.rows(), plan.cols(), plan.lift());
    println!("  {} {ours:.2} µs, {:.2} ns a bit", ENCODERS[0].0, ours * 1e3 / bits as f64);
    println!("  {} {theirs:.2} µs, ratio {:.2}", ENCODERS[1].0, ours / theirs);
}

fn main() {
    let sequence = &mut Sequence(1);
    let small = bidiagonal(sequence, [4, 8, 27], [3, 4]);
    beside(sequence, "small", &small);
    let middle = bidiagonal(sequence, [12, 24, 96], [3, 6]);
    beside(sequence, "of middle size", &middle);
    beside(sequence, "of middle size, printed voltages", &printed(&middle));
    let long = bidiagonal(sequence, [12, 24, 2730], [3, 6]);
    beside(sequence, "long columns", &long);
    let longest = bidiagonal(sequence, [3, 16, 4096], [3, 3]);
    beside(sequence, "the longest columns", &longest);
    let sparse = bidiagonal(sequence, [192, 512, 128], [3, 6]);
    beside(sequence, "most blocks empty", &sparse);
    let dense = bidiagonal(sequence, [192, 512, 128], [192, 192]);
    beside(sequence, "all blocks of the data filled", &dense);
}
