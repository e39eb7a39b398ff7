//! Data encoded by bi-diagonal plans.
use crate::applied::Applied;
use crate::bidiagonal::{data_bits, equal_blocks, shaped, shaped_at, small_shaped};
use crate::door::{agree, left, lend_bytes, lend_numbers, writes, Short};
use crate::inputs::Draft;
use crate::lent::Lent;
use crate::random::Random;
use crate::reference::encode::{refusals, Coder};
use crate::seen::{number, Seen};
use crate::words::random_word;
use crate::{encode_faults, encode_shapes, encoded};
use qcldpc::raw::qcldpc_encode;
use qcldpc::{OwnedPlan, Plan, Refusal};

// The refusals of the call.
const NUMBERS: [u64; 9] = [1, 2, 3, 4, 5, 6, 16, 30, 31];

/// A plan, data bits and a word to be filled.
#[derive(Clone)]
pub struct Job {
    pub plan: Draft,
    pub data: Vec<u8>,
    pub word: Vec<u8>,
}

/// What the inputs have met.
#[derive(Default)]
pub struct Met {
    seen: Seen,
    applied: Applied,
    /// Frames, by which remainders of column m − 1 are equal, and whether that column has a voltage at or above the lift.
    equal: [[usize; 2]; 4],
    /// Frames whose word held, before, bits alone, erasures too, other bytes too.
    held: [usize; 3],
}

impl Met {
    fn note(&mut self, plan: &Plan, data: &[u8], word: &[u8], answer: &Result<(), Refusal>) {
        self.seen.note_on(plan, answer);
        self.applied.note(&refusals(plan, data, word.len()));
        if answer.is_ok() {
            let (equal, above) = equal_blocks(plan);
            self.equal[equal][above as usize] += 1;
            self.held[word.iter().map(|&byte| byte.clamp(1, 3) as usize - 1).max().expect("a word has bits")] += 1;
        }
    }

    // Each refusal was met alone and beside every higher one; the other kinds of input were met too.
    fn assert_all(&self) {
        self.applied.assert_all(&NUMBERS);
        let Met { equal, held, .. } = self;
        assert!(equal.as_flattened().iter().all(|&times| times > 1000), "equal remainders: {equal:?}");
        assert!(held.iter().all(|&times| times > 1000), "words before: {held:?}");
    }
}

/// What a word may hold before a call: bits, erasures, the largest bytes, any bytes.
pub fn some_bytes(random: &Random, len: usize) -> Vec<u8> {
    match random.below(5) {
        0 => vec![0; len],
        1 => random_word(random, len),
        2 => vec![2; len],
        3 => vec![255; len],
        _ => (0..len).map(|_| random.below(256) as u8).collect(),
    }
}

// The method of an owned plan answers as the call does with a word of the right length.
fn compare_owned(coder: &Coder, data: &[u8]) {
    let Plan { entries, rows, cols, lift } = coder.plan;
    let Ok(plan) = OwnedPlan::new(entries.to_vec(), rows, cols, lift) else { return };
    let (answer, frame) = coder.encode(data, &vec![9; plan.bits()]);
    agree(&(Short(&coder.plan), data), plan.encode(data), answer.map(|_| frame));
}

// Through the safe function, with other bytes in the word than before.
fn compare_safe(plan: &Plan, data: &[u8], word: &[u8], answer: &Result<(), Refusal>, after: &[u8]) {
    let mut copy: Vec<u8> = word.iter().map(|byte| byte ^ 0xA5).collect();
    let wanted = if answer.is_ok() { after.to_vec() } else { copy.clone() };
    agree(&(Short(plan), data, word), &qcldpc::encode(plan, data, &mut copy), answer);
    agree(&(Short(plan), data, word), copy, wanted);
}

/// Through the raw function, with all lent memory compared, and through the safe ones. Gives the frame.
pub fn compare_by(coder: &Coder, data: &[u8], word: &[u8], met: &mut Met) -> Result<Vec<u8>, Refusal> {
    let plan = &coder.plan;
    let input = &(Short(plan), data, word);
    let (answer, after) = coder.encode(data, word);
    let (mut p, mut d) = (lend_numbers(plan.entries), lend_bytes(data));
    let (entries, n, rows, cols, lift) = (p.pointer(), p.len(), plan.rows as u64, plan.cols as u64, plan.lift as u64);
    let (bits, len) = (d.pointer(), d.len());
    let call = |word: &mut Lent<u8>, out, places| unsafe {
        let (w, wn) = (word.pointer(), word.len());
        qcldpc_encode(entries, n, rows, cols, lift, bits, len, w, wn, out, places)
    };
    writes(input, lend_bytes(word), [word, &after[..]], &answer.clone().map(|_| vec![]), call);
    left(input, &p, plan.entries);
    left(input, &d, data);
    compare_safe(plan, data, word, &answer, &after);
    compare_owned(coder, data);
    met.note(plan, data, word, &answer);
    answer?;
    encoded::assert_frame(plan, data, &after);
    Ok(after)
}

pub fn compare(job: &Job, met: &mut Met) -> Result<Vec<u8>, Refusal> {
    compare_by(&Coder::new(job.plan.lent()), &job.data, &job.word, met)
}

/// The plan with any data bits and a word: nothing is to be refused.
pub fn job_of(random: &Random, plan: Draft) -> Job {
    let (data, word) = (random_word(random, data_bits(&plan)), some_bytes(random, plan.bits()));
    Job { plan, data, word }
}

/// Frames of one plan: of no data bit, of all, of one alone, and of so many with any.
pub fn compare_frames(random: &Random, plan: &Draft, times: usize, met: &mut Met) {
    let coder = Coder::new(plan.lent());
    let bits = data_bits(plan);
    let mut one = vec![0; bits];
    one[random.below(bits)] = 1;
    let any = (0..times).map(|_| random_word(random, bits));
    for data in [vec![0; bits], vec![1; bits], one].into_iter().chain(any) {
        let answer = compare_by(&coder, &data, &some_bytes(random, plan.bits()), met);
        assert_eq!(number(&answer), 0, "nothing is to be refused");
    }
}

// Every three rows, with every three remainders by a small lift: three different ones are refused.
fn compare_three(random: &Random, met: &mut Met) {
    for (rows, lift) in (3..=6).flat_map(|rows| (1..=4).map(move |lift| (rows, lift))) {
        for (a, b, c) in (0..rows).flat_map(|c| (0..c).flat_map(move |b| (0..b).map(move |a| (a, b, c)))) {
            for k in 0..lift * lift * lift {
                let [x, y, z] = [k % lift, k / lift % lift, k / lift / lift];
                let plan = shaped_at(random, [rows, rows + 2, lift], 4, [(a, x), (b, y), (c, z)]);
                let wanted = if x == y || x == z || y == z { 0 } else { 30 };
                let answer = number(&compare(&job_of(random, plan), met));
                assert_eq!(answer, wanted, "remainders {x}, {y}, {z} in rows {a}, {b}, {c}");
            }
        }
    }
}

// Many numbers of rows, and many lifts.
fn compare_each_size(random: &Random, met: &mut Met) {
    for rows in 3..=192 {
        let plan = shaped(random, [rows, rows + 1 + rows % 3, 1 + rows % 2], 3);
        compare_frames(random, &plan, 1, met);
    }
    for lift in (1..=130).chain((131..4097).step_by(305)).chain([255, 256, 257, 4095, 4096]) {
        let plan = shaped(random, [3, 4 + lift % 2, lift], 6);
        compare_frames(random, &plan, 1, met);
    }
}

// Sizes at which plans are used.
fn compare_middle(random: &Random, met: &mut Met) {
    for (sizes, density) in [([12, 24, 96], 3), ([12, 24, 96], 8), ([5, 11, 257], 6), ([20, 40, 31], 2), ([24, 30, 64], 1)] {
        compare_frames(random, &shaped(random, sizes, density), 20, met);
    }
}

// Sizes at the limits of rows, columns, lift and bits.
fn compare_limits(random: &Random, met: &mut Met) {
    let sizes = [
        ([192, 512, 128], 0),
        ([192, 512, 128], 1),
        ([192, 512, 128], 8),
        ([192, 512, 1], 8),
        ([192, 193, 339], 4),
        ([191, 192, 341], 4),
        ([3, 512, 128], 8),
        ([3, 16, 4096], 8),
        ([3, 4, 4096], 8),
        ([15, 16, 4096], 3),
        ([12, 24, 2730], 3),
        ([3, 4, 1], 8),
    ];
    for (sizes, density) in sizes {
        compare_frames(random, &shaped(random, sizes, density), 2, met);
    }
}

// Every entry that there is, in a bi-diagonal column, in column m − 1 beside the remainders 0 and 1, and in a column of data.
fn compare_entries(random: &Random, met: &mut Met) {
    let good = Draft { entries: vec![0, -1, 0, 0, 0, 0, 1, 1, -1, 0, 1, 2], rows: 3, cols: 4, lift: 3 };
    for e in i16::MIN..=i16::MAX {
        let due = |wanted: fn(i16) -> bool| if e < -1 { 6 } else { 30 * !wanted(e) as u64 };
        for (place, wanted) in [(9, due(|e| e >= 0 && e % 3 == 0)), (6, due(|e| e >= 0 && e % 3 < 2)), (7, due(|_| true))] {
            let mut plan = good.clone();
            plan.entries[place] = e;
            assert_eq!(number(&compare(&job_of(random, plan), met)), wanted, "{e} at {place}");
        }
    }
}

fn compare_small(random: &Random, met: &mut Met) {
    for _ in 0..3000 {
        compare_frames(random, &small_shaped(random), 2, met);
    }
}

pub fn compare_all() -> Seen {
    let (random, mut met) = (Random::new(17), Met::default());
    compare_three(&random, &mut met);
    compare_each_size(&random, &mut met);
    compare_middle(&random, &mut met);
    compare_limits(&random, &mut met);
    compare_entries(&random, &mut met);
    compare_small(&random, &mut met);
    encode_shapes::compare_all(&random, &mut met);
    encode_faults::compare_all(&random, &mut met);
    encoded::compare_all(&random, &mut met);
    met.assert_all();
    met.seen
}
