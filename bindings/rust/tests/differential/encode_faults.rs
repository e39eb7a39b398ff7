//! What is refused where data are to be encoded: each fault alone and beside every other.
use crate::bidiagonal::{data_bits, shaped, small_shaped};
use crate::encode::{compare, compare_by, job_of, some_bytes, Job, Met};
use crate::faults::{self, lengths, other_sizes, put, Fault};
use crate::inputs::{damage_plan, small_plan, Draft};
use crate::random::Random;
use crate::reference::encode::Coder;
use crate::seen::number;
use crate::words::random_word;

// A plan of the shape, with all that goes with it: few blocks, all voltages 0.
fn reshape(job: &mut Job, rows: usize, cols: usize, lift: usize) {
    let block = |i: usize, j: usize| match j {
        _ if j + 1 < rows => j == i || j + 1 == i,
        _ if j + 1 == rows => i < 3,
        _ => i == j % rows,
    };
    let entries = (0..rows * cols).map(|k| if block(k / cols, k % cols) { 0 } else { -1 }).collect();
    job.plan = Draft { entries, rows, cols, lift };
    job.data = vec![1; (cols - rows) * lift];
    job.word = vec![7; cols * lift];
}

// The good plan has 4 rows and 6 columns, at lift 7: its columns 4 and 5 carry 14 data bits.
const FAULTS: [Fault<Job>; 28] = [
    (1, |job| reshape(job, 193, 194, 2)),
    (1, |job| job.plan.rows = 0),
    (1, |job| job.plan.rows += 1 << 32),
    (2, |job| reshape(job, 4, 513, 3)),
    (2, |job| job.plan.cols = 513),
    (2, |job| job.plan.cols = 0),
    (3, |job| reshape(job, 3, 4, 4097)),
    (3, |job| job.plan.lift = 0),
    (3, |job| job.plan.lift += 1 << 32),
    (4, |job| reshape(job, 3, 17, 4096)),
    (4, |job| reshape(job, 5, 512, 129)),
    (4, |job| (job.plan.cols, job.plan.lift) = (17, 4096)),
    (5, |job| _ = job.plan.entries.pop()),
    (5, |job| job.plan.entries.push(0)),
    (5, |job| job.plan.rows = 3),
    (6, |job| put(&mut job.plan.entries, 4, -2)),
    (6, |job| put(&mut job.plan.entries, 1, i16::MIN)),
    (16, |job| _ = job.word.pop()),
    (16, |job| job.word.push(0)),
    (16, |job| job.word.clear()),
    (30, |job| put(&mut job.plan.entries, 0, 1)),
    (30, |job| put(&mut job.plan.entries, 1, 0)),
    (30, |job| job.plan.entries.iter_mut().skip(3).step_by(6).take(4).for_each(|e| *e = 5)),
    (31, |job| _ = job.data.pop()),
    (31, |job| job.data.push(0)),
    (31, |job| put(&mut job.data, 0, 2)),
    (31, |job| put(&mut job.data, 13, 255)),
    (31, |job| job.data.clear()),
];

fn compare_faults(random: &Random, met: &mut Met) {
    let good = job_of(random, shaped(random, [4, 6, 7], 5));
    faults::compare_faults(&good, &FAULTS, |job| number(&compare(job, met)));
}

// Plans, words and data of many lengths.
fn compare_lengths(random: &Random, met: &mut Met) {
    for _ in 0..10 {
        let good = job_of(random, shaped(random, [3, 5, random.between(1, 9)], 5));
        let (bits, data) = (good.plan.bits(), data_bits(&good.plan));
        for len in lengths(15) {
            let (mut job, wanted) = (good.clone(), if len == 15 { 0 } else { 5 });
            job.plan.entries.resize(len, 0);
            assert_eq!(number(&compare(&job, met)), wanted, "a plan of {len} entries");
        }
        for len in lengths(bits) {
            let (word, wanted) = (some_bytes(random, len), if len == bits { 0 } else { 16 });
            assert_eq!(number(&compare(&Job { word, ..good.clone() }, met)), wanted, "a word of {len} bytes");
        }
        for len in lengths(data) {
            let (data, wanted) = (random_word(random, len), if len == data { 0 } else { 31 });
            assert_eq!(number(&compare(&Job { data, ..good.clone() }, met)), wanted, "{len} data bits");
        }
    }
}

// A byte above 1 at each place of the data; and every byte at one.
fn compare_bytes(random: &Random, met: &mut Met) {
    for plan in [shaped(random, [3, 5, 11], 5), shaped(random, [6, 9, 23], 3)] {
        let good = job_of(random, plan);
        let bits = good.data.len();
        let each = (0..bits).flat_map(|place| [2, 3, 128, 254, 255].map(|byte| (place, byte)));
        let every = (0..=255).flat_map(|byte| [(0, byte), (bits / 2, byte), (bits - 1, byte)]);
        for (place, byte) in each.chain(every) {
            let mut job = good.clone();
            job.data[place] = byte;
            assert_eq!(number(&compare(&job, met)), if byte > 1 { 31 } else { 0 }, "{byte} at {place}");
        }
    }
}

// The same in many data bits, and a word and data without their last byte.
fn compare_many_bits(random: &Random, met: &mut Met) {
    let good = job_of(random, shaped(random, [12, 24, 2730], 2));
    let coder = Coder::new(good.plan.lent());
    for place in [0, 4095, 4096, 16383, 16384, 32758, 32759] {
        let mut data = good.data.clone();
        data[place] = 2;
        assert_eq!(number(&compare_by(&coder, &data, &good.word, met)), 31, "2 at {place}");
    }
    assert_eq!(number(&compare_by(&coder, &good.data[1..], &good.word, met)), 31);
    assert_eq!(number(&compare_by(&coder, &good.data, &good.word[1..], met)), 16);
    assert_eq!(number(&compare_by(&coder, &good.data, &good.word, met)), 0);
}

// The first place of a bad entry is shown, whatever the shape and the data are.
fn compare_bad_places(random: &Random, met: &mut Met) {
    let good = job_of(random, shaped(random, [4, 7, 5], 5));
    for place in 0..28 {
        let mut job = good.clone();
        job.plan.entries[place] = random.choice(&[-2, -3, -256, i16::MIN]);
        job.plan.entries[random.between(place, 27)] = -2;
        let bad = compare(&job, met).expect_err("an entry below -1");
        assert_eq!((bad.number, bad.values), (6, vec![place as u64]));
    }
}

fn compare_sizes(random: &Random, met: &mut Met) {
    let good = job_of(random, shaped(random, [4, 7, 6], 5));
    for plan in other_sizes(&good.plan) {
        _ = compare(&Job { plan, ..good.clone() }, met);
    }
}

// Makes one of the refusals likely.
fn damage(random: &Random, job: &mut Job) {
    let len = job.plan.entries.len().max(1);
    match random.below(6) {
        0 => damage_plan(random, &mut job.plan),
        1 => put(&mut job.plan.entries, random.below(len), random.choice(&[-1, 0, 1, 2, 3])),
        2 => job.word.resize(random.choice(&[0, job.word.len().saturating_sub(1), job.word.len() + 1]), 0),
        3 => job.data.resize(random.choice(&[0, job.data.len().saturating_sub(1), job.data.len() + 1]), 1),
        4 => put(&mut job.data, random.below(len), random.choice(&[1, 2, 3, 255])),
        _ => job.plan.lift = random.between(1, 8),
    }
}

// Small plans of the shape or of any, with up to three faults.
fn compare_random(random: &Random, met: &mut Met) {
    for k in 0..12000 {
        let plan = if k % 8 == 7 { small_plan(random) } else { small_shaped(random) };
        let columns = plan.cols.saturating_sub(plan.rows);
        let (data, word) = (random_word(random, columns * plan.lift), some_bytes(random, plan.bits()));
        let mut job = Job { plan, data, word };
        (0..k % 4).for_each(|_| damage(random, &mut job));
        _ = compare(&job, met);
    }
}

pub fn compare_all(random: &Random, met: &mut Met) {
    compare_faults(random, met);
    compare_lengths(random, met);
    compare_bytes(random, met);
    compare_many_bits(random, met);
    compare_bad_places(random, met);
    compare_sizes(random, met);
    compare_random(random, met);
}
