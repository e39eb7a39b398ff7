//! What is refused where bits are to be turned: each fault alone and beside every other.
use crate::faults::{self, lengths, other_sizes, put, Fault};
use crate::flip::{compare, compare_by, job_of, small_three, Job, Met};
use crate::inputs::{any_plan, column_plan, damage_plan, Draft};
use crate::random::Random;
use crate::reference::flip::Flipper;
use crate::reference::refused;
use crate::seen::number;
use crate::words::{damage, lose, random_word, some_word};

// A plan with blocks in the first three rows alone, all voltages 0, and a word of zeros.
fn reshape(job: &mut Job, rows: usize, cols: usize, lift: usize) {
    let entries = (0..rows * cols).map(|k| if k / cols < 3 { 0 } else { -1 }).collect();
    *job = Job { plan: Draft { entries, rows, cols, lift }, word: vec![0; cols * lift] };
}

// The good plan has 5 rows and 6 columns, at lift 7, and its blocks in rows 0, 2 and 3: a word has 42 bits.
const FAULTS: [Fault<Job>; 30] = [
    (1, |job| reshape(job, 193, 6, 7)),
    (1, |job| job.plan.rows = 0),
    (1, |job| job.plan.rows += 1 << 32),
    (2, |job| reshape(job, 4, 513, 3)),
    (2, |job| job.plan.cols = 513),
    (2, |job| job.plan.cols = 0),
    (3, |job| reshape(job, 3, 4, 4097)),
    (3, |job| job.plan.lift = 0),
    (3, |job| job.plan.lift += 1 << 32),
    (4, |job| reshape(job, 3, 17, 4096)),
    (4, |job| reshape(job, 5, 512, 129)),
    (4, |job| (job.plan.cols, job.plan.lift) = (17, 4096)),
    (5, |job| _ = job.plan.entries.pop()),
    (5, |job| job.plan.entries.push(-1)),
    (5, |job| job.plan.rows = 4),
    (6, |job| put(&mut job.plan.entries, 6, -2)),
    (6, |job| put(&mut job.plan.entries, 29, i16::MIN)),
    (16, |job| _ = job.word.pop()),
    (16, |job| job.word.push(0)),
    (16, |job| job.word.clear()),
    (18, |job| put(&mut job.word, 5, 3)),
    (18, |job| put(&mut job.word, 0, 255)),
    (18, |job| put(&mut job.word, 41, 4)),
    (19, |job| put(&mut job.word, 0, 2)),
    (19, |job| put(&mut job.word, 4, 2)),
    (19, |job| put(&mut job.word, 41, 2)),
    (32, |job| put(&mut job.plan.entries, 0, -1)),
    (32, |job| put(&mut job.plan.entries, 23, -1)),
    (32, |job| put(&mut job.plan.entries, 11, 0)),
    (32, |job| job.plan.entries.iter_mut().take(18).for_each(|entry| *entry = -1)),
];

fn compare_faults(random: &Random, met: &mut Met) {
    let entry = |k: usize| if [0, 2, 3].contains(&(k / 6)) { 5 * k as i16 } else { -1 };
    let plan = Draft { entries: (0..30).map(entry).collect(), rows: 5, cols: 6, lift: 7 };
    let good = job_of(random, plan);
    faults::compare_faults(&good, &FAULTS, |job| number(&compare(&job.plan, &job.word, met)));
}

// Plans and words of many lengths.
fn compare_lengths(random: &Random, met: &mut Met) {
    for _ in 0..10 {
        let good = job_of(random, column_plan(random, 4, 5, random.between(1, 9), 3));
        for len in lengths(20) {
            let (mut plan, wanted) = (good.plan.clone(), if len == 20 { 0 } else { 5 });
            plan.entries.resize(len, -1);
            assert_eq!(number(&compare(&plan, &good.word, met)), wanted, "a plan of {len} entries");
        }
        let (flipper, bits) = (Flipper::new(good.plan.lent()), good.plan.bits());
        for len in lengths(bits) {
            let (word, wanted) = (random_word(random, len), if len == bits { 0 } else { 16 });
            assert_eq!(number(&compare_by(&flipper, &word, met).0), wanted, "a word of {len} bytes");
        }
    }
}

// Every byte at every place of a word, and now and then again behind it: the first place is shown.
fn compare_bytes(random: &Random, met: &mut Met) {
    let good = job_of(random, column_plan(random, 5, 4, 11, 3));
    let (flipper, bits) = (Flipper::new(good.plan.lent()), good.word.len());
    for (place, byte) in (0..bits).flat_map(|place| (0..=255).map(move |byte| (place, byte))) {
        let mut word = good.word.clone();
        word[place] = byte;
        if random.once_in(2) {
            word[random.between(place, bits - 1)] = byte;
        }
        let wanted = match byte {
            0 | 1 => None,
            2 => Some(refused(19, &[place])),
            _ => Some(refused(18, &[place])),
        };
        assert_eq!(compare_by(&flipper, &word, met).0.err(), wanted, "{byte} at {place}");
    }
}

// The first place of a bad entry is shown, whatever the weights and the word are.
fn compare_bad_places(random: &Random, met: &mut Met) {
    let good = job_of(random, column_plan(random, 4, 7, 5, 3));
    for place in 0..28 {
        let mut job = good.clone();
        job.plan.entries[place] = random.choice(&[-2, -3, -256, i16::MIN]);
        job.plan.entries[random.between(place, 27)] = -2;
        lose(random, &mut job.word, random.choice(&[0, 4]));
        assert_eq!(compare(&job.plan, &job.word, met), Err(refused(6, &[place])));
    }
}

fn compare_sizes(random: &Random, met: &mut Met) {
    let Job { plan, word } = job_of(random, column_plan(random, 4, 7, 6, 3));
    other_sizes(&plan).iter().for_each(|plan| _ = compare(plan, &word, met));
}

// Small plans with three blocks in each column, or of any weights, with up to three faults.
fn compare_random(random: &Random, met: &mut Met) {
    for k in 0..12000 {
        let mut plan = if k % 8 == 7 { any_plan(random, 4) } else { small_three(random) };
        let mut word = some_word(random, &plan);
        for _ in 0..k % 4 {
            let len = plan.entries.len().max(1);
            match random.below(4) {
                0 => damage_plan(random, &mut plan),
                1 => put(&mut plan.entries, random.below(len), random.choice(&[-1, 0, 1, 2, 3])),
                _ => damage(random, &mut word),
            }
        }
        _ = compare(&plan, &word, met);
    }
}

pub fn compare_all(random: &Random, met: &mut Met) {
    compare_faults(random, met);
    compare_lengths(random, met);
    compare_bytes(random, met);
    compare_bad_places(random, met);
    compare_sizes(random, met);
    compare_random(random, met);
}
