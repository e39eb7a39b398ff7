//! Rounds of turned bits.
use crate::applied::Applied;
use crate::door::{agree, left, lend_bytes, lend_numbers, writes, Short};
use crate::flip_rules::RULES;
use crate::inputs::{column_plan, Draft};
use crate::lent::Lent;
use crate::random::Random;
use crate::reference::flip::{odd_checks, refusals, Flipper};
use crate::seen::{number, Seen};
use crate::words::{code, code_word, random_word};
use crate::{flip_faults, flip_weights};
use qcldpc::raw::qcldpc_flip;
use qcldpc::{OwnedPlan, Plan, Refusal};

// The refusals of the call.
const NUMBERS: [u64; 10] = [1, 2, 3, 4, 5, 6, 16, 18, 19, 32];

// Words with more bits are not counted by their bits and by the other rules.
const SHORT: usize = 1000;

/// A plan and a word.
#[derive(Clone)]
pub struct Job {
    pub plan: Draft,
    pub word: Vec<u8>,
}

/// What the inputs have met.
#[derive(Default)]
pub struct Met {
    pub seen: Seen,
    applied: Applied,
    /// Words of which no bit was turned, one, more, or all.
    turned: [usize; 4],
    /// Bits, by how many of their checks are odd, and by themselves.
    bits: [[usize; 2]; 4],
    /// Words that another rule would have left otherwise.
    told: [usize; RULES.len()],
}

impl Met {
    fn note(&mut self, flipper: &Flipper, word: &[u8], after: &[u8], answer: &Result<usize, Refusal>) {
        self.seen.note_on(&flipper.plan, answer);
        self.applied.note(&refusals(&flipper.plan, word));
        let Ok(turned) = *answer else { return };
        let kind = if turned == word.len() { 3 } else { turned.min(2) };
        self.turned[kind] += 1;
        if word.len() > SHORT {
            return;
        }
        odd_checks(flipper.graph(), word).into_iter().zip(word).for_each(|(odd, &bit)| self.bits[odd][bit as usize] += 1);
        for ((_, rule), told) in RULES.iter().zip(&mut self.told) {
            *told += (rule(flipper.graph(), word) != after) as usize;
        }
    }

    // Each refusal was met alone and beside every higher one; the other kinds of input were met too.
    fn assert_all(&self) {
        self.applied.assert_all(&NUMBERS);
        let Met { turned, bits, told, .. } = self;
        assert!(turned.iter().all(|&times| times > 1000), "words of which none, one, more, all were turned: {turned:?}");
        assert!(bits.as_flattened().iter().all(|&times| times > 10000), "bits by their odd checks: {bits:?}");
        for ((rule, _), &times) in RULES.iter().zip(told) {
            assert!(times > 1000, "{rule}: only {times} words tell");
        }
    }
}

// Through the safe function, and as a method of an owned plan where the plan is not refused.
fn compare_safe(plan: &Plan, word: &[u8], answer: &Result<usize, Refusal>, after: &[u8]) {
    let input = &(Short(plan), word);
    let mut copy = word.to_vec();
    agree(input, &qcldpc::flip(plan, &mut copy), answer);
    agree(input, &copy[..], after);
    let Plan { entries, rows, cols, lift } = *plan;
    let Ok(owned) = OwnedPlan::new(entries.to_vec(), rows, cols, lift) else { return };
    copy.copy_from_slice(word);
    agree(input, &owned.flip(&mut copy), answer);
    agree(input, &copy[..], after);
}

/// Through the raw function, with all lent memory compared, and through the safe ones. Gives the answer, and the word as it is
/// then.
pub fn compare_by(flipper: &Flipper, word: &[u8], met: &mut Met) -> (Result<usize, Refusal>, Vec<u8>) {
    let plan = &flipper.plan;
    let input = &(Short(plan), word);
    let (answer, after) = flipper.flip(word);
    let mut p = lend_numbers(plan.entries);
    let (entries, n, rows, cols, lift) = (p.pointer(), p.len(), plan.rows as u64, plan.cols as u64, plan.lift as u64);
    let call = |word: &mut Lent<u8>, out, places| unsafe {
        qcldpc_flip(entries, n, rows, cols, lift, word.pointer(), word.len(), out, places)
    };
    writes(input, lend_bytes(word), [word, &after[..]], &answer.clone().map(|turned| vec![turned]), call);
    left(input, &p, plan.entries);
    compare_safe(plan, word, &answer, &after);
    met.note(flipper, word, &after, &answer);
    (answer, after)
}

/// Gives the answer.
pub fn compare(plan: &Draft, word: &[u8], met: &mut Met) -> Result<usize, Refusal> {
    compare_by(&Flipper::new(plan.lent()), word, met).0
}

/// The plan with a word of any bits.
pub fn job_of(random: &Random, plan: Draft) -> Job {
    let word = random_word(random, plan.bits());
    Job { plan, word }
}

/// The word with so many of its bits turned, any.
pub fn with_errors(random: &Random, word: &[u8], errors: usize) -> Vec<u8> {
    let mut word = word.to_vec();
    random.distinct(errors.min(word.len()), word.len()).into_iter().for_each(|bit| word[bit] ^= 1);
    word
}

/// A small plan with three filled blocks in each column, and with more rows than columns, as many, or fewer.
pub fn small_three(random: &Random) -> Draft {
    let rows = random.choice(&[3, 3, 4, random.between(3, 6), random.between(3, 12)]);
    let cols = random.choice(&[1, 2, 3, random.between(1, 8), random.between(1, 14)]);
    let lift = random.choice(&[1, 2, 3, random.between(1, 8), random.between(1, 40)]);
    column_plan(random, rows, cols, lift, 3)
}

// Words of one plan, of which none is refused: none and all of the bits set, so many with any bits, and each of some words
// with up to three bits turned.
fn compare_words(random: &Random, plan: &Draft, starts: &[Vec<u8>], times: usize, met: &mut Met) {
    let flipper = Flipper::new(plan.lent());
    let bits = plan.bits();
    let any = (0..times).map(|_| random_word(random, bits));
    let near = starts.iter().flat_map(|start| (0..4).map(|errors| with_errors(random, start, errors)));
    for word in [vec![0; bits], vec![1; bits]].into_iter().chain(any).chain(near) {
        assert_eq!(number(&compare_by(&flipper, &word, met).0), 0, "nothing is to be refused");
    }
}

// Codewords of small plans, with any voltages, with up to three errors.
fn compare_small(random: &Random, met: &mut Met) {
    for _ in 0..4000 {
        let plan = small_three(random);
        let start = code_word(random, &code(&plan.lent()));
        compare_words(random, &plan, &[start], 2, met);
    }
}

// Every word of a plan with few bits.
fn compare_every_word(random: &Random, met: &mut Met) {
    for [rows, cols, lift] in [[3, 1, 1], [3, 2, 2], [3, 3, 3], [4, 5, 2], [5, 9, 1], [6, 3, 3], [3, 2, 5], [4, 10, 1]] {
        for _ in 0..4 {
            let plan = column_plan(random, rows, cols, lift, 3);
            let (flipper, bits) = (Flipper::new(plan.lent()), plan.bits());
            for k in 0..1u32 << bits {
                let word: Vec<u8> = (0..bits).map(|bit| (k >> bit & 1) as u8).collect();
                assert_eq!(number(&compare_by(&flipper, &word, met).0), 0, "nothing is to be refused");
            }
        }
    }
}

// Many numbers of rows and of columns, and many lifts.
fn compare_each_size(random: &Random, met: &mut Met) {
    let lifts = (1..=130).chain((131..4097).step_by(305)).chain([255, 256, 257, 4095, 4096]);
    let sizes = (3..=192).map(|rows| [rows, 2 + rows % 5, 1 + rows % 3]);
    let sizes = sizes.chain((1..=512).step_by(7).map(|cols| [3 + cols % 9, cols, 1 + cols % 2]));
    for [rows, cols, lift] in sizes.chain(lifts.map(|lift| [3 + lift % 3, 1 + lift % 4, lift])) {
        let plan = column_plan(random, rows, cols, lift, 3);
        let zeros = vec![0; plan.bits()];
        compare_words(random, &plan, &[zeros], 1, met);
    }
}

// Sizes at the limits of rows, columns, lift and bits, each with any voltages and with those below the lift. With three rows and
// ones in the first column alone every check is odd, so that all bits are turned.
fn compare_limits(random: &Random, met: &mut Met) {
    let sizes = [
        [192, 512, 128],
        [192, 512, 1],
        [3, 512, 128],
        [192, 16, 4096],
        [3, 16, 4096],
        [4, 16, 4095],
        [192, 1, 4096],
        [192, 1, 1],
        [3, 1, 1],
    ];
    for [rows, cols, lift] in sizes {
        let mut plan = column_plan(random, rows, cols, lift, 3);
        for _ in 0..2 {
            let (zeros, first) = (vec![0; plan.bits()], (0..plan.bits()).map(|bit| (bit < lift) as u8).collect());
            compare_words(random, &plan, &[zeros, first], 1, met);
            plan.entries.iter_mut().filter(|entry| **entry >= 0).for_each(|entry| *entry %= lift as i16);
        }
    }
}

// Of the library alone: of a word with a codeword added the same bits are turned.
fn compare_sums(random: &Random) {
    let sum = |a: &[u8], b: &[u8]| -> Vec<u8> { a.iter().zip(b).map(|(x, y)| x ^ y).collect() };
    for _ in 0..1000 {
        let plan = small_three(random);
        let (word, added) = (random_word(random, plan.bits()), code_word(random, &code(&plan.lent())));
        let [mut one, mut other] = [word.clone(), sum(&word, &added)];
        let answers = [qcldpc::flip(&plan.lent(), &mut one), qcldpc::flip(&plan.lent(), &mut other)];
        agree(&(Short(&plan.lent()), &word, &added), &answers[0], &answers[1]);
        agree(&(Short(&plan.lent()), &word, &added), sum(&one, &added), other);
    }
}

// Every entry that there is: in the place of a filled block, where -1 leaves two, and of an empty one, where others make four.
fn compare_entries(random: &Random, met: &mut Met) {
    let good = Draft { entries: vec![0, 1, 2, 0, 0, -1, -1, 2], rows: 4, cols: 2, lift: 3 };
    for e in i16::MIN..=i16::MAX {
        let due = |wanted: bool| if e < -1 { 6 } else { 32 * !wanted as u64 };
        for (place, wanted) in [(3, due(e >= 0)), (6, due(e == -1))] {
            let mut plan = good.clone();
            plan.entries[place] = e;
            let answer = compare(&plan, &random_word(random, 6), met);
            assert_eq!(number(&answer), wanted, "{e} at {place}");
        }
    }
}

pub fn compare_all() -> Seen {
    let (random, mut met) = (Random::new(18), Met::default());
    compare_small(&random, &mut met);
    compare_every_word(&random, &mut met);
    compare_each_size(&random, &mut met);
    compare_limits(&random, &mut met);
    compare_sums(&random);
    compare_entries(&random, &mut met);
    flip_faults::compare_all(&random, &mut met);
    flip_weights::compare_all(&random, &mut met);
    met.assert_all();
    let Met { seen, turned, bits, told, .. } = met;
    println!("none, one, more, all bits turned: {turned:?}; by odd checks: {bits:?}; not by other rules: {told:?}");
    seen
}
