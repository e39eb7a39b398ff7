//! What a frame of encoded data is: a code frame with the data in it, and the only one.
use crate::bidiagonal::{data_bits, shaped, small_shaped};
use crate::door::{agree, Short};
use crate::encode::{compare_by, some_bytes, Met};
use crate::fill;
use crate::inputs::Draft;
use crate::random::Random;
use crate::reference::encode::Coder;
use crate::reference::gf2::Solved;
use crate::seen::Seen;
use crate::words::{code, random_word};
use qcldpc::{Fill, Plan, Syndrome};

/// The data stand behind the first columns, and the frame passes the syndrome check.
pub fn assert_frame(plan: &Plan, data: &[u8], frame: &[u8]) {
    let input = &(Short(plan), data);
    agree(input, &frame[plan.rows * plan.lift..], data);
    agree(input, qcldpc::syndrome(plan, frame), Ok(Syndrome::Even));
}

// The library's frame of some data, in a word that held anything.
fn encode(random: &Random, plan: &Draft, data: &[u8]) -> Vec<u8> {
    let mut word = some_bytes(random, plan.bits());
    agree(&Short(&plan.lent()), qcldpc::encode(&plan.lent(), data, &mut word), Ok(()));
    word
}

fn sum(a: &[u8], b: &[u8]) -> Vec<u8> {
    a.iter().zip(b).map(|(x, y)| x ^ y).collect()
}

// All code words, by elimination in the whole matrix: the bits that carry data may be chosen, and determine all others.
fn code_by_data(plan: &Draft) -> Solved {
    let code = code(&plan.lent());
    assert!(code.determined().iter().copied().eq(0..plan.rows * plan.lift), "the data determine the frame");
    code
}

// The frame by that elimination, by the reference's and by the library.
fn compare_eliminations(random: &Random, plan: &Draft, times: usize) {
    let (code, coder) = (code_by_data(plan), Coder::new(plan.lent()));
    for _ in 0..times {
        let data = random_word(random, data_bits(plan));
        let mut bits = [vec![0; plan.rows * plan.lift], data.clone()].concat().into_iter();
        let frame = code.solution(|| bits.next() == Some(1));
        let (answer, other) = coder.encode(&data, &vec![0; plan.bits()]);
        agree(&(Short(&plan.lent()), &data), (answer, other), (Ok(()), frame.clone()));
        agree(&(Short(&plan.lent()), &data), encode(random, plan, &data), frame);
    }
}

fn compare_all_eliminations(random: &Random) {
    (0..1000).for_each(|_| compare_eliminations(random, &small_shaped(random), 2));
    for (sizes, density) in [([12, 24, 96], 3), ([12, 24, 96], 8), ([6, 9, 200], 5), ([40, 50, 20], 1)] {
        compare_eliminations(random, &shaped(random, sizes, density), 4);
    }
}

// Every word of a plan with few bits: exactly the frames of its data bits pass the syndrome check.
fn compare_every_word(random: &Random) {
    for sizes in [[3, 4, 1], [3, 5, 1], [4, 5, 2], [3, 4, 3], [5, 6, 2], [4, 8, 1], [7, 9, 1]] {
        for _ in 0..8 {
            let plan = shaped(random, sizes, 5);
            let bits = plan.bits();
            for k in 0..1u32 << bits {
                let word: Vec<u8> = (0..bits).map(|bit| (k >> bit & 1) as u8).collect();
                let even = qcldpc::syndrome(&plan.lent(), &word) == Ok(Syndrome::Even);
                let frame = encode(random, &plan, &word[plan.rows * plan.lift..]);
                assert_eq!(even, word == frame, "{word:?} of {:?}", Short(&plan.lent()));
            }
        }
    }
}

// The sum of two frames is the frame of the sum. One data bit turned turns its bit alone among the data, and others with it
// where some check has it.
fn compare_sums(random: &Random, plan: &Draft) {
    let bits = data_bits(plan);
    let [a, b] = [(); 2].map(|_| random_word(random, bits));
    let frames = [&a, &b, &sum(&a, &b)].map(|data| encode(random, plan, data));
    agree(&(Short(&plan.lent()), &a, &b), sum(&frames[0], &frames[1]), frames[2].clone());
    let k = random.below(bits);
    let mut turned = a.clone();
    turned[k] ^= 1;
    let difference = sum(&frames[0], &encode(random, plan, &turned));
    let first = plan.rows * plan.lift;
    let touched = (0..plan.rows).any(|i| plan.entries[i * plan.cols + plan.rows + k / plan.lift] >= 0);
    assert!((first..plan.bits()).all(|bit| (difference[bit] == 1) == (bit == first + k)));
    assert_eq!(difference[..first].contains(&1), touched, "bit {k} turned in {:?}", Short(&plan.lent()));
}

// Of a frame that lost bits each that is filled comes back as it was, and nothing contradicts. Whether all came back.
fn comes_back(plan: &Draft, frame: &[u8], lost: &[usize], seen: &mut Seen) -> bool {
    let mut word = frame.to_vec();
    lost.iter().for_each(|&bit| word[bit] = 2);
    let Fill { filled, left } = fill::compare(&plan.lent(), &word, seen).expect("the frame itself fits");
    assert_eq!(filled + left, lost.len());
    agree(&Short(&plan.lent()), qcldpc::fill(&plan.lent(), &mut word), Ok(Fill { filled, left }));
    let as_it_was = |bit: usize| word[bit] == frame[bit] || word[bit] == 2 && lost.contains(&bit);
    assert!((0..frame.len()).all(as_it_was), "a bit does not come back, for {:?}", Short(&plan.lent()));
    left == 0
}

// Any bits, few or many; then all of the bi-diagonal columns, which come back one after the other.
fn compare_lost(random: &Random, plan: &Draft, seen: &mut Seen, whole: &mut [usize; 2]) {
    let frame = encode(random, plan, &random_word(random, data_bits(plan)));
    for most in [1, 3, 9, plan.bits() / 4, plan.bits()] {
        let lost = random.distinct(random.between(1, most.clamp(1, plan.bits())), plan.bits());
        whole[comes_back(plan, &frame, &lost, seen) as usize] += 1;
    }
    let chain: Vec<usize> = (0..(plan.rows - 1) * plan.lift).collect();
    assert!(comes_back(plan, &frame, &chain, seen), "the bi-diagonal columns come back");
}

fn compare_all_lost(random: &Random) {
    let (mut seen, mut whole) = (Seen::default(), [0; 2]);
    let large = [([12, 24, 96], 3), ([20, 40, 31], 2)].map(|(sizes, density)| shaped(random, sizes, density));
    for plan in (0..600).map(|_| small_shaped(random)).chain(large) {
        compare_lost(random, &plan, &mut seen, &mut whole);
    }
    assert!(whole[0].min(whole[1]) > 500, "frames that came back in part, and whole: {whole:?}");
    assert!(seen.met().is_empty());
}

// The same frame in words that hold each byte that there is.
fn compare_lent(random: &Random, met: &mut Met) {
    for _ in 0..20 {
        let plan = small_shaped(random);
        let (coder, data) = (Coder::new(plan.lent()), random_word(random, data_bits(&plan)));
        for byte in 0..=255 {
            assert!(compare_by(&coder, &data, &vec![byte; plan.bits()], met).is_ok(), "nothing is to be refused");
        }
    }
}

pub fn compare_all(random: &Random, met: &mut Met) {
    compare_all_eliminations(random);
    compare_every_word(random);
    for _ in 0..2000 {
        compare_sums(random, &small_shaped(random));
    }
    compare_sums(random, &shaped(random, [12, 24, 2730], 3));
    compare_sums(random, &shaped(random, [192, 512, 128], 2));
    compare_all_lost(random);
    compare_lent(random, met);
}
