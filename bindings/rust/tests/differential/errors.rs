//! Lost and wrong bits together (document 02, slip 11). T is one more than the lost bits that a plan's girth allows.
use crate::inputs::Draft;
use crate::passing::{by_girth, Passing, PASSING};
use crate::random::Random;
use crate::reference::refused;
use crate::reference::word::lost;
use crate::seen::Seen;
use crate::{cages, fill, steiner, words};
use qcldpc::{Fill, Syndrome};

// What was read of a word: some bits lost, others wrong.
fn read(word: &[u8], lost: &[usize], wrong: &[usize]) -> Vec<u8> {
    let mut read = word.to_vec();
    lost.iter().for_each(|&b| read[b] = 2);
    wrong.iter().for_each(|&b| read[b] ^= 1);
    read
}

// 1 to T - 1 wrong bits and none lost: some check is odd.
fn never_even(plan: &Draft, word: &[u8], wrong: &[usize], seen: &mut Seen) {
    let answer = words::compare(&plan.lent(), &read(word, &[], wrong), seen);
    assert!(matches!(answer, Some(Syndrome::Odd(_))), "{} wrong bits are not seen", wrong.len());
}

// Some wrong bits beside lost ones, fewer than T together: no values fit, and the word stays as it was read.
fn never_filled(plan: &Draft, word: &[u8], lost: &[usize], wrong: &[usize], seen: &mut Seen) {
    let mut read = read(word, lost, wrong);
    assert_eq!(fill::compare(&plan.lent(), &read, seen), None);
    assert_eq!(qcldpc::fill(&plan.lent(), &mut read), Err(refused(20, &[])));
}

fn compare_wrong(random: &Random, passing: &Passing, seen: &mut Seen) {
    let n = passing.bound;
    passing.each_damage(random, |word, bits| {
        never_even(&passing.plan, word, bits, seen);
        never_even(&passing.plan, word, &bits[..random.between(1, n)], seen);
        let (lost, wrong) = bits.split_at(random.below(n));
        never_filled(&passing.plan, word, lost, wrong, seen);
        never_filled(&passing.plan, word, lost, &wrong[..random.between(1, wrong.len())], seen);
    });
}

// Every list of a length with numbers below a limit, as its digits.
fn every_list(length: u32, limit: usize) -> impl Iterator<Item = Vec<u8>> {
    (0..limit.pow(length)).map(move |n| (0..length).map(|k| (n / limit.pow(k) % limit) as u8).collect())
}

// How many known bits of what was read are not the word's.
fn errors(word: &[u8], read: &[u8]) -> usize {
    word.iter().zip(read).filter(|(bit, byte)| **byte != 2 && bit != byte).count()
}

// Of everything that can be read: at most one of the words that the syndrome check calls even fits with e lost and f wrong bits,
// e + 2f below T. Gives how often two fit at T itself.
fn at_most_one(passing: &Passing, seen: &mut Seen) -> usize {
    let (plan, t, n) = (&passing.plan, passing.bound + 1, passing.plan.bits() as u32);
    let even = |word: &Vec<u8>| words::compare(&plan.lent(), word, &mut *seen) == Some(Syndrome::Even);
    let codewords: Vec<Vec<u8>> = every_list(n, 2).filter(even).collect();
    let mut two = 0;
    for read in every_list(n, 3) {
        let e = lost(&read);
        let mut wrong: Vec<usize> = codewords.iter().map(|word| errors(word, &read)).collect();
        wrong.sort();
        // with f so many, a second word fits
        let f = wrong[1];
        assert!(e + 2 * f >= t, "two codewords fit {read:?}");
        two += (e + 2 * f == t) as usize;
    }
    two
}

// Zeros and ones are the codewords of these plans. They differ in T bits, but in two more at 14: so T wrong bits are not seen at
// 6, 8, 10, 12 and 16, and T - 1 lost bits and a wrong one are filled to the other word.
fn compare_cages(seen: &mut Seen) {
    let more = [0, 0, 0, 0, 2, 0];
    for (cage, more) in cages::plans().into_iter().map(|plan| by_girth(plan, 0)).zip(more) {
        let (plan, n) = (cage.plan.lent(), cage.plan.bits());
        assert_eq!(n, cage.bound + 1 + more);
        let ones = vec![1; n];
        assert_eq!(words::compare(&plan, &ones, seen), Some(Syndrome::Even));
        let mut lost = vec![2; n];
        lost[0] = 1;
        assert_eq!(fill::compare(&plan, &lost, seen), Some(Fill { filled: n - 1, left: 0 }));
        assert_eq!((qcldpc::fill(&plan, &mut lost).is_ok(), lost), (true, ones));
        if n <= 14 {
            assert!(at_most_one(&cage, seen) > 0, "two codewords fit no word at T");
        }
    }
}

// Two of the Fano plane's codewords fit some word at T.
fn compare_fano(seen: &mut Seen) {
    let fano = by_girth(steiner::plan(7, 1, vec![0; 21]), 0);
    assert_eq!(fano.bound, 3);
    assert!(at_most_one(&fano, seen) > 0, "two codewords fit no word at T");
    let other = [0, 0, 0, 1, 1, 1, 1];
    assert_eq!(words::compare(&fano.plan.lent(), &other, seen), Some(Syndrome::Even));
    let mut lost = [0, 0, 0, 2, 2, 2, 1];
    assert_eq!(fill::compare(&fano.plan.lent(), &lost, seen), Some(Fill { filled: 3, left: 0 }));
    assert_eq!((qcldpc::fill(&fano.plan.lent(), &mut lost).is_ok(), lost), (true, other));
}

pub fn compare_all() -> Seen {
    let (random, mut seen) = (Random::new(11), Seen::default());
    PASSING.iter().for_each(|passing| compare_wrong(&random, passing, &mut seen));
    compare_cages(&mut seen);
    compare_fano(&mut seen);
    seen
}
