//! Rounds of turned bits over the largest words.
use super::plans::{chain, full, plan_of, turned_away};
use super::{expect, refusal, tables, Call};
use qcldpc::{OwnedPlan, Refusal};

// The rows stand in groups of three, and each column has the blocks of one group, all with one remainder; most voltages are
// above the lift. So the three checks of a bit have the same bits: one of each column of the group.
fn alike(rows: usize, cols: usize, lift: usize) -> OwnedPlan {
    let groups = rows / 3;
    let voltage = |i: usize, j: usize| (lift - 1 + (i + j) % 7 * lift) as i16;
    plan_of(rows, cols, lift, |i, j| if i / 3 == j % groups { voltage(i, j) } else { -1 })
}

// All rows and columns, the largest lift, and the most blocks in a row.
fn largest() -> [OwnedPlan; 5] {
    [alike(192, 512, 128), alike(192, 512, 1), alike(192, 16, 4096), alike(3, 16, 4096), alike(3, 512, 128)]
}

// The answer, and whether the word is then as it should be.
fn flips(plan: &OwnedPlan, mut word: Vec<u8>, wanted: Result<usize, Refusal>, after: Vec<u8>) -> Call {
    let plan = plan.clone();
    expect(move || (qcldpc::flip(&plan.lent(), &mut word), word == after), (wanted, true))
}

// A word that is refused or stays as it is.
fn keeps(plan: &OwnedPlan, word: Vec<u8>, wanted: Result<usize, Refusal>) -> Call {
    flips(plan, word.clone(), wanted, word)
}

// The first column of each group is ones, so that each check with bits has a single one and is odd: all bits are turned.
fn turns_all(plan: &OwnedPlan) -> Call {
    let ones = plan.rows() / 3 * plan.lift();
    let word: Vec<u8> = (0..plan.bits()).map(|bit| (bit < ones) as u8).collect();
    let after = word.iter().map(|bit| 1 - bit).collect();
    flips(plan, word, Ok(plan.bits()), after)
}

pub fn flip() -> Vec<Call> {
    let mut calls: Vec<Call> = largest().iter().map(turns_all).collect();
    calls.extend(largest().map(|plan| keeps(&plan, vec![0; plan.bits()], Ok(0))));
    // It passes at 12.
    let (table, bits) = (tables::largest_plan(), 343 * 191);
    for bit in [0, bits / 2, bits - 1] {
        let mut word = vec![0; bits];
        word[bit] = 1;
        calls.push(flips(&table, word, Ok(1), vec![0; bits]));
    }
    calls
}

// The word with its last byte changed.
fn with_last(mut word: Vec<u8>, byte: u8) -> Vec<u8> {
    *word.last_mut().expect("a word has bits") = byte;
    word
}

pub fn flip_refused() -> Vec<Call> {
    let mut calls = turned_away(|plan| qcldpc::flip(plan, &mut vec![1; 65536]));
    for plan in largest() {
        let bits = plan.bits();
        let place = [bits as u64 - 1];
        let mut refuses = |word: Vec<u8>, number, values: &[u64]| calls.push(keeps(&plan, word, Err(refusal(number, values))));
        [0, bits - 1, bits + 1].into_iter().for_each(|bytes| refuses(vec![1; bytes], 16, &[]));
        refuses(with_last(vec![1; bits], 3), 18, &place);
        refuses(with_last(vec![1; bits], 2), 19, &place);
        // The last column has two blocks.
        let mut other = plan.clone();
        let last = (0..plan.rows()).rev().find(|i| plan.entries()[(i + 1) * plan.cols() - 1] >= 0).expect("a filled block");
        other.change(last, plan.cols() - 1, -1).expect("a block of the plan");
        calls.push(keeps(&other, vec![1; bits], Err(refusal(32, &[]))));
    }
    for plan in [full(128), full(1), chain(192, 512, 128), chain(192, 16, 4096)] {
        calls.push(keeps(&plan, vec![1; plan.bits()], Err(refusal(32, &[]))));
    }
    calls
}
