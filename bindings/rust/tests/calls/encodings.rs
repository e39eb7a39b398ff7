//! Data encoded by the largest bi-diagonal plans.
use super::plans::{chain, full, plan_of, turned_away};
use super::{expect, refusal, Call};
use qcldpc::{OwnedPlan, Plan};

// Each byte of the word before the call.
const BEFORE: u8 = 250;

// A bi-diagonal plan with blocks in the first row, in a middle one and in the last of column m − 1, where the last two have the
// same remainder. A column of data has a block in each row of which the number, with its own, leaves 0 by `gap`. Most voltages
// are above the lift.
fn bidiagonal(rows: usize, cols: usize, lift: usize, gap: usize) -> OwnedPlan {
    let three = [(0, 0), (rows / 2, lift - 1), (rows - 1, lift - 1)];
    let shift = |i: usize, j: usize| match j + 1 {
        k if k < rows => (j == i || k == i).then_some(0),
        k if k == rows => three.iter().find(|(row, _)| *row == i).map(|&(_, shift)| shift),
        _ => ((i + j) % gap == 0).then_some(5 * i + 3 * j),
    };
    plan_of(rows, cols, lift, |i, j| shift(i, j).map_or(-1, |e| (e % lift + (i + j) % 7 * lift) as i16))
}

// All rows and columns, with all blocks of the data filled and with few; the largest lift; one column of data.
fn largest() -> [OwnedPlan; 6] {
    [
        bidiagonal(192, 512, 128, 1),
        bidiagonal(192, 512, 128, 64),
        bidiagonal(3, 16, 4096, 1),
        bidiagonal(15, 16, 4096, 3),
        bidiagonal(192, 193, 339, 1),
        bidiagonal(12, 24, 2730, 3),
    ]
}

// Some data bits of a plan.
fn data(plan: &OwnedPlan) -> Vec<u8> {
    let bits = plan.cols().saturating_sub(plan.rows()) * plan.lift();
    (0..bits).map(|k| (k % 3 == 0 || k % 7 == 2) as u8).collect()
}

// Whether every check of a word is even.
fn even(plan: &Plan, word: &[u8]) -> bool {
    let row = |i: usize| plan.entries[i * plan.cols..].iter().take(plan.cols).enumerate().filter(|(_, &e)| e >= 0);
    let bit = |y: usize, (j, &e): (usize, &i16)| word[j * plan.lift + (y + e as usize) % plan.lift];
    (0..plan.rows).all(|i| (0..plan.lift).all(|y| row(i).fold(0, |sum, block| sum ^ bit(y, block)) == 0))
}

// The answer, and whether the word is a codeword with the data.
fn encodes(plan: OwnedPlan) -> Call {
    let (data, mut word) = (data(&plan), vec![BEFORE; plan.bits()]);
    let run = move || {
        let plan = plan.lent();
        let answer = qcldpc::encode(&plan, &data, &mut word);
        (answer, word[plan.rows * plan.lift..] == data && word.iter().all(|&byte| byte < 2) && even(&plan, &word))
    };
    expect(run, (Ok(()), true))
}

// A refusal, with the word as it was lent.
fn refuses(plan: &OwnedPlan, data: Vec<u8>, bytes: usize, number: u64) -> Call {
    let (plan, mut word) = (plan.clone(), vec![BEFORE; bytes]);
    let run = move || {
        let answer = qcldpc::encode(&plan.lent(), &data, &mut word);
        (answer, word.iter().all(|&byte| byte == BEFORE))
    };
    expect(run, (Err(refusal(number, &[])), true))
}

pub fn encode() -> Vec<Call> {
    largest().into_iter().map(encodes).collect()
}

pub fn encode_refused() -> Vec<Call> {
    let mut calls = turned_away(|plan| qcldpc::encode(plan, &[1; 128], &mut vec![BEFORE; 65536]));
    for plan in [full(128), chain(192, 512, 128), chain(192, 16, 4096)] {
        calls.push(refuses(&plan, data(&plan), plan.bits(), 30));
    }
    for plan in largest() {
        let (data, bits) = (data(&plan), plan.bits());
        calls.extend([0, bits - 1, bits + 1].map(|bytes| refuses(&plan, data.clone(), bytes, 16)));
        let [mut longer, mut dirty] = [data.clone(), data.clone()];
        longer.push(0);
        *dirty.last_mut().expect("a bit") = 2;
        let shorter = data[1..].to_vec();
        calls.extend([longer, dirty, shorter, vec![]].map(|data| refuses(&plan, data, bits, 31)));
        // The last block of the two diagonals leaves 1.
        let mut other = plan.clone();
        other.change(plan.rows() - 1, plan.rows() - 2, 1).expect("a block of the plan");
        calls.push(refuses(&other, data, bits, 30));
    }
    calls
}
