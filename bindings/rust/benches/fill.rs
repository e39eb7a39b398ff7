//! Times the proved decoder on the 1,764-bit plan of source 004's example 2 (cyclic table of order 7, lift 7, mask 0 on the
//! diagonal) with 13 and with 400 erasures, beside a plain Rust worklist decoder. The call gets the plan as numbers for each
//! word, judges it and builds its index; so there are two references: one that does the same for each word, and one that
//! prepares the plan once. All run with the voltages below the lift, and with the same plan's voltages above it. The preview is
//! timed beside the decoder itself.
mod common;

use common::{cyclic_plan, judge, printed, shift, timed, OwnedPlan, Sequence};
use qcldpc::{Fill, Plan};
use std::hint::black_box;
use std::time::Duration;

// The filled blocks of each row and of each column, each in one list.
struct Lists {
    row_items: Vec<(usize, usize)>,
    row_ends: Vec<usize>,
    col_items: Vec<(usize, usize)>,
    col_counts: Vec<usize>,
}

fn lists(plan: &OwnedPlan) -> Lists {
    let Plan { entries, rows, cols, lift } = plan.lent();
    let (mut row_items, mut row_ends) = (Vec::new(), Vec::new());
    let mut col_counts = vec![0usize; cols + 1];
    for i in 0..rows {
        for j in 0..cols {
            let e = entries[i * cols + j];
            if e >= 0 {
                row_items.push((j, shift(e, lift)));
                col_counts[j + 1] += 1;
            }
        }
        row_ends.push(row_items.len());
    }
    for j in 0..cols {
        col_counts[j + 1] += col_counts[j];
    }
    let mut col_items = vec![(0usize, 0usize); row_items.len()];
    let mut next = col_counts.clone();
    for i in 0..rows {
        for &(j, e) in &row_items[if i == 0 { 0 } else { row_ends[i - 1] }..row_ends[i]] {
            col_items[next[j]] = (i, e);
            next[j] += 1;
        }
    }
    Lists { row_items, row_ends, col_items, col_counts }
}

// The reference that does the same work for each word as the call: judges the plan, builds the lists, decodes.
fn same_work(plan: &OwnedPlan, word: &mut [u8]) -> Result<Fill, u64> {
    judge(&plan.lent())?;
    decode(&lists(plan), plan, word)
}

// The worklist decoder: a count of erasures and a parity for each check, and a list of checks with one erasure.
fn decode(lists: &Lists, plan: &OwnedPlan, word: &mut [u8]) -> Result<Fill, u64> {
    let Plan { rows, cols, lift, .. } = plan.lent();
    let Lists { row_items, row_ends, col_items, col_counts } = lists;
    if word.len() != cols * lift {
        return Err(16);
    }
    if word.iter().any(|&x| x > 2) {
        return Err(18);
    }
    let row = |i: usize| &row_items[if i == 0 { 0 } else { row_ends[i - 1] }..row_ends[i]];
    let bits_of = |c: usize| {
        let (i, y) = (c / lift, c % lift);
        row(i).iter().map(move |&(j, e)| j * lift + (y + e) % lift)
    };
    let before = word.to_vec();
    let mut missing = vec![0usize; rows * lift];
    let mut parity = vec![0u8; rows * lift];
    for c in 0..rows * lift {
        for b in bits_of(c) {
            if word[b] == 2 {
                missing[c] += 1;
            } else {
                parity[c] ^= word[b];
            }
        }
    }
    let mut waiting: Vec<usize> = (0..rows * lift).filter(|&c| missing[c] == 1).collect();
    let mut filled = 0;
    while let Some(c) = waiting.pop() {
        if missing[c] != 1 {
            continue;
        }
        let b = bits_of(c).find(|&b| word[b] == 2).unwrap();
        let x = parity[c];
        word[b] = x;
        filled += 1;
        let (j, z) = (b / lift, b % lift);
        for &(i, e) in &col_items[col_counts[j]..col_counts[j + 1]] {
            let d = i * lift + (z + lift - e) % lift;
            missing[d] -= 1;
            parity[d] ^= x;
            if missing[d] == 1 {
                waiting.push(d);
            }
        }
    }
    if (0..rows * lift).any(|c| missing[c] == 0 && parity[c] == 1) {
        word.copy_from_slice(&before);
        return Err(20);
    }
    let left = word.iter().filter(|&&x| x == 2).count();
    Ok(Fill { filled, left })
}

// The zero word, which is a codeword, with n erasures.
fn damaged(bits: usize, n: usize, sequence: &mut Sequence) -> Vec<u8> {
    let mut word = vec![0u8; bits];
    let mut left = n;
    while left > 0 {
        let b = sequence.next() as usize % bits;
        if word[b] == 0 {
            word[b] = 2;
            left -= 1;
        }
    }
    word
}

// Decodes a copy of each word.
fn decode_all(best: &mut Duration, words: &[Vec<u8>], decode: impl Fn(&mut [u8]) -> Result<Fill, u64>) {
    let mut copies = words.to_vec();
    timed(best, || copies.iter_mut().for_each(|word| assert!(black_box(decode(black_box(word))).is_ok())));
}

// Previews each word.
fn preview_all(best: &mut Duration, words: &[Vec<u8>], plan: &OwnedPlan) {
    timed(best, || words.iter().for_each(|word| assert!(black_box(qcldpc::preview(&plan.lent(), black_box(word))).is_ok())));
}

// All four in turn on the same words, best of 7 each.
fn beside(name: &str, plan: &OwnedPlan, words: &[Vec<u8>]) {
    let once = lists(plan);
    let proved = |word: &mut [u8]| qcldpc::fill(&plan.lent(), word).map_err(|refusal| refusal.number);
    let same_work = |word: &mut [u8]| same_work(plan, word);
    let prepared = |word: &mut [u8]| decode(&once, plan, word);
    for word in words {
        let (mut a, mut b, mut c) = (word.clone(), word.clone(), word.clone());
        let answer = proved(&mut a);
        assert_eq!(answer, qcldpc::preview(&plan.lent(), word).map_err(|refusal| refusal.number));
        assert_eq!(answer, same_work(&mut b));
        assert_eq!(answer, prepared(&mut c));
        assert!(a == b && a == c);
    }
    let [mut ours, mut preview, mut same, mut once] = [Duration::MAX; 4];
    for _ in 0..7 {
        decode_all(&mut ours, words, proved);
        preview_all(&mut preview, words, plan);
        decode_all(&mut same, words, same_work);
        decode_all(&mut once, words, prepared);
    }
    let rate = |d: Duration| words.len() as f64 / d.as_secs_f64();
    let ratio = |d: Duration, to: Duration| d.as_secs_f64() / to.as_secs_f64();
    println!("{name}: qcldpc_fill {:.0} words a second", rate(ours));
    println!("  qcldpc_preview {:.0} words a second, ratio to qcldpc_fill {:.3}", rate(preview), ratio(preview, ours));
    for (name, theirs) in [("same work for each word", same), ("plan prepared once", once)] {
        println!("  reference, {name}, {:.0} words a second, ratio {:.2}", rate(theirs), ratio(ours, theirs));
    }
}

fn main() {
    let mask: Vec<u8> = (0..49).map(|k| (k / 7 != k % 7) as u8).collect();
    let plan = cyclic_plan(7, 7, &mask);
    let mut sequence = Sequence(1);
    for n in [13, 400] {
        let words: Vec<Vec<u8>> = (0..200).map(|_| damaged(plan.bits(), n, &mut sequence)).collect();
        beside(&format!("{n} erasures"), &plan, &words);
        beside(&format!("{n} erasures, voltages above the lift"), &printed(&plan), &words);
    }
}
