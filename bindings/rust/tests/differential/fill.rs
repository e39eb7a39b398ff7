//! The decoder and its preview.
use crate::door::{agree, left, lend_bytes, lend_numbers, no_room, reply, with_room, Short};
use crate::inputs::{any_plan, column_plan, every_entry, limit_plans, small_plan, Draft};
use crate::random::Random;
use crate::reference;
use crate::reference::fill::{largest_stuck_set, union_of_stuck_sets};
use crate::reference::graph::graph;
use crate::seen::Seen;
use crate::tables::built_plans;
use crate::words::{code, code_word, damage, lose, some_word};
use qcldpc::raw::{qcldpc_fill, qcldpc_preview};
use qcldpc::{Fill, Plan, Refusal};

// What goes into `out` of both calls.
fn counts(answer: &Result<Fill, Refusal>) -> (u64, Vec<u64>) {
    reply(&answer.clone().map(|fill| vec![fill.filled, fill.left]))
}

// The preview gives the decoder's answer, and the word stays as it was lent.
fn compare_preview(plan: &Plan, word: &[u8], answer: &Result<Fill, Refusal>) {
    let input = &(Short(plan), word);
    let (rows, cols, lift) = (plan.rows as u64, plan.cols as u64, plan.lift as u64);
    let (mut p, mut w) = (lend_numbers(plan.entries), lend_bytes(word));
    let mut call =
        |out, places| unsafe { qcldpc_preview(p.pointer(), p.len(), rows, cols, lift, w.pointer(), w.len(), out, places) };
    no_room(&mut call);
    agree(input, with_room(&mut call), counts(answer));
    left(input, &p, plan.entries);
    left(input, &w, word);
    agree(input, &qcldpc::preview(plan, word), answer);
}

/// Gives the answer, where it is no refusal.
pub fn compare(plan: &Plan, word: &[u8], seen: &mut Seen) -> Option<Fill> {
    let (answer, after) = reference::fill::fill(plan, word);
    let input = &(Short(plan), word);
    let (rows, cols, lift) = (plan.rows as u64, plan.cols as u64, plan.lift as u64);
    let (mut p, mut w) = (lend_numbers(plan.entries), lend_bytes(word));
    let (entries, len, n) = (p.pointer(), p.len(), w.len());
    let call = |at, out, places| unsafe { qcldpc_fill(entries, len, rows, cols, lift, at, n, out, places) };
    no_room(|out, places| call(w.pointer(), out, places));
    left(input, &w, word);
    let got = with_room(|out, places| call(w.pointer(), out, places));
    agree(input, got, counts(&answer));
    left(input, &w, &after);
    left(input, &p, plan.entries);
    let mut copy = word.to_vec();
    agree(input, &qcldpc::fill(plan, &mut copy), &answer);
    agree(input, &copy, &after);
    compare_preview(plan, word, &answer);
    seen.note_on(plan, &answer);
    answer.ok()
}

// The two readings of U agree: what is left when bits that a check touches alone are taken away, and the union of stuck sets.
fn compare_stuck_sets(random: &Random) {
    for _ in 0..300 {
        let plan = small_plan(random);
        let mut lost = vec![false; plan.bits()];
        let n = random.between(0, 9).min(plan.bits());
        random.distinct(n, plan.bits()).into_iter().for_each(|b| lost[b] = true);
        let graph = graph(&plan.lent());
        agree(&Short(&plan.lent()), largest_stuck_set(&graph, &lost), union_of_stuck_sets(&graph, &lost));
    }
}

// Turns a bit that is not lost.
fn turn_known(random: &Random, word: &mut [u8]) {
    let known: Vec<usize> = (0..word.len()).filter(|&b| word[b] < 2).collect();
    if !known.is_empty() {
        word[random.choice(&known)] ^= 1;
    }
}

// Large plans: a code word where elimination is cheap, else zeros, with no more erasures than elimination is quick for.
fn compare_large(random: &Random, plan: &Draft, seen: &mut Seen) {
    let bits = plan.bits();
    let start = if bits <= 2000 { code_word(random, &code(&plan.lent())) } else { vec![0; bits] };
    for n in [0, 1, 13, bits / 10, bits / 4, bits / 2, bits] {
        let mut word = start.clone();
        random.distinct(n.min(bits).min(1000), bits).into_iter().for_each(|b| word[b] = 2);
        compare(&plan.lent(), &word, seen);
        turn_known(random, &mut word);
        compare(&plan.lent(), &word, seen);
        damage(random, &mut word);
        compare(&plan.lent(), &word, seen);
    }
}

pub fn compare_all() -> Seen {
    let (random, mut seen) = (Random::new(5), Seen::default());
    compare_stuck_sets(&random);
    let mut large = limit_plans(&random);
    large.extend(built_plans(&random));
    large.iter().for_each(|plan| compare_large(&random, plan, &mut seen));
    // By an even e both stay lost, by an odd one they are filled.
    every_entry(2).for_each(|plan| _ = compare(&plan.lent(), &[2, 0, 2, 0], &mut seen));
    let mut in_part = 0;
    for k in 0..12000 {
        let plan = match k % 3 {
            0 => column_plan(&random, 4, 8, 1 + k % 23, 2 + k % 2),
            _ => any_plan(&random, 10),
        };
        let mut word = some_word(&random, &plan);
        let density = random.between(0, 16);
        lose(&random, &mut word, density);
        if random.once_in(6) {
            damage(&random, &mut word);
        }
        let answer = compare(&plan.lent(), &word, &mut seen);
        in_part += answer.is_some_and(|fill| fill.filled > 0 && fill.left > 0) as usize;
    }
    assert!(in_part > 500, "words filled in part: {in_part}");
    seen
}
