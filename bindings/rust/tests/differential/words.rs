//! The syndrome check, and words of all kinds.
use crate::door::{agree, left, lend_bytes, lend_numbers, no_room, reply, with_room, Short};
use crate::inputs::{any_plan, every_entry, limit_plans, Draft};
use crate::random::Random;
use crate::reference;
use crate::reference::gf2::{Solved, System};
use crate::reference::graph::graph;
use crate::seen::Seen;
use crate::tables::built_plans;
use qcldpc::raw::qcldpc_syndrome;
use qcldpc::{Plan, Syndrome};

/// Gives the answer, where it is no refusal.
pub fn compare(plan: &Plan, word: &[u8], seen: &mut Seen) -> Option<Syndrome> {
    let wanted = reference::word::syndrome(plan, word);
    let input = &(Short(plan), word);
    let (rows, cols, lift) = (plan.rows as u64, plan.cols as u64, plan.lift as u64);
    let (mut p, mut w) = (lend_numbers(plan.entries), lend_bytes(word));
    let mut call =
        |out, places| unsafe { qcldpc_syndrome(p.pointer(), p.len(), rows, cols, lift, w.pointer(), w.len(), out, places) };
    no_room(&mut call);
    let values = wanted.clone().map(|syndrome| match syndrome {
        Syndrome::Even => vec![0],
        Syndrome::Odd(check) => vec![1, check],
    });
    agree(input, with_room(&mut call), reply(&values));
    left(input, &p, plan.entries);
    left(input, &w, word);
    agree(input, &qcldpc::syndrome(plan, word), &wanted);
    seen.note_on(plan, &wanted);
    wanted.ok()
}

/// All code words of a good plan.
pub fn code(plan: &Plan) -> Solved {
    let mut system = System::new(plan.cols * plan.lift);
    graph(plan).bits_of.iter().for_each(|bits| system.add(bits.iter().copied(), false));
    system.solve().expect("the zero word is a code word")
}

pub fn code_word(random: &Random, code: &Solved) -> Vec<u8> {
    code.solution(|| random.once_in(2))
}

pub fn random_word(random: &Random, bits: usize) -> Vec<u8> {
    (0..bits).map(|_| random.below(2) as u8).collect()
}

/// A word for a plan, of any length where that is refused: a code word where elimination is cheap, or zeros, or any bits; now and
/// then with one bit turned.
pub fn some_word(random: &Random, plan: &Draft) -> Vec<u8> {
    let good = reference::plan::check(&plan.lent()).is_ok();
    let bits = if good { plan.bits() } else { plan.cols.min(9) * plan.lift.min(9) };
    let mut word = match random.below(4) {
        0 => random_word(random, bits),
        1 => vec![0; bits],
        _ if good && bits <= 400 => code_word(random, &code(&plan.lent())),
        _ => vec![0; bits],
    };
    if random.once_in(3) && bits > 0 {
        word[random.below(bits)] ^= 1;
    }
    word
}

/// Loses each bit with a chance of n in 16.
pub fn lose(random: &Random, word: &mut [u8], n: usize) {
    word.iter_mut().for_each(|byte| *byte = if random.below(16) < n { 2 } else { *byte });
}

/// Makes refusals 16 or 18 (or 19, of a syndrome check) apply.
pub fn damage(random: &Random, word: &mut Vec<u8>) {
    for _ in 0..random.between(1, 3) {
        let place = random.below(word.len().max(1));
        match random.below(4) {
            0 => word.resize(random.choice(&[0, word.len().saturating_sub(1), word.len() + 1, 2 * word.len()]), 0),
            1 if place < word.len() => word[place] = 2,
            _ if place < word.len() => word[place] = random.choice(&[3, 4, 128, 254, 255]),
            _ => (),
        }
    }
}

pub fn compare_all() -> Seen {
    let (random, mut seen) = (Random::new(4), Seen::default());
    let mut large = limit_plans(&random);
    large.extend(built_plans(&random));
    for plan in &large {
        for _ in 0..4 {
            let mut word = some_word(&random, plan);
            compare(&plan.lent(), &word, &mut seen);
            damage(&random, &mut word);
            compare(&plan.lent(), &word, &mut seen);
        }
    }
    // By the remainders 0 to 4 of e: all even, or the lowest odd check is 8, 7, 6, 5.
    every_entry(5).for_each(|plan| _ = compare(&plan.lent(), &[0, 0, 0, 0, 1, 0, 0, 0, 0, 1], &mut seen));
    let mut even = 0;
    for _ in 0..8000 {
        let plan = any_plan(&random, 8);
        let mut word = some_word(&random, &plan);
        if random.once_in(3) {
            damage(&random, &mut word);
        }
        even += (compare(&plan.lent(), &word, &mut seen) == Some(Syndrome::Even)) as usize;
    }
    assert!(even > 500 && seen.results - even > 500, "{even} of {} words were code words", seen.results);
    seen
}
