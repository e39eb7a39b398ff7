//! The syndrome check, the decoder, its preview and the count of erasures on the largest words.
use super::plans::{chain, full, largest, turned_away};
use super::{expect, refusal, tables, Call};
use qcldpc::{Fill, OwnedPlan, Refusal, Syndrome};

const BITS: usize = 65536;

// A word whose columns up to `last` hold the byte a and the others b.
fn word(plan: &OwnedPlan, last: usize, a: u8, b: u8) -> Vec<u8> {
    (0..plan.bits()).map(|bit| if bit / plan.lift() <= last { a } else { b }).collect()
}

// A word with one byte changed.
fn with(mut word: Vec<u8>, place: usize, byte: u8) -> Vec<u8> {
    word[place] = byte;
    word
}

fn checked(plan: OwnedPlan, word: Vec<u8>, wanted: Result<Syndrome, Refusal>) -> Call {
    expect(move || qcldpc::syndrome(&plan.lent(), &word), wanted)
}

// A plan and a word, what filling that answers, and the word as it is then.
struct Case {
    plan: OwnedPlan,
    word: Vec<u8>,
    wanted: Result<Fill, Refusal>,
    after: Vec<u8>,
}

// A word that the decoder refuses or leaves as it is.
fn kept(plan: OwnedPlan, word: Vec<u8>, wanted: Result<Fill, Refusal>) -> Case {
    Case { plan, after: word.clone(), word, wanted }
}

// The decoder's answer, and whether it leaves the word as it should.
fn filled(Case { plan, mut word, wanted, after }: Case) -> Call {
    expect(move || (qcldpc::fill(&plan.lent(), &mut word), word == after), (wanted, true))
}

fn previewed(Case { plan, word, wanted, .. }: Case) -> Call {
    expect(move || qcldpc::preview(&plan.lent(), &word), wanted)
}

pub fn syndrome() -> Vec<Call> {
    let even = |plan: OwnedPlan| checked(plan.clone(), vec![0; plan.bits()], Ok(Syndrome::Even));
    let mut calls: Vec<Call> = largest().into_iter().chain([full(128)]).map(even).collect();
    for (cols, rows, lift) in [(512, 192, 128), (16, 15, 4096)] {
        let plan = chain(192, cols, lift);
        let odd = with(vec![1; BITS], (rows + 1) * lift - 1, 0);
        calls.push(checked(plan, odd, Ok(Syndrome::Odd(rows * lift - 1))));
    }
    calls
}

pub fn syndrome_refused() -> Vec<Call> {
    let mut calls = turned_away(|plan| qcldpc::syndrome(plan, &vec![0; BITS]));
    let wrong = [
        (vec![0; BITS - 1], refusal(16, &[])),
        (with(vec![0; BITS], BITS - 1, 3), refusal(18, &[BITS as u64 - 1])),
        (with(vec![0; BITS], BITS - 1, 2), refusal(19, &[BITS as u64 - 1])),
    ];
    calls.extend(wrong.map(|(word, wanted)| checked(full(128), word, Err(wanted))));
    calls
}

fn largest_cases() -> Vec<Case> {
    let (wide, tall, table) = (chain(192, 512, 128), chain(192, 16, 4096), tables::largest_plan());
    let chained = |plan: &OwnedPlan, filled, left, after| {
        let (word, wanted) = (word(plan, 0, 1, 2), Ok(Fill { filled, left }));
        Case { plan: plan.clone(), word, wanted, after }
    };
    let (few, zeros) = ((0..table.bits()).map(|b| if b % 5000 == 0 { 2 } else { 0 }).collect(), vec![0; table.bits()]);
    let lost = vec![2; table.bits()];
    vec![
        chained(&wide, 192 * 128, 319 * 128, word(&wide, 192, 1, 2)),
        chained(&tall, 15 * 4096, 0, vec![1; BITS]),
        Case { plan: table.clone(), word: few, wanted: Ok(Fill { filled: 14, left: 0 }), after: zeros },
        kept(table.clone(), lost, Ok(Fill { filled: 0, left: table.bits() })),
        kept(full(128), vec![2; BITS], Ok(Fill { filled: 0, left: BITS })),
    ]
}

fn refused_cases() -> Vec<Case> {
    let tall = chain(192, 16, 4096);
    let clash = with(word(&tall, 0, 1, 2), BITS - 1, 0);
    let wrong = [
        (vec![2; BITS + 1], refusal(16, &[])),
        (vec![2; 16 * BITS], refusal(16, &[])),
        (with(vec![2; BITS], BITS - 1, 3), refusal(18, &[BITS as u64 - 1])),
        (clash, refusal(20, &[])),
    ];
    wrong.map(|(word, wanted)| kept(tall.clone(), word, Err(wanted))).into()
}

pub fn fill() -> Vec<Call> {
    largest_cases().into_iter().map(filled).collect()
}

pub fn fill_refused() -> Vec<Call> {
    let mut calls = turned_away(|plan| qcldpc::fill(plan, &mut vec![2; BITS]));
    calls.extend(refused_cases().into_iter().map(filled));
    calls
}

pub fn preview() -> Vec<Call> {
    largest_cases().into_iter().map(previewed).collect()
}

pub fn preview_refused() -> Vec<Call> {
    let mut calls = turned_away(|plan| qcldpc::preview(plan, &vec![2; BITS]));
    calls.extend(refused_cases().into_iter().map(previewed));
    calls
}

// It refuses nothing, so the largest word is not the longest list.
pub fn count_erasures() -> Vec<Call> {
    let counted = |word: Vec<u8>, wanted| expect(move || qcldpc::count_erasures(&word), wanted);
    let every_fifth = (0..16 * BITS + 7).map(|k| if k % 5 == 0 { 2 } else { 130 }).collect();
    vec![counted(vec![2; BITS], BITS), counted(every_fifth, (16 * BITS + 7).div_ceil(5)), counted(Vec::new(), 0)]
}
