//! The writer and the comparer of alist text on the largest plans.
use super::plans::{chain, largest, pairs, turned_away};
use super::weights::{any_weights, weights, wrong_weights, Weights};
use super::{expect, refusal, tables, Call};
use qcldpc::{OwnedPlan, Refusal};

// The bytes of a place before a text is written there.
const BEFORE: u8 = b'x';

// The writer in a place, with the weights that the plan has.
fn write_in(plan: &OwnedPlan, place: &mut [u8]) -> Result<usize, Refusal> {
    qcldpc::alist_write(&plan.lent(), plan.row_weights(), plan.col_weights(), place)
}

// The length of a plan's text, as the refusal of an empty place names it.
fn length(plan: &OwnedPlan) -> usize {
    let refusal = write_in(plan, &mut []).expect_err("no text is empty");
    assert_eq!(refusal.number, 17);
    refusal.values[0] as usize
}

// The text of a plan.
fn text(plan: &OwnedPlan) -> Vec<u8> {
    let mut text = vec![BEFORE; length(plan)];
    assert_eq!(write_in(plan, &mut text), Ok(text.len()));
    let first = format!("{} {}\n", plan.bits(), plan.rows() * plan.lift());
    assert!(text.starts_with(first.as_bytes()), "the text does not begin with {first}");
    text
}

// The writer in a place of a length, held to the text and to the bytes past it.
fn writes(plan: &OwnedPlan, places: usize) -> Call {
    let (plan, text, mut lent) = (plan.clone(), text(plan), vec![BEFORE; places]);
    let n = text.len();
    let run = move || {
        let answer = write_in(&plan, &mut lent);
        (answer, lent.starts_with(&text) && lent[n..].iter().all(|&byte| byte == BEFORE))
    };
    expect(run, (Ok(n), true))
}

/// In a place of exactly the text's length, and in one that is long enough for any text of the plan's sizes.
pub fn write() -> Vec<Call> {
    largest().iter().flat_map(|plan| [1, 4].map(|times| writes(plan, times * length(plan)))).collect()
}

// The writer's refusal, with the place as it was lent.
fn writes_nothing(plan: &OwnedPlan, [rows, cols]: Weights, places: usize, wanted: Refusal) -> Call {
    let (plan, mut lent) = (plan.clone(), vec![BEFORE; places]);
    let run = move || {
        let answer = qcldpc::alist_write(&plan.lent(), &rows, &cols, &mut lent);
        (answer, lent.iter().all(|&byte| byte == BEFORE))
    };
    expect(run, (Err(wanted), true))
}

/// A place that is too short by a byte is refused whatever the weights are; wrong weights are where the place has room.
pub fn write_refused() -> Vec<Call> {
    let mut calls = turned_away(|plan| {
        let [rows, cols] = any_weights();
        qcldpc::alist_write(plan, &rows, &cols, &mut vec![BEFORE; 1 << 20])
    });
    for plan in largest() {
        let n = length(&plan);
        let mut refused = |weights: Weights, places, wanted| calls.push(writes_nothing(&plan, weights, places, wanted));
        refused(weights(&plan), n - 1, refusal(17, &[n as u64]));
        for wrong in wrong_weights(&plan) {
            refused(wrong.clone(), n - 1, refusal(17, &[n as u64]));
            refused(wrong, n, refusal(25, &[]));
        }
    }
    calls
}

// A padded text without its filling zeros: after line 4 no other number is 0.
fn unpadded(text: &[u8]) -> Vec<u8> {
    let without = |(k, line): (usize, &str)| {
        let numbers = line.split(' ').filter(|&number| k < 4 || number != "0");
        numbers.collect::<Vec<_>>().join(" ") + "\n"
    };
    let text = std::str::from_utf8(text).expect("digits and blanks");
    text.lines().enumerate().map(without).collect::<String>().into_bytes()
}

// The comparer of a text, held to its answer.
fn compares(plan: &OwnedPlan, [rows, cols]: Weights, text: Vec<u8>, wanted: Result<(), Refusal>) -> Call {
    let plan = plan.clone();
    expect(move || qcldpc::alist_compare(&plan.lent(), &rows, &cols, &text), wanted)
}

/// In both forms.
pub fn compare() -> Vec<Call> {
    let both = |plan: &OwnedPlan| {
        let padded = text(plan);
        let unpadded = unpadded(&padded);
        [padded, unpadded].map(|text| compares(plan, weights(plan), text, Ok(())))
    };
    largest().iter().chain([&pairs()]).flat_map(both).collect()
}

// Texts with the place that their refusal shows: the later one. Most agree with one form, or with both, nearly to their end.
fn departing() -> Vec<(OwnedPlan, Vec<u8>, usize)> {
    let mut all = vec![];
    let mut add = |plan: &OwnedPlan, text: &[u8], end: &[u8], place| all.push((plan.clone(), [text, end].concat(), place));
    for plan in [chain(192, 512, 128), pairs()] {
        let padded = text(&plan);
        let unpadded = unpadded(&padded);
        let (n, m) = (padded.len(), unpadded.len());
        add(&plan, b"", b"", 0);
        add(&plan, &padded, b"0", n);
        add(&plan, &unpadded, b"\n", m);
        add(&plan, &unpadded[..m - 1], b"", m - 1);
        add(&plan, &unpadded[..m - 1], b" 0\n", m);
    }
    let plan = chain(192, 512, 128);
    let padded = text(&plan);
    add(&plan, &padded[..padded.len() - 2], b"", padded.len() - 6);
    // No list is short.
    let plan = tables::largest_plan();
    let padded = text(&plan);
    add(&plan, &padded[..padded.len() - 1], b" \t1", padded.len() + 1);
    all
}

/// A wrong text is refused whatever the weights are; wrong weights are where the text agrees.
pub fn compare_refused() -> Vec<Call> {
    let mut calls = turned_away(|plan| {
        let [rows, cols] = any_weights();
        qcldpc::alist_compare(plan, &rows, &cols, b"65536 24576\n")
    });
    for (plan, text, place) in departing() {
        let [first, ..] = wrong_weights(&plan);
        let refused = |weights| compares(&plan, weights, text.clone(), Err(refusal(21, &[place as u64])));
        calls.extend([weights(&plan), first].map(refused));
    }
    for plan in largest() {
        let text = text(&plan);
        calls.extend(wrong_weights(&plan).map(|wrong| compares(&plan, wrong, text.clone(), Err(refusal(25, &[])))));
    }
    calls
}
