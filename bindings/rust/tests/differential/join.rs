//! Two plans made one.
use crate::applied::Applied;
use crate::door::{agree, left, lend_numbers, writes, Short};
use crate::inputs::{any_plan, every_entry, plan_of, printed, small_plan, Draft};
use crate::lent::Lent;
use crate::random::Random;
use crate::reference;
use crate::seen::{number, Seen};
use crate::{join_faults, joined, owned};
use qcldpc::raw::qcldpc_join;
use qcldpc::{OwnedPlan, Plan, Refusal};

// The refusals of the call.
const NUMBERS: [u64; 9] = [1, 2, 3, 4, 5, 6, 27, 28, 29];

/// Two plans, and how many places there are for the joined one.
#[derive(Clone)]
pub struct Pair {
    pub first: Draft,
    pub second: Draft,
    pub places: usize,
}

/// What the inputs have met.
#[derive(Default)]
pub struct Met {
    seen: Seen,
    applied: Applied,
    /// Results, by whether the first plan has a voltage at or above its lift, and the second.
    printed: [[usize; 2]; 2],
    /// Refusals 6, by whether the first plan has an entry below -1, and the second.
    bad: [[usize; 2]; 2],
}

impl Met {
    fn note(&mut self, pair: &Pair, answer: &Result<usize, Refusal>) {
        let (first, second) = (&pair.first.lent(), &pair.second.lent());
        let above = |plan: &Plan| plan.entries.iter().any(|&e| e >= 0 && e as usize >= plan.lift);
        let below = |plan: &Plan| plan.entries.iter().any(|&e| e < -1);
        self.seen.note_on(if above(first) { first } else { second }, answer);
        match number(answer) {
            0 => self.printed[above(first) as usize][above(second) as usize] += 1,
            6 => self.bad[below(first) as usize][below(second) as usize] += 1,
            _ => (),
        }
        self.applied.note(&reference::join::refusals(first, second, pair.places));
    }

    // Each refusal was met alone and beside every higher one; the other kinds of input were met too.
    fn assert_all(&self) {
        self.applied.assert_all(&NUMBERS);
        let Met { printed, bad, .. } = self;
        assert!(printed.as_flattened().iter().all(|&times| times > 1000), "voltages at or above the lift: {printed:?}");
        assert!(bad.as_flattened()[1..].iter().all(|&times| times > 1000), "entries below -1: {bad:?}");
    }
}

// What stands in the place for the joined plan before a call.
fn some_numbers(places: usize) -> Vec<i16> {
    (0..places).map(|k| (k * 257) as i16).collect()
}

// The constructor answers as the call does in a place as long as the first plan.
fn compare_owned(first: &Plan, second: &Plan) {
    let (answer, entries) = reference::join::join(first, second, &some_numbers(first.entries.len()));
    let wanted = answer.map(|lift| Draft { entries, rows: first.rows, cols: first.cols, lift });
    owned::same(&(Short(first), Short(second)), OwnedPlan::join(first, second), wanted);
}

/// Through the raw function, with all lent memory compared, and through the safe ones. Gives the joined plan.
pub fn compare(pair: &Pair, met: &mut Met) -> Result<Draft, Refusal> {
    let (first, second) = (&pair.first.lent(), &pair.second.lent());
    let input = &(Short(first), Short(second), pair.places);
    let lent = some_numbers(pair.places);
    let (answer, after) = reference::join::join(first, second, &lent);
    let (mut a, mut b) = (lend_numbers(first.entries), lend_numbers(second.entries));
    let (p, n, rows, cols, lift) = (a.pointer(), a.len(), first.rows as u64, first.cols as u64, first.lift as u64);
    let (p2, n2, rows2, cols2, lift2) = (b.pointer(), b.len(), second.rows as u64, second.cols as u64, second.lift as u64);
    let call = |joined: &mut Lent<i16>, out, len| unsafe {
        let (j, jn) = (joined.pointer(), joined.len());
        qcldpc_join(p, n, rows, cols, lift, p2, n2, rows2, cols2, lift2, j, jn, out, len)
    };
    writes(input, lend_numbers(&lent), [&lent[..], &after[..]], &answer.clone().map(|lift| vec![lift]), call);
    left(input, &a, first.entries);
    left(input, &b, second.entries);
    let mut copy = lent;
    agree(input, &qcldpc::join(first, second, &mut copy), &answer);
    agree(input, &copy, &after);
    compare_owned(first, second);
    met.note(pair, &answer);
    let joined = Draft { entries: after, rows: first.rows, cols: first.cols, lift: answer? };
    joined::assert_joined(pair, &joined);
    Ok(joined)
}

// The plan with the same empty blocks, at another lift and with any voltages; in half of the plans all are below the lift.
fn alike(random: &Random, plan: &Draft, lift: usize) -> Draft {
    let reduced = random.once_in(2);
    let voltage = |remainder| if reduced { remainder as i16 } else { printed(random, remainder, lift) };
    let entry = |&e: &i16| if e < 0 { -1 } else { voltage(random.below(lift)) };
    Draft { entries: plan.entries.iter().map(entry).collect(), lift, ..*plan }
}

/// The plan and one that is like it, with the right place: nothing but the lifts may be refused.
pub fn pair_of(random: &Random, first: Draft, lift: usize) -> Pair {
    let (second, places) = (alike(random, &first, lift), first.entries.len());
    Pair { first, second, places }
}

/// The greatest common divisor.
pub fn gcd(a: usize, b: usize) -> usize {
    if b == 0 {
        a
    } else {
        gcd(b, a % b)
    }
}

// What is due for two lifts, of plans with so many columns that are otherwise right.
fn due(cols: usize, p: usize, q: usize) -> u64 {
    match () {
        _ if p * q > 4096 => 3,
        _ if cols * p * q > 65536 => 4,
        _ if gcd(p, q) > 1 => 27,
        _ => 0,
    }
}

// Plans of a shape and two lifts.
fn compare_shape(random: &Random, rows: usize, cols: usize, [p, q]: [usize; 2], density: usize, met: &mut Met) {
    let pair = pair_of(random, plan_of(random, rows, cols, p, density), q);
    assert_eq!(number(&compare(&pair, met)), due(cols, p, q), "{rows} x {cols}, lifts {p} and {q}");
}

// Every two lifts whose product is allowed, and for each lift the first that is too large beside it.
fn compare_lifts(random: &Random, met: &mut Met) {
    for p in 1..=4096 {
        for q in 1..=4096 / p + 1 {
            compare_shape(random, 1, 2, [p, q], 7, met);
        }
    }
}

// Every two remainders of two lifts: a plan of one row has a column for each. With 256 of them it has as many bits as it may.
fn compare_remainders(random: &Random, met: &mut Met) {
    let lifts = (1..=256).flat_map(|p| (1..=256 / p).map(move |q| (p, q)));
    for (p, q) in lifts.filter(|&(p, q)| gcd(p, q) == 1) {
        let row = |lift: usize, remainder: &dyn Fn(usize) -> usize| {
            let entries = (0..p * q).map(|k| printed(random, remainder(k), lift)).collect();
            Draft { entries, rows: 1, cols: p * q, lift }
        };
        let pair = Pair { first: row(p, &|k| k % p), second: row(q, &|k| k / p), places: p * q };
        let mut numbers = compare(&pair, met).expect("the lifts have no common divisor").entries;
        numbers.sort();
        assert!(numbers.into_iter().eq(0..(p * q) as i16), "each number of {p} x {q} is met once");
    }
}

// Every entry that there is, in either plan.
fn compare_entries(met: &mut Met) {
    for (lift, other) in [(5, 8), (1, 7)] {
        let beside = Draft { entries: vec![0, 0, 0, 3], rows: 2, cols: 2, lift: other };
        for plan in every_entry(lift) {
            let e = plan.entries[3];
            let wanted = if e < -1 { 6 } else { 28 * (e == -1) as u64 };
            let pair = |first: &Draft, second: &Draft| Pair { first: first.clone(), second: second.clone(), places: 4 };
            let answers = [pair(&plan, &beside), pair(&beside, &plan)].map(|pair| number(&compare(&pair, met)));
            assert_eq!(answers, [wanted; 2], "the entry {e}");
        }
    }
}

// Shapes at the limits of rows, columns, lift and bits.
fn compare_limits(random: &Random, met: &mut Met) {
    let lifts = [
        (1, [[1, 1], [4096, 1], [1, 4096], [63, 65], [4097, 1], [1, 4097], [17, 241], [64, 64], [4096, 4096]]),
        (16, [[4096, 1], [1, 4096], [63, 65], [45, 91], [2048, 2], [17, 241], [4095, 1], [64, 65], [13, 315]]),
        (17, [[15, 257], [257, 15], [3855, 1], [1, 3855], [16, 241], [241, 16], [3856, 1], [1, 3856], [4096, 1]]),
        (512, [[128, 1], [1, 128], [8, 15], [16, 7], [8, 16], [43, 3], [3, 43], [129, 1], [1, 129]]),
    ];
    for rows in [1, 192] {
        for (cols, lifts) in lifts {
            for density in [0, 3, 8] {
                lifts.into_iter().for_each(|lifts| compare_shape(random, rows, cols, lifts, density, met));
            }
        }
    }
}

// The bits are counted with the first plan's columns: as many as they may be, and one column more. Where only the second plan
// has that, the plans differ; or, beside lift 1, it has too many bits itself.
fn compare_columns(random: &Random, met: &mut Met) {
    for _ in 0..2000 {
        let (p, q) = (random.choice(&[1, random.between(1, 64)]), random.choice(&[1, random.between(1, 400)]));
        let most = 65536 / (p * q);
        if p * q > 4096 || gcd(p, q) > 1 || most >= 512 {
            continue;
        }
        let right = pair_of(random, plan_of(random, 1, most, p, 7), q);
        let wider = pair_of(random, plan_of(random, 1, most + 1, p, 7), q);
        let first_wider = Pair { first: wider.first.clone(), ..right.clone() };
        let second_wider = Pair { second: wider.second.clone(), ..right.clone() };
        let answers = [right, wider, first_wider, second_wider].map(|pair| number(&compare(&pair, met)));
        assert_eq!(answers, [0, 4, 4, if p == 1 { 4 } else { 28 }], "{most} columns, lifts {p} and {q}");
    }
}

// Small plans with any lifts, with up to three faults.
fn compare_random(random: &Random, met: &mut Met) {
    for k in 0..24000 {
        let first = if k % 2 == 0 { small_plan(random) } else { any_plan(random, 4) };
        let lift = random.choice(&[1, 2, 3, random.between(1, 8), random.between(1, 40), random.between(1, 400)]);
        let mut pair = pair_of(random, first, lift);
        (0..k % 4).for_each(|_| join_faults::damage(random, &mut pair));
        _ = compare(&pair, met);
    }
}

pub fn compare_all() -> Seen {
    let (random, mut met) = (Random::new(13), Met::default());
    compare_lifts(&random, &mut met);
    compare_remainders(&random, &mut met);
    compare_entries(&mut met);
    compare_limits(&random, &mut met);
    compare_columns(&random, &mut met);
    join_faults::compare_all(&random, &mut met);
    compare_random(&random, &mut met);
    joined::compare_all(&random, &mut met);
    met.assert_all();
    met.seen
}
