//! What is refused where two plans are to be joined: each fault alone and beside every other.
use crate::faults::{self, put, Fault};
use crate::inputs::{damage_plan, plan_of, Draft};
use crate::join::{compare, pair_of, Met, Pair};
use crate::random::Random;
use crate::reference::refused;
use crate::seen::number;

fn resize(plan: &mut Draft, rows: usize, cols: usize) {
    (plan.rows, plan.cols) = (rows, cols);
    plan.entries.resize(rows * cols, 0);
}

// Another shape of both plans, with a place that is right.
fn resize_both(pair: &mut Pair, rows: usize, cols: usize) {
    resize(&mut pair.first, rows, cols);
    resize(&mut pair.second, rows, cols);
    pair.places = rows * cols;
}

fn set_lifts(pair: &mut Pair, p: usize, q: usize) {
    (pair.first.lift, pair.second.lift) = (p, q);
}

// The largest number of columns, with lifts for which they have too many bits.
fn widen(pair: &mut Pair, p: usize, q: usize) {
    resize_both(pair, pair.first.rows, 512);
    set_lifts(pair, p, q);
}

// Empties a block, or fills it.
fn turn(plan: &mut Draft, place: usize) {
    plan.entries.iter_mut().skip(place).take(1).for_each(|e| *e = if *e == -1 { 0 } else { -1 });
}

const FAULTS: [Fault<Pair>; 31] = [
    (1, |pair| resize_both(pair, 193, pair.first.cols)),
    (1, |pair| pair.first.rows = 0),
    (1, |pair| pair.second.rows = 193),
    (2, |pair| resize_both(pair, pair.first.rows, 513)),
    (2, |pair| pair.first.cols = 513),
    (2, |pair| pair.second.cols = 0),
    (3, |pair| set_lifts(pair, 4097, 1)),
    (3, |pair| set_lifts(pair, 1, 4097)),
    (3, |pair| set_lifts(pair, 64, 65)),
    (3, |pair| pair.first.lift = 0),
    (3, |pair| pair.second.lift = 0),
    (4, |pair| widen(pair, 129, 1)),
    (4, |pair| widen(pair, 1, 129)),
    (4, |pair| widen(pair, 11, 13)),
    (5, |pair| {
        _ = (pair.first.entries.pop(), pair.second.entries.pop());
        pair.places = pair.first.entries.len();
    }),
    (5, |pair| _ = pair.first.entries.pop()),
    (5, |pair| pair.second.entries.push(0)),
    (6, |pair| put(&mut pair.first.entries, 59, -2)),
    (6, |pair| put(&mut pair.second.entries, 7, i16::MIN)),
    (27, |pair| set_lifts(pair, 18, 9)),
    (27, |pair| set_lifts(pair, 6, 4)),
    (27, |pair| pair.second.lift = pair.first.lift),
    (28, |pair| turn(&mut pair.first, 59)),
    (28, |pair| turn(&mut pair.second, 0)),
    (28, |pair| (pair.second.rows, pair.second.cols) = (pair.second.cols, pair.second.rows)),
    (28, |pair| resize(&mut pair.second, pair.first.rows + 1, pair.first.cols)),
    (28, |pair| resize(&mut pair.first, pair.second.rows, pair.second.cols + 1)),
    (29, |pair| pair.places = 0),
    (29, |pair| pair.places = pair.places.saturating_sub(1)),
    (29, |pair| pair.places += 1),
    (29, |pair| pair.places *= 2),
];

fn compare_faults(random: &Random, met: &mut Met) {
    let good = pair_of(random, plan_of(random, 5, 12, 7, 6), 9);
    faults::compare_faults(&good, &FAULTS, |pair| number(&compare(pair, met)));
}

// A bad entry at each place of the first plan or nowhere, and at each of the second: the first plan's is shown.
fn compare_bad_places(random: &Random, met: &mut Met) {
    let good = pair_of(random, plan_of(random, 3, 5, 4, 6), 9);
    let bad = || random.choice(&[-2, -3, -256, i16::MIN]);
    for (a, b) in (0..16).flat_map(|a| (0..16).map(move |b| (a, b))) {
        let mut pair = good.clone();
        put(&mut pair.first.entries, a, bad());
        put(&mut pair.second.entries, b, bad());
        // Others behind them are not shown.
        put(&mut pair.first.entries, random.between(a, 15), bad());
        put(&mut pair.second.entries, random.between(b, 15), bad());
        let place = if a < 15 { a } else { b };
        let wanted = if place < 15 { Err(refused(6, &[place])) } else { Ok(36) };
        assert_eq!(compare(&pair, met).map(|joined| joined.lift), wanted);
    }
}

// Every two of many shapes, of which some have as many entries; and a block that is empty in one plan alone.
fn compare_shapes(random: &Random, met: &mut Met) {
    let shapes = || (1..7).flat_map(|rows| (1..7).map(move |cols| (rows, cols)));
    for ((rows, cols), (rows2, cols2)) in shapes().flat_map(|one| shapes().map(move |other| (one, other))) {
        let (first, second) = (plan_of(random, rows, cols, 8, 8), plan_of(random, rows2, cols2, 9, 8));
        let pair = Pair { places: first.entries.len(), first, second };
        let wanted = if (rows, cols) == (rows2, cols2) { 0 } else { 28 };
        assert_eq!(number(&compare(&pair, met)), wanted, "{rows} x {cols} and {rows2} x {cols2}");
    }
    for _ in 0..20 {
        let good = pair_of(random, plan_of(random, 4, 7, 8, 5), 9);
        for place in 0..28 {
            let (mut first_alone, mut second_alone) = (good.clone(), good.clone());
            turn(&mut first_alone.first, place);
            turn(&mut second_alone.second, place);
            let mut both = first_alone.clone();
            turn(&mut both.second, place);
            let answers = [first_alone, second_alone, both].map(|pair| number(&compare(&pair, met)));
            assert_eq!(answers, [28, 28, 0], "the block at {place}");
        }
    }
}

// Places of every length up to twice that of the plans.
fn compare_places(random: &Random, met: &mut Met) {
    let good = pair_of(random, plan_of(random, 4, 7, 8, 5), 9);
    for places in 0..58 {
        let wanted = if places == 28 { 0 } else { 29 };
        assert_eq!(number(&compare(&Pair { places, ..good.clone() }, met)), wanted, "{places} places");
    }
}

// One of the six sizes.
fn size(pair: &mut Pair, which: usize) -> &mut usize {
    let plan = if which < 3 { &mut pair.first } else { &mut pair.second };
    [&mut plan.rows, &mut plan.cols, &mut plan.lift].into_iter().nth(which % 3).expect("three sizes")
}

// Numbers of up to 64 bits for every two sizes, some right in their low bits and some with a product that is.
fn compare_sizes(random: &Random, met: &mut Met) {
    let good = pair_of(random, plan_of(random, 5, 12, 7, 6), 9);
    let numbers = |right: usize| {
        let wrapped = [16, 31, 32, 48, 63].map(|bit| right + (1 << bit));
        let others = [0, 1, 2, 192, 193, 512, 513, 4096, 4097, 1 << 32, 1 << 63, (1 << 63) + 1, usize::MAX - 1, usize::MAX];
        [&wrapped[..], &others].concat()
    };
    for (one, other) in (0..6).flat_map(|one| (0..6).map(move |other| (one, other))) {
        let mut pair = good.clone();
        for a in numbers(*size(&mut good.clone(), one)) {
            for b in numbers(*size(&mut good.clone(), other)) {
                *size(&mut pair, one) = a;
                *size(&mut pair, other) = b;
                _ = compare(&pair, met);
            }
        }
    }
}

/// Makes one of the refusals likely.
pub fn damage(random: &Random, pair: &mut Pair) {
    match random.below(5) {
        0 => damage_plan(random, if random.once_in(2) { &mut pair.first } else { &mut pair.second }),
        1 => *size(pair, random.below(6)) = random.choice(&[0, 1, 2, 3, 4, 6, 193, 513, 4097, 1 << 32, usize::MAX]),
        2 => turn(if random.once_in(2) { &mut pair.first } else { &mut pair.second }, random.below(12)),
        3 => pair.places = random.choice(&[0, pair.places.saturating_sub(1), pair.places + 1]),
        _ => set_lifts(pair, random.between(1, 80), random.between(1, 80)),
    }
}

pub fn compare_all(random: &Random, met: &mut Met) {
    compare_faults(random, met);
    (0..5).for_each(|_| compare_bad_places(random, met));
    compare_shapes(random, met);
    compare_places(random, met);
    compare_sizes(random, met);
}
