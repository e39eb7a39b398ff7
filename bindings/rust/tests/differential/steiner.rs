//! The plans of the supplied Steiner triple systems.
use crate::door::{agree, left, lend_numbers, lend_places, writes};
use crate::inputs::Draft;
use crate::lent::LentPlaces;
use crate::owned;
use crate::random::Random;
use crate::reference;
use crate::reference::steiner::{system, ORDERS};
use crate::reference::weights::Places;
use crate::seen::{number, Seen};
use crate::weights::{damage_places, near, room, some_places};
use qcldpc::raw::qcldpc_steiner;
use qcldpc::{Built, OwnedPlan, Refusal};
use std::collections::BTreeMap;

// What a plan is built from, and how many places there are for it and for the lists beside it.
#[derive(Clone, Debug)]
struct Parts {
    order: usize,
    lift: usize,
    voltages: Vec<i16>,
    places: [usize; 3],
}

// What the inputs have met; and how often each refusal was given alone, and how often as the lowest of several.
#[derive(Default)]
struct Met {
    seen: Seen,
    alone: BTreeMap<u64, usize>,
    lowest: BTreeMap<u64, usize>,
}

impl Met {
    fn note(&mut self, parts: &Parts, answer: &Result<Built, Refusal>) {
        self.seen.note_voltages(&parts.voltages, parts.lift, answer);
        match &reference::steiner::refusals(parts.order, parts.lift, &parts.voltages, &some_places(parts.places))[..] {
            [] => (),
            [only] => *self.alone.entry(only.number).or_default() += 1,
            [lowest, ..] => *self.lowest.entry(lowest.number).or_default() += 1,
        }
    }
}

fn cols(order: usize) -> usize {
    system(order).map_or(0, |triples| triples.len())
}

// The largest lift that an order's bits allow.
fn most(order: usize) -> usize {
    (65536 / cols(order)).min(4096)
}

fn parts(order: usize, lift: usize, voltages: Vec<i16>) -> Parts {
    Parts { order, lift, voltages, places: room(order, cols(order)) }
}

// Three voltages for each triple: of all sizes, below the lift, or at the ends of their range.
fn voltages(random: &Random, order: usize, lift: usize) -> Vec<i16> {
    let limit = random.choice(&[1 << 15, 1 << 15, lift.clamp(1, 1 << 15)]);
    let ends = random.once_in(8);
    let voltage = |_| if ends { random.choice(&[0, i16::MAX]) } else { random.below(limit) as i16 };
    (0..3 * cols(order)).map(voltage).collect()
}

fn random_parts(random: &Random, order: usize, lift: usize) -> Parts {
    parts(order, lift, voltages(random, order, lift))
}

// Each column has three blocks, each row (v - 1)/2, and two rows have one column in common.
fn assert_steiner(plan: &Draft) {
    let filled = |i: usize, j: usize| plan.entries[i * plan.cols + j] >= 0;
    let count = |n: usize, holds: &dyn Fn(usize) -> bool| (0..n).filter(|&k| holds(k)).count();
    assert!((0..plan.cols).all(|j| count(plan.rows, &|i| filled(i, j)) == 3));
    assert!((0..plan.rows).all(|i| count(plan.cols, &|j| filled(i, j)) == (plan.rows - 1) / 2));
    for a in 0..plan.rows {
        assert!((0..a).all(|b| count(plan.cols, &|j| filled(a, j) && filled(b, j)) == 1));
    }
}

// The constructor answers as the builder does in places of the lengths that the order needs.
fn compare_owned(parts: &Parts) {
    let Parts { order, lift, ref voltages, .. } = *parts;
    let supplied = if ORDERS.contains(&order) { order } else { 0 };
    let (answer, after) = reference::steiner::build(order, lift, voltages, &some_places(room(supplied, cols(order))));
    let wanted = answer.map(|Built { rows, cols }| Draft { entries: after.plan, rows, cols, lift });
    owned::same(parts, OwnedPlan::steiner(order, lift, voltages), wanted);
}

fn compare(parts: &Parts, met: &mut Met) -> Result<Draft, Refusal> {
    let Parts { order, lift, ref voltages, places } = *parts;
    let lent = some_places(places);
    let (answer, after) = reference::steiner::build(order, lift, voltages, &lent);
    let mut v = lend_numbers(voltages);
    let (at, vn) = (v.pointer(), v.len());
    let call = |memory: &mut LentPlaces, out, len| unsafe {
        let (p, n, r, rn, c, cn) = memory.raw();
        qcldpc_steiner(order as u64, lift as u64, at, vn, p, n, r, rn, c, cn, out, len)
    };
    let values = answer.clone().map(|built| vec![built.rows, built.cols]);
    writes(parts, lend_places(&lent), [&lent, &after], &values, call);
    left(parts, &v, &voltages[..]);
    let mut copy = lent;
    let Places { plan, weights } = &mut copy;
    agree(parts, &qcldpc::steiner(order, lift, voltages, plan, &mut weights.rows, &mut weights.cols), &answer);
    agree(parts, &copy, &after);
    compare_owned(parts);
    met.note(parts, &answer);
    let Built { rows, cols } = answer?;
    let plan = Draft { entries: after.plan, rows, cols, lift };
    assert_steiner(&plan);
    Ok(plan)
}

/// The plan of an order, a lift and voltages that are not refused.
pub fn plan(order: usize, lift: usize, voltages: Vec<i16>) -> Draft {
    compare(&parts(order, lift, voltages), &mut Met::default()).expect("nothing is to be refused")
}

/// The plan of an order with any voltages.
pub fn random_plan(random: &Random, order: usize, lift: usize) -> Draft {
    plan(order, lift, voltages(random, order, lift))
}

/// Plans of every order at small lifts.
pub fn built_plans(random: &Random) -> Vec<Draft> {
    let lifts = [1, 2, 3, 7, 16, 40];
    ORDERS.iter().flat_map(|&order| lifts.map(|lift| random_plan(random, order, lift))).collect()
}

// Orders that are supplied and not, with the lengths of every supplied one and none.
fn compare_orders(random: &Random, met: &mut Met) {
    for order in (0..26).chain([7 + (1 << 16), 19 + (1 << 32), 1 << 63, (1 << 63) + 9, usize::MAX - 1, usize::MAX]) {
        for like in [0].into_iter().chain(ORDERS) {
            for lift in [0, 1, 40, 1149, 4096, 4097] {
                _ = compare(&Parts { order, ..random_parts(random, like, lift) }, met);
            }
        }
    }
}

// Each order at lifts near the limits, and at some that are right in their low bits.
fn compare_lifts(random: &Random, met: &mut Met) {
    for order in ORDERS {
        let most = most(order);
        let wrapped = [40 + (1 << 16), 40 + (1 << 32), 1 << 63, usize::MAX / 7 + 1, usize::MAX];
        for lift in [0, 1, 2, 3, 40, most - 1, most, most + 1, 4095, 4096, 4097].into_iter().chain(wrapped) {
            (0..20).for_each(|_| _ = compare(&random_parts(random, order, lift), met));
        }
    }
}

// Voltages and places of lengths about the right ones, and of none.
fn compare_lengths(random: &Random, met: &mut Met) {
    for order in ORDERS {
        let right = random_parts(random, order, 40);
        let about = |n: usize| [0, 1, n - 3, n - 1, n, n + 1, n + 3, 2 * n];
        for len in about(right.voltages.len()) {
            for places in about(right.places[0]) {
                let mut parts = right.clone();
                parts.places[0] = places;
                parts.voltages.resize(len, 3);
                _ = compare(&parts, met);
            }
        }
    }
}

// The places for the lists beside the plan are looked at last: after the order, and after the other lengths.
fn compare_lists(random: &Random, met: &mut Met) {
    for order in ORDERS {
        let right = random_parts(random, order, 40);
        let [plan, rows, cols] = right.places;
        for places in near(rows).into_iter().flat_map(|r| near(cols).map(|c| [plan, r, c])) {
            let wanted = if places == right.places { 0 } else { 25 };
            let parts = Parts { places, ..right.clone() };
            assert_eq!(number(&compare(&parts, met)), wanted, "{places:?}");
            assert_eq!(number(&compare(&Parts { order: order + 1, ..parts.clone() }, met)), 22, "{places:?}");
            assert_eq!(number(&compare(&Parts { voltages: vec![], ..parts }, met)), 23, "{places:?}");
        }
    }
}

// A voltage below 0 at each place, alone and with another behind it.
fn compare_negative(random: &Random, met: &mut Met) {
    let negative = || random.choice(&[-1, -2, i16::MIN]);
    for order in ORDERS {
        let right = random_parts(random, order, 40);
        let len = right.voltages.len();
        for place in 0..len {
            let mut parts = right.clone();
            parts.voltages[place] = negative();
            _ = compare(&parts, met);
            parts.voltages[random.between(place, len - 1)] = negative();
            _ = compare(&parts, met);
        }
    }
}

// Every voltage that is allowed.
fn compare_voltages(met: &mut Met) {
    let every: Vec<i16> = (0..=i16::MAX).collect();
    for chunk in every.chunks_exact(36).chain([&every[every.len() - 36..]]) {
        [1, 5, 256, 4096].into_iter().for_each(|lift| _ = compare(&parts(9, lift, chunk.to_vec()), met));
    }
}

fn any_parts(random: &Random) -> Parts {
    let order = random.choice(&ORDERS);
    let most = most(order);
    let lift = random.choice(&[1, 2, 40, random.between(1, most), most, most + 1, random.between(1, 4096)]);
    random_parts(random, order, lift)
}

// Makes one of refusals 3, 4, 6, 22, 23, 25 likely.
fn damage(random: &Random, parts: &mut Parts) {
    let len = parts.voltages.len();
    match random.below(9) {
        0 => parts.lift = random.choice(&[0, 4097, usize::MAX, parts.lift.wrapping_add(1 << 32)]),
        1 => parts.lift = random.choice(&[2521, 1873, 1150, 4096]),
        2 => parts.order = random.choice(&[0, 1, 6, 8, 10, 21, 25, usize::MAX, parts.order.wrapping_add(1 << 32), 1 << 63]),
        3 => parts.order = random.choice(&ORDERS),
        4 if len > 0 => parts.voltages[random.below(len)] = random.choice(&[-1, -1, -2, -40, i16::MIN]),
        5 => parts.voltages.resize(random.choice(&[0, len.saturating_sub(1), len + 1, len + 3]), 1),
        _ => damage_places(random, &mut parts.places),
    }
}

pub fn compare_all() -> Seen {
    let (random, mut met) = (Random::new(10), Met::default());
    compare_orders(&random, &mut met);
    compare_lifts(&random, &mut met);
    compare_lengths(&random, &mut met);
    compare_lists(&random, &mut met);
    compare_negative(&random, &mut met);
    compare_voltages(&mut met);
    for k in 0..12000 {
        let mut parts = any_parts(&random);
        (0..k % 4).for_each(|_| damage(&random, &mut parts));
        _ = compare(&parts, &mut met);
    }
    let Met { seen, alone, lowest } = met;
    let often = |times: &BTreeMap<u64, usize>, numbers: &[u64]| numbers.iter().all(|n| times.get(n) > Some(&200));
    assert!(often(&alone, &[3, 4, 6, 22, 23, 25]), "each refusal is met alone: {alone:?}");
    // 22 is never due with 23 or 25.
    assert!(often(&lowest, &[3, 4, 6, 23]), "each of these is met as the lowest: {lowest:?}");
    seen
}
