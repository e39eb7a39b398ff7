//! The supplied tables and the plans built from tables and masks.
use crate::door::{agree, left, lend_bytes, lend_numbers, lend_places, writes};
use crate::inputs::Draft;
use crate::lent::{Lent, LentPlaces};
use crate::owned;
use crate::random::Random;
use crate::reference;
use crate::reference::weights::Places;
use crate::seen::{number, Seen};
use crate::weights::{damage_places, near, room, some_places};
use qcldpc::raw::{qcldpc_array_table, qcldpc_build, qcldpc_cyclic_table};
use qcldpc::{Built, OwnedPlan, Refusal};

type Supply = unsafe extern "C" fn(u64, *mut i16, usize, *mut u64, usize) -> u64;

fn compare_supply(function: Supply, order: usize, lent: &[i16], wanted: (Result<(), Refusal>, Vec<i16>), seen: &mut Seen) {
    let (answer, after) = wanted;
    let call = |table: &mut Lent<i16>, out, len| unsafe { function(order as u64, table.pointer(), table.len(), out, len) };
    writes(&(order, lent.len()), lend_numbers(lent), [lent, &after], &answer.clone().map(|_| vec![]), call);
    seen.note(&answer);
}

fn compare_tables(order: usize, lent: &[i16], seen: &mut Seen) {
    let (array, cyclic) = (reference::table::array(order, lent), reference::table::cyclic(order, lent));
    for (safe, wanted) in [(qcldpc::array_table as fn(usize, &mut [i16]) -> _, &array), (qcldpc::cyclic_table, &cyclic)] {
        let mut table = lent.to_vec();
        agree(&order, (safe(order, &mut table), table), wanted.clone());
    }
    compare_supply(qcldpc_array_table, order, lent, array, seen);
    compare_supply(qcldpc_cyclic_table, order, lent, cyclic, seen);
}

/// What a plan is built from, and how many places there are for it and for the lists beside it.
#[derive(Clone, Debug)]
pub struct Parts {
    order: usize,
    lift: usize,
    table: Vec<i16>,
    mask: Vec<u8>,
    places: [usize; 3],
}

// The constructor answers as the builder does in places of the lengths that the table and the mask need.
fn compare_owned(parts: &Parts) {
    let Parts { order, lift, ref table, ref mask, .. } = *parts;
    let draft = |(Built { rows, cols }, entries)| Draft { entries, rows, cols, lift };
    let wanted = reference::table::built(order, lift, table, mask).map(draft);
    owned::same(parts, OwnedPlan::build(order, lift, table, mask), wanted);
}

fn compare_build(parts: &Parts, seen: &mut Seen) -> Result<Draft, Refusal> {
    let Parts { order, lift, ref table, ref mask, places } = *parts;
    let lent = some_places(places);
    let (answer, after) = reference::table::build(order, lift, table, mask, &lent);
    let (mut t, mut m) = (lend_numbers(table), lend_bytes(mask));
    let (table_at, tn, mask_at, mn) = (t.pointer(), t.len(), m.pointer(), m.len());
    let call = |memory: &mut LentPlaces, out, len| unsafe {
        let (p, n, r, rn, c, cn) = memory.raw();
        qcldpc_build(order as u64, lift as u64, table_at, tn, mask_at, mn, p, n, r, rn, c, cn, out, len)
    };
    let values = answer.clone().map(|built| vec![built.rows, built.cols]);
    writes(parts, lend_places(&lent), [&lent, &after], &values, call);
    left(parts, &t, &table[..]);
    left(parts, &m, &mask[..]);
    let mut copy = lent;
    let Places { plan, weights } = &mut copy;
    agree(parts, &qcldpc::build(order, lift, table, mask, plan, &mut weights.rows, &mut weights.cols), &answer);
    agree(parts, &copy, &after);
    compare_owned(parts);
    seen.note(&answer);
    answer.map(|Built { rows, cols }| Draft { entries: after.plan, rows, cols, lift })
}

fn reference_table(order: usize, array: bool) -> Vec<i16> {
    let lent = vec![0; order * order];
    let supplied = if array { reference::table::array(order, &lent) } else { reference::table::cyclic(order, &lent) };
    supplied.1
}

fn parts(order: usize, lift: usize, table: Vec<i16>, weight: usize, mask: Vec<u8>) -> Parts {
    Parts { order, lift, table, mask, places: room(3 * weight * order, order * weight * weight) }
}

fn full_parts(order: usize, lift: usize, array: bool) -> Parts {
    parts(order, lift, reference_table(order, array), order, vec![1; order * order])
}

/// The cyclic plan with the full mask.
pub fn cyclic_plan(order: usize, lift: usize) -> Draft {
    compare_build(&full_parts(order, lift, false), &mut Seen::default()).expect("the table is sound")
}

// A mask with `weight` ones in each row and column: a band, its rows and columns exchanged at will.
fn mask(random: &Random, order: usize, weight: usize) -> Vec<u8> {
    let (mut rows, mut cols): (Vec<usize>, Vec<usize>) = ((0..order).collect(), (0..order).collect());
    random.shuffle(&mut rows);
    random.shuffle(&mut cols);
    (0..order * order).map(|k| ((rows[k / order] + cols[k % order]) % order < weight) as u8).collect()
}

// A table: supplied, or supplied with a number added to each row and to each column (which keeps it sound), or any numbers.
fn table(random: &Random, order: usize) -> Vec<i16> {
    let mut table = reference_table(order, random.once_in(2));
    match random.below(3) {
        0 => (),
        1 => {
            let add: Vec<i16> = (0..2 * order).map(|_| random.below(16000) as i16).collect();
            (0..order * order).for_each(|k| table[k] += add[k / order] + add[order + k % order]);
        }
        _ => table.iter_mut().for_each(|s| *s = random.below(32768) as i16),
    }
    table
}

fn any_parts(random: &Random) -> Parts {
    let order = random.between(4, 7);
    let weight = random.between(4, order);
    let most = 65536 / (order * weight * weight);
    let lift = random.choice(&[order, 2 * order - 3, 3 * order * order / 4, random.between(1, most), most, most + 1]);
    let table = table(random, order);
    let mask = mask(random, order, weight);
    parts(order, lift, table, weight, mask)
}

// Makes one of refusals 3, 7 to 13, 15, 25 likely.
fn damage(random: &Random, parts: &mut Parts) {
    match random.below(13) {
        0 => parts.lift = random.choice(&[0, 4097, usize::MAX, parts.lift.wrapping_add(1 << 32)]),
        1 => parts.order = random.choice(&[0, 3, 8, usize::MAX, parts.order.wrapping_add(1 << 32), 1 << 63]),
        2 => parts.table.truncate(random.choice(&[0, 15, 24])),
        3 => parts.table.push(0),
        4 if !parts.table.is_empty() => {
            let place = random.below(parts.table.len());
            parts.table[place] = random.choice(&[-1, -2, i16::MIN]);
        }
        5 if !parts.table.is_empty() => {
            let (from, to) = (random.below(parts.table.len()), random.below(parts.table.len()));
            parts.table[to] = parts.table[from];
        }
        6 => parts.mask.resize(random.choice(&[0, parts.mask.len().saturating_sub(1), parts.mask.len() + 1]), 1),
        7 | 8 if !parts.mask.is_empty() => {
            let place = random.below(parts.mask.len());
            parts.mask[place] = random.choice(&[0, 0, 1, 1, 2, 255]);
        }
        9 => parts.mask = mask(random, parts.order.clamp(4, 7), 3),
        _ => damage_places(random, &mut parts.places),
    }
}

// The places for the lists beside the plan are looked at last.
fn compare_lengths(random: &Random, seen: &mut Seen) {
    let masked = parts(5, 5, reference_table(5, false), 4, mask(random, 5, 4));
    for right in [full_parts(4, 7, false), masked] {
        let [plan, rows, cols] = right.places;
        for places in near(rows).into_iter().flat_map(|r| near(cols).map(|c| [plan, r, c])) {
            let wanted = if places == right.places { 0 } else { 25 };
            let build = |plan| Parts { places: [plan, places[1], places[2]], ..right.clone() };
            assert_eq!(number(&compare_build(&build(plan), seen)), wanted, "{places:?}");
            assert_eq!(number(&compare_build(&build(plan - 1), seen)), 15, "{places:?}");
        }
    }
}

/// Table plans of every order, full and masked, at the lifts that the requirement and its source name.
pub fn built_plans(random: &Random) -> Vec<Draft> {
    let mut all = vec![];
    for (order, lift, array) in [(4, 7, false), (5, 5, true), (5, 5, false), (5, 12, false), (5, 7, true), (6, 19, false)] {
        all.push(full_parts(order, lift, array));
    }
    for (order, lift, array) in [(7, 7, true), (7, 7, false), (7, 11, true), (7, 27, false)] {
        all.push(full_parts(order, lift, array));
    }
    for (order, weight, lift) in [(5, 4, 5), (6, 4, 19), (6, 5, 20), (7, 4, 7), (7, 5, 7), (7, 6, 7)] {
        let mask = mask(random, order, weight);
        all.push(parts(order, lift, reference_table(order, false), weight, mask));
    }
    let build = |parts: &Parts| compare_build(parts, &mut Seen::default()).expect("the table is sound");
    all.iter().map(build).collect()
}

pub fn compare_all() -> Seen {
    let (random, mut seen) = (Random::new(3), Seen::default());
    for order in [0, 1, 2, 3, 4, 5, 6, 7, 8, 9, 1 << 16, 4 + (1 << 32), 1 << 63, usize::MAX] {
        for len in [0, 1, 15, 16, 17, 25, 35, 36, 48, 49, 50, 64, 81] {
            compare_tables(order, &vec![-3; len], &mut seen);
        }
    }
    for order in 4..8 {
        for lift in 1..65536 / (order * 16) + 2 {
            for array in [false, true] {
                if lift < 60 || lift % 41 == 0 || lift * order * order * order > 65000 {
                    _ = compare_build(&full_parts(order, lift, array), &mut seen);
                }
            }
        }
    }
    compare_lengths(&random, &mut seen);
    for k in 0..6000 {
        let mut parts = any_parts(&random);
        (0..k % 4).for_each(|_| damage(&random, &mut parts));
        _ = compare_build(&parts, &mut seen);
    }
    seen
}
