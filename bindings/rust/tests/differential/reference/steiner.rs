//! The supplied Steiner triple systems, and the plans built from them.
use super::weights::{have_room, laid, Places};
use super::{applying, refused};
use qcldpc::{Built, Refusal};
use std::collections::BTreeSet;

/// The orders that are supplied.
pub const ORDERS: [usize; 5] = [7, 9, 13, 15, 19];

/// Three points, rising.
pub type Triple = [usize; 3];

/// What comes of some triples when 0 to v - 1 is added to their points, modulo v; each triple once, rising.
fn developed(v: usize, bases: &[Triple]) -> BTreeSet<Triple> {
    let moved = |base: &Triple, k: usize| {
        let mut triple = base.map(|point| (point + k) % v);
        triple.sort();
        triple
    };
    bases.iter().flat_map(|base| (0..v).map(move |k| moved(base, k))).collect()
}

/// Points are 3x + y, and triples those of different points whose x and whose y add up to multiples of 3.
fn of_order_nine() -> BTreeSet<Triple> {
    let triples = (0..9).flat_map(|a| (a + 1..9).flat_map(move |b| (b + 1..9).map(move |c| [a, b, c])));
    let sum = |part: fn(usize) -> usize, triple: &Triple| triple.iter().map(|&point| part(point)).sum::<usize>();
    triples.filter(|triple| sum(|point| point / 3, triple) % 3 == 0 && sum(|point| point % 3, triple) % 3 == 0).collect()
}

/// The triples of an order, by first, second and third point; none where the order is not supplied.
pub fn system(order: usize) -> Option<Vec<Triple>> {
    let triples = match order {
        7 => developed(7, &[[0, 1, 3]]),
        9 => of_order_nine(),
        13 => developed(13, &[[0, 1, 4], [0, 2, 7]]),
        15 => developed(15, &[[0, 1, 4], [0, 2, 8], [0, 5, 10]]),
        19 => developed(19, &[[0, 1, 6], [0, 2, 10], [0, 3, 7]]),
        _ => return None,
    };
    Some(triples.into_iter().collect())
}

/// All refusals that apply, the lowest first. An order that is not supplied has no bits and needs no length.
pub fn refusals(order: usize, lift: usize, voltages: &[i16], lent: &Places) -> Vec<Refusal> {
    let system = system(order);
    let cols = system.as_ref().map(Vec::len);
    let negative = voltages.iter().position(|&voltage| voltage < 0);
    let needed = |cols: usize| voltages.len() == 3 * cols && lent.plan.len() == order * cols;
    applying([
        (!(1..=4096).contains(&lift), refused(3, &[])),
        (cols.is_some_and(|cols| cols as u128 * lift as u128 > 65536), refused(4, &[])),
        (negative.is_some(), refused(6, &[negative.unwrap_or(0)])),
        (system.is_none(), refused(22, &[])),
        (cols.is_some_and(|cols| !needed(cols)), refused(23, &[])),
        (cols.is_some_and(|cols| !have_room(&lent.weights, order, cols)), refused(25, &[])),
    ])
}

/// The answer, and the lent lists as they are then.
pub fn build(order: usize, lift: usize, voltages: &[i16], lent: &Places) -> (Result<Built, Refusal>, Places) {
    if let Some(lowest) = refusals(order, lift, voltages, lent).into_iter().next() {
        return (Err(lowest), lent.clone());
    }
    let triples = system(order).expect("an order that is not refused");
    let cols = triples.len();
    let mut plan = vec![-1; order * cols];
    for (j, triple) in triples.iter().enumerate() {
        for (k, point) in triple.iter().enumerate() {
            plan[point * cols + j] = (voltages[3 * j + k] as usize % lift) as i16;
        }
    }
    (Ok(Built { rows: order, cols }), laid(plan, order, cols))
}
