//! The largest tables and table plans.
use super::builders::{builds, refuses, Builder, Places, Wrong, BEFORE};
use super::{expect, refusal, Call};
use qcldpc::{Built, OwnedPlan, Refusal};

type Supply = fn(usize, &mut [i16]) -> Result<(), Refusal>;

fn supplied(supply: Supply, order: usize) -> Vec<i16> {
    let mut table = vec![0; order * order];
    supply(order, &mut table).expect("an order from 4 to 7");
    table
}

// A supplied table of order 7, held to the entries that it must have.
fn supplies(supply: Supply, entry: fn(usize, usize) -> usize) -> Vec<Call> {
    let wanted: Vec<i16> = (0..49).map(|k| entry(k / 7, k % 7) as i16).collect();
    vec![expect(move || supplied(supply, 7), wanted)]
}

fn supply_refused(supply: Supply) -> Vec<Call> {
    let wrong = [(8, 64, refusal(7, &[])), (7, 48, refusal(8, &[]))];
    wrong.map(|(order, len, wanted)| expect(move || supply(order, &mut vec![0; len]), Err(wanted))).into()
}

pub fn array() -> Vec<Call> {
    supplies(qcldpc::array_table, |i, r| i * r % 7)
}

pub fn array_refused() -> Vec<Call> {
    supply_refused(qcldpc::array_table)
}

pub fn cyclic() -> Vec<Call> {
    supplies(qcldpc::cyclic_table, |i, r| [0, 0, 1, 3, 6, 10, 15][(r + 7 - i) % 7])
}

pub fn cyclic_refused() -> Vec<Call> {
    supply_refused(qcldpc::cyclic_table)
}

// What a plan is built from, and the places for it.
struct Parts {
    order: usize,
    lift: usize,
    table: Vec<i16>,
    mask: Vec<u8>,
    places: Places,
}

// The cyclic table of an order with the full mask.
fn parts(order: usize, lift: usize) -> Parts {
    let places = Places::new(3 * order * order, order.pow(3));
    Parts { order, lift, table: supplied(qcldpc::cyclic_table, order), mask: vec![1; order * order], places }
}

impl Builder for Parts {
    fn build(&mut self) -> Result<Built, Refusal> {
        let Places { plan, row_weights, col_weights } = &mut self.places;
        qcldpc::build(self.order, self.lift, &self.table, &self.mask, plan, row_weights, col_weights)
    }

    fn places(&self) -> &Places {
        &self.places
    }
}

/// The plan of the largest order at the largest lift that its bits allow.
pub fn largest_plan() -> OwnedPlan {
    let Parts { order, lift, table, mask, .. } = parts(7, 191);
    OwnedPlan::build(order, lift, &table, &mask).expect("the table is sound")
}

pub fn build() -> Vec<Call> {
    vec![builds(parts(7, 191), 147, 343), builds(parts(4, 1024), 48, 64)]
}

pub fn build_refused() -> Vec<Call> {
    let wrong: [Wrong<Parts>; 11] = [
        (|parts| parts.lift = 4097, refusal(3, &[])),
        (|parts| parts.order = 8, refusal(7, &[])),
        (|parts| parts.table.push(0), refusal(8, &[])),
        (|parts| parts.table[48] = -1, refusal(9, &[48])),
        (|parts| parts.table[48] = 15, refusal(10, &[0, 6, 0, 6])),
        (|parts| parts.mask[48] = 2, refusal(11, &[])),
        (|parts| parts.mask[48] = 0, refusal(12, &[])),
        (|parts| parts.lift = 192, refusal(13, &[])),
        (|parts| parts.places.plan.push(BEFORE), refusal(15, &[])),
        (|parts| _ = parts.places.row_weights.pop(), refusal(25, &[])),
        (|parts| parts.places.col_weights.push(BEFORE as u16), refusal(25, &[])),
    ];
    refuses(|| parts(7, 191), wrong)
}
