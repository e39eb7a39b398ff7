//! The largest Steiner triple plans.
use super::builders::{builds, refuses, Builder, Places, Wrong, BEFORE};
use super::{refusal, Call};
use qcldpc::{Built, Refusal};

// What a plan is built from, and the places for it.
struct Parts {
    order: usize,
    lift: usize,
    voltages: Vec<i16>,
    places: Places,
}

fn triples(order: usize) -> usize {
    order * (order - 1) / 6
}

// An order with voltages that are all above the lift.
fn parts(order: usize, lift: usize) -> Parts {
    let voltages = (0..3 * triples(order)).map(|k| i16::MAX - k as i16).collect();
    Parts { order, lift, voltages, places: Places::new(order, triples(order)) }
}

impl Builder for Parts {
    fn build(&mut self) -> Result<Built, Refusal> {
        let Places { plan, row_weights, col_weights } = &mut self.places;
        qcldpc::steiner(self.order, self.lift, &self.voltages, plan, row_weights, col_weights)
    }

    fn places(&self) -> &Places {
        &self.places
    }
}

/// Each order at the largest lift that its bits allow.
pub fn build() -> Vec<Call> {
    let largest = [(7, 4096), (9, 4096), (13, 2520), (15, 1872), (19, 1149)];
    largest.map(|(order, lift)| builds(parts(order, lift), order, triples(order))).into()
}

pub fn build_refused() -> Vec<Call> {
    let wrong: [Wrong<Parts>; 8] = [
        (|parts| parts.lift = 4097, refusal(3, &[])),
        (|parts| parts.lift = 1150, refusal(4, &[])),
        (|parts| parts.voltages[170] = -1, refusal(6, &[170])),
        (|parts| parts.order = 25, refusal(22, &[])),
        (|parts| parts.voltages.push(0), refusal(23, &[])),
        (|parts| parts.places.plan.push(BEFORE), refusal(23, &[])),
        (|parts| _ = parts.places.row_weights.pop(), refusal(25, &[])),
        (|parts| parts.places.col_weights.push(BEFORE as u16), refusal(25, &[])),
    ];
    refuses(|| parts(19, 1149), wrong)
}
