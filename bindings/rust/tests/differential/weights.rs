//! Lists beside a plan: wrong ones, and places for those that a call writes.
use crate::random::Random;
use crate::reference::weights::{Places, Weights};

/// How many ways there are in which weights can be wrong.
pub const WAYS: usize = 32;

// A list with another number at a place.
fn with(list: &[u16], place: usize, number: u16) -> Vec<u16> {
    let mut list = list.to_vec();
    list[place] = number;
    list
}

// A list in which a number is too small by one and the next too large, so that the sum is right; the first is too large where
// that cannot be.
fn moved(right: &[u16]) -> Vec<u16> {
    let from = right.iter().position(|&number| number > 0).unwrap_or(right.len());
    match from + 1 < right.len() {
        true => with(&with(right, from, right[from] - 1), from + 1, right[from + 1] + 1),
        false => with(right, 0, right[0] + 1),
    }
}

// A list with a wrong number: the first, one in the middle or the last; of another length; or with two wrong numbers.
fn wrong_list(right: &[u16], way: usize) -> Vec<u16> {
    let n = right.len();
    let place = [0, n / 2, n - 1][way % 3];
    let number = right[place];
    match way / 3 {
        0 => with(right, place, number.wrapping_add(1)),
        1 => with(right, place, number.wrapping_sub(1)),
        2 => with(right, place, number ^ 1 << 8),
        3 => with(right, place, u16::MAX),
        4 => right.iter().copied().chain([0]).take([0, n - 1, n + 1][way % 3]).collect(),
        _ => moved(right),
    }
}

/// Weights of which one list is wrong, in one of the ways.
pub fn wrong_weights(right: &Weights, way: usize) -> Weights {
    let Weights { mut rows, mut cols } = right.clone();
    match way % 2 {
        0 => rows = wrong_list(&rows, way / 2),
        _ => cols = wrong_list(&cols, way / 2),
    }
    Weights { rows, cols }
}

/// The weights, or wrong ones once in some times.
pub fn any_weights(random: &Random, right: Weights, wrong_once_in: usize) -> Weights {
    match random.once_in(wrong_once_in) {
        true => wrong_weights(&right, random.below(WAYS)),
        false => right,
    }
}

/// How many places a plan of so many rows and columns has, and the lists beside it.
pub fn room(rows: usize, cols: usize) -> [usize; 3] {
    [rows * cols, rows, cols]
}

/// Another number of places, for the plan or for one of the lists beside it.
pub fn damage_places(random: &Random, places: &mut [usize; 3]) {
    let n = &mut places[random.below(3)];
    *n = random.choice(&[0, n.saturating_sub(1), *n + 1, *n / 2]);
}

/// A number, and some near it.
pub fn near(n: usize) -> [usize; 5] {
    [0, n - 1, n, n + 1, 2 * n]
}

/// So many places for a plan and for the lists beside it, with something in them.
pub fn some_places([plan, rows, cols]: [usize; 3]) -> Places {
    let list = |n: usize| (0..n).map(|k| (k * 257) as u16).collect();
    Places { plan: vec![7; plan], weights: Weights { rows: list(rows), cols: list(cols) } }
}
