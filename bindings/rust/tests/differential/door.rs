//! How a raw function is called: with too small an `out` and with room. Compared are the number it returns, every place of
//! `out`, and (by `Lent`) all other memory with what stands around it.
use crate::lent::{Holds, Lent, LentPlaces};
use crate::reference::weights::Places;
use qcldpc::raw::{NO_ROOM, OUT};
use qcldpc::{Plan, Refusal};
use std::fmt::{Debug, Formatter};

/// What stands in each place of `out` before a call.
pub const BEFORE: u64 = 0xABCD_EF01_2345_6789;

// What stands around lent memory.
const AROUND: u64 = 0x5A5A_5A5A_5A5A_5A5A;

pub fn lend_bytes(content: &[u8]) -> Lent<u8> {
    Lent::new(content, AROUND as u8)
}

pub fn lend_numbers(content: &[i16]) -> Lent<i16> {
    Lent::new(content, AROUND as i16)
}

/// A work list: numbers that follow each other, so that no two of them are alike.
pub fn some_work(places: usize) -> Vec<u64> {
    (0..places as u64).map(|k| BEFORE + k).collect()
}

pub fn lend_work(content: &[u64]) -> Lent<u64> {
    Lent::new(content, AROUND)
}

pub fn lend_places(Places { plan, weights }: &Places) -> LentPlaces {
    let lend = |list: &[u16]| Lent::new(list, AROUND as u16);
    LentPlaces { plan: lend_numbers(plan), rows: lend(&weights.rows), cols: lend(&weights.cols) }
}

// Lends `out` of some places to a function; what it returned, and `out` as it is then.
fn with_out(places: usize, function: impl FnOnce(*mut u64, usize) -> u64) -> (u64, Vec<u64>) {
    let mut out = Lent::new(&vec![BEFORE; places], AROUND);
    let code = function(out.pointer(), places);
    let after = out.content().to_vec();
    assert!(out.holds(&after), "written outside `out`");
    (code, after)
}

/// With one place too few in `out`, a function says so and writes nothing into it.
pub fn no_room(function: impl FnOnce(*mut u64, usize) -> u64) {
    assert_eq!(with_out(OUT - 1, function), (NO_ROOM, vec![BEFORE; OUT - 1]));
}

/// What a function returns and leaves in `out` where that has one place more than it needs.
pub fn with_room(function: impl FnOnce(*mut u64, usize) -> u64) -> (u64, Vec<u64>) {
    with_out(OUT + 1, function)
}

/// What is to be returned and left there: values from the first place on; all other places keep what they held.
pub fn reply(answer: &Result<Vec<usize>, Refusal>) -> (u64, Vec<u64>) {
    let (code, mut out) = match answer {
        Ok(values) => (0, values.iter().map(|&v| v as u64).collect()),
        Err(refusal) => (refusal.number, refusal.values.clone()),
    };
    out.resize(OUT + 1, BEFORE);
    (code, out)
}

/// Two answers to the same input are the same.
pub fn agree<T: PartialEq + Debug>(input: &dyn Debug, got: T, wanted: T) {
    assert!(got == wanted, "got {got:?}, wanted {wanted:?}, for {input:?}");
}

/// Lent memory holds what it should.
pub fn left<C: ?Sized + Debug>(input: &dyn Debug, memory: &impl Holds<C>, wanted: &C) {
    assert!(memory.holds(wanted), "left {memory:?}, wanted {wanted:?}, for {input:?}");
}

/// A raw function that writes into memory, lent and after: what it returns, `out`, and what the memory holds then.
pub fn writes<M: Holds<C>, C: ?Sized + Debug>(
    input: &dyn Debug,
    mut memory: M,
    [lent, after]: [&C; 2],
    answer: &Result<Vec<usize>, Refusal>,
    function: impl Fn(&mut M, *mut u64, usize) -> u64,
) {
    no_room(|out, places| function(&mut memory, out, places));
    left(input, &memory, lent);
    let got = with_room(|out, places| function(&mut memory, out, places));
    agree(input, got, reply(answer));
    left(input, &memory, after);
}

/// A plan in a message: its shape, and its entries where they are few.
pub struct Short<'a>(pub &'a Plan<'a>);

impl Debug for Short<'_> {
    fn fmt(&self, f: &mut Formatter) -> std::fmt::Result {
        let Plan { entries, rows, cols, lift } = self.0;
        let few = &entries[..entries.len().min(200)];
        write!(f, "plan of {rows} x {cols}, lift {lift}, {} entries {few:?}", entries.len())
    }
}
