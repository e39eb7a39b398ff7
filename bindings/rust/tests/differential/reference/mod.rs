//! What the calls should answer, written from the requirement alone: slow, plain, and sharing nothing with the library but the
//! types of the answers.
pub mod alist;
pub mod change;
pub mod encode;
pub mod fill;
pub mod flip;
pub mod gf2;
pub mod girth;
pub mod graph;
pub mod join;
pub mod pairs;
pub mod plan;
pub mod sparse;
pub mod steiner;
pub mod table;
pub mod weights;
pub mod word;

use qcldpc::Refusal;

/// A refusal with its number and values.
pub fn refused(number: u64, values: &[usize]) -> Refusal {
    Refusal { number, values: values.iter().map(|&v| v as u64).collect() }
}

/// The refusals of the rules that apply, in the order of the rules.
pub fn applying<const N: usize>(rules: [(bool, Refusal); N]) -> Vec<Refusal> {
    rules.into_iter().filter_map(|(applies, refusal)| applies.then_some(refusal)).collect()
}
