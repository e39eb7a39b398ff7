//! Calls of every function of the C interface, at the largest sizes and refused. All lent memory is made before the call and
//! stands on the heap, so that the stack is the call's own.
mod builders;
mod changes;
mod encodings;
mod flips;
mod joins;
mod pairs;
mod plans;
mod steiner;
mod tables;
mod texts;
mod weights;
mod words;

use qcldpc::Refusal;
use std::fmt::Debug;

/// A call that holds its answer to the one that it must give.
pub type Call = Box<dyn FnOnce() + Send>;

/// A function with its calls.
pub struct Function {
    pub name: &'static str,
    pub largest: fn() -> Vec<Call>,
    pub refused: fn() -> Vec<Call>,
}

/// Every function of `include/qcldpc.h`: a new one gets a line here.
pub const FUNCTIONS: &[Function] = &[
    Function { name: "qcldpc_check", largest: plans::check, refused: plans::check_refused },
    Function { name: "qcldpc_girth", largest: plans::girth, refused: plans::girth_refused },
    Function { name: "qcldpc_girth_pairs", largest: pairs::girth_pairs, refused: pairs::girth_pairs_refused },
    Function { name: "qcldpc_syndrome", largest: words::syndrome, refused: words::syndrome_refused },
    Function { name: "qcldpc_fill", largest: words::fill, refused: words::fill_refused },
    Function { name: "qcldpc_preview", largest: words::preview, refused: words::preview_refused },
    Function { name: "qcldpc_flip", largest: flips::flip, refused: flips::flip_refused },
    Function { name: "qcldpc_count_erasures", largest: words::count_erasures, refused: Vec::new },
    Function { name: "qcldpc_array_table", largest: tables::array, refused: tables::array_refused },
    Function { name: "qcldpc_cyclic_table", largest: tables::cyclic, refused: tables::cyclic_refused },
    Function { name: "qcldpc_build", largest: tables::build, refused: tables::build_refused },
    Function { name: "qcldpc_steiner", largest: steiner::build, refused: steiner::build_refused },
    Function { name: "qcldpc_change", largest: changes::change, refused: changes::change_refused },
    Function { name: "qcldpc_join", largest: joins::join, refused: joins::join_refused },
    Function { name: "qcldpc_encode", largest: encodings::encode, refused: encodings::encode_refused },
    Function { name: "qcldpc_alist_write", largest: texts::write, refused: texts::write_refused },
    Function { name: "qcldpc_alist_compare", largest: texts::compare, refused: texts::compare_refused },
];

/// A call and the answer that it must give.
fn expect<T: PartialEq + Debug + Send + 'static>(call: impl FnOnce() -> T + Send + 'static, wanted: T) -> Call {
    Box::new(move || assert_eq!(call(), wanted))
}

fn refusal(number: u64, values: &[u64]) -> Refusal {
    Refusal { number, values: values.to_vec() }
}
