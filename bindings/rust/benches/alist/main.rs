//! Times the proved alist writer and comparer on the cyclic table plan of order 6 at lift 46 (108 rows, 216 columns: 9,936
//! bits).
//!
//! The writer runs once with a place of exactly the text's length, for which the call measures before it writes, and once with
//! a roomy place. Beside it stand three plain Rust writers that put digits straight into the lent bytes. The one that "measures
//! and writes" does what the call does for an exact place: it judges the plan, builds sparse lists of it, adds up the text's
//! length, finds that it fits, and writes. The one that "writes at once" does the same without the length. The one with the
//! "plan prepared once" only writes: its lists were made before the clock started. The lent bytes are not cleared between
//! texts. The exact place is tried again with the same plan's voltages above the lift.
//!
//! The comparer runs on the padded text; on the unpadded text of an irregular plan, which is the same plan with every seventh
//! block emptied; and on a wrong text, padded with one token too many, which is read to its end in both forms. Beside it stand
//! two plain Rust comparers that read token by token against the numbers that they expect, in the padded form and, where the
//! text departs from it, in the unpadded form. The one with the "same work for each text" judges the plan and builds its sparse
//! lists first; the one with the "plan prepared once" only reads.
//!
//! The call that changes one block runs on the largest plan (192 rows, 512 columns, lift 128), with all blocks filled, and on
//! the cyclic table plan of order 7. The last block is emptied and filled in turn. Beside it stands a plain Rust change that
//! judges the plan, counts its weights anew and holds the lent lists to them, and then changes the entry and the two weights.
//!
//! Plans have their weights before the clock starts.
mod changes;
#[path = "../common/mod.rs"]
mod common;
mod comparers;
mod lists;
mod writers;

use common::{cyclic_plan, plan_of, printed, OwnedPlan};
use lists::Form;
use writers::text;

// The plan with every seventh filled block emptied.
fn irregular(plan: &OwnedPlan) -> OwnedPlan {
    let mut entries = plan.entries().to_vec();
    entries.iter_mut().filter(|entry| **entry >= 0).skip(6).step_by(7).for_each(|entry| *entry = -1);
    plan_of(entries, plan.rows(), plan.cols(), plan.lift())
}

fn main() {
    let plan = cyclic_plan(6, 46, &[1; 36]);
    let padded = text(&plan, Form::Padded);
    println!("alist of {} bits, {} bytes", plan.bits(), padded.len());
    writers::beside("exact", &plan, padded.len());
    writers::beside("roomy", &plan, 1 << 20);
    writers::beside("exact (voltages above the lift)", &printed(&plan), padded.len());
    comparers::beside("padded", &plan, &padded, Ok(()));
    let irregular = irregular(&plan);
    comparers::beside("unpadded", &irregular, &text(&irregular, Form::Unpadded), Ok(()));
    comparers::beside("wrong", &plan, &[&padded[..], b"0"].concat(), Err(padded.len()));
    let largest = plan_of((0..192 * 512).map(|k| (k % 128) as i16).collect(), 192, 512, 128);
    changes::beside("largest plan", &largest);
    changes::beside("cyclic table, J = 7", &cyclic_plan(7, 28, &[1; 49]));
}
