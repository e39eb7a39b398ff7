//! Plans that own their entries and weights.
use crate::door::agree;
use crate::inputs::Draft;
use crate::reference::weights::{Places, Weights};
use qcldpc::{OwnedPlan, Refusal};
use std::fmt::Debug;

/// The entries and the weights of an owned plan.
pub fn places(plan: &OwnedPlan) -> Places {
    let weights = Weights { rows: plan.row_weights().to_vec(), cols: plan.col_weights().to_vec() };
    Places { plan: plan.entries().to_vec(), weights }
}

/// What makes an owned plan answers with a plan and its weights, counted, or with a refusal.
pub fn same(input: &dyn Debug, got: Result<OwnedPlan, Refusal>, wanted: Result<Draft, Refusal>) {
    let got = got.map(|plan| (places(&plan), [plan.rows(), plan.cols(), plan.lift(), plan.bits()]));
    let sizes = |draft: &Draft| [draft.rows, draft.cols, draft.lift, draft.bits()];
    agree(input, got, wanted.map(|draft| (draft.with(&draft.weights()), sizes(&draft))));
}
