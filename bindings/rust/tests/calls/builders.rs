//! What the calls that build a plan have in common.
use super::{expect, Call};
use qcldpc::{Built, Refusal};

/// Each place of a plan and of its weights before it is built.
pub const BEFORE: i16 = 7;

/// The places for a plan and its weights.
pub struct Places {
    pub plan: Vec<i16>,
    pub row_weights: Vec<u16>,
    pub col_weights: Vec<u16>,
}

impl Places {
    pub fn new(rows: usize, cols: usize) -> Places {
        let weights = |n| vec![BEFORE as u16; n];
        Places { plan: vec![BEFORE; rows * cols], row_weights: weights(rows), col_weights: weights(cols) }
    }

    // Whether all is as it was lent.
    fn are_untouched(&self) -> bool {
        let mut weights = self.row_weights.iter().chain(&self.col_weights);
        self.plan.iter().all(|&e| e == BEFORE) && weights.all(|&weight| weight == BEFORE as u16)
    }

    // Whether the weights are those of the plan, with three blocks in each column.
    fn are_weighed(&self) -> bool {
        let filled = |row: &[i16]| row.iter().filter(|&&e| e >= 0).count() as u16;
        let rows = self.plan.chunks(self.col_weights.len()).map(filled);
        rows.eq(self.row_weights.iter().copied()) && self.col_weights.iter().all(|&weight| weight == 3)
    }
}

/// What a plan is built from, and the places for it.
pub trait Builder: Send + 'static {
    fn build(&mut self) -> Result<Built, Refusal>;
    fn places(&self) -> &Places;
}

/// What damages the parts, and the refusal that is due then.
pub type Wrong<B> = (fn(&mut B), Refusal);

/// The builder's answer, how many blocks it fills (three in each column), and whether the weights are right.
pub fn builds(mut parts: impl Builder, rows: usize, cols: usize) -> Call {
    let run = move || {
        let (answer, places) = (parts.build(), parts.places());
        (answer, places.plan.iter().filter(|&&e| e >= 0).count(), places.are_weighed())
    };
    expect(run, (Ok(Built { rows, cols }), 3 * cols, true))
}

/// The builder's refusals of damaged parts, each with the places as they were lent.
pub fn refuses<B: Builder, const N: usize>(parts: impl Fn() -> B, wrong: [Wrong<B>; N]) -> Vec<Call> {
    let refuse = |(damage, wanted): Wrong<B>| {
        let mut parts = parts();
        damage(&mut parts);
        expect(move || (parts.build(), parts.places().are_untouched()), (Err(wanted), true))
    };
    wrong.map(refuse).into()
}
