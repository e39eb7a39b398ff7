//! Data encoded: the shape in document 02's words, refusals 30 and 31, and the frame by elimination in the expanded matrix.
use super::sparse::Elimination;
use super::{applying, plan, refused};
use qcldpc::{Plan, Refusal};
use std::ops::Range;

#[derive(Clone, Copy, PartialEq, Eq)]
enum Block {
    Empty,
    /// With its remainder by P.
    Filled(usize),
}

/// A block of a plan, where the list has it.
fn block(plan: &Plan, i: usize, j: usize) -> Option<Block> {
    match plan.entries.get(i.checked_mul(plan.cols)?.checked_add(j)?)? {
        -1 => Some(Block::Empty),
        &e => usize::try_from(e).ok()?.checked_rem(plan.lift).map(Block::Filled),
    }
}

/// Whether column k has remainder 0 in rows k and k + 1 and nothing else.
fn is_bidiagonal(plan: &Plan, k: usize) -> bool {
    let wanted = |i| if i == k || i == k + 1 { Block::Filled(0) } else { Block::Empty };
    (0..plan.rows).all(|i| block(plan, i, k) == Some(wanted(i)))
}

/// The remainders of a column.
fn remainders(plan: &Plan, j: usize) -> Vec<usize> {
    let filled = |i| if let Some(Block::Filled(e)) = block(plan, i, j) { Some(e) } else { None };
    (0..plan.rows).filter_map(filled).collect()
}

/// Whether a plan has the shape. This is also asked of plans that are not valid, where the blocks that count may be missing.
pub fn has_shape(plan: &Plan) -> bool {
    let m = plan.rows;
    let at_least_two_equal = |e: &[usize]| e[0] == e[1] || e[0] == e[2] || e[1] == e[2];
    m >= 3 && plan.cols > m && (0..m - 1).all(|k| is_bidiagonal(plan, k)) && {
        let three = remainders(plan, m - 1);
        three.len() == 3 && at_least_two_equal(&three)
    }
}

/// All refusals that apply, the lowest first. 16, 30 and 31 are also told where the plan is not valid.
pub fn refusals(plan: &Plan, data: &[u8], word_len: usize) -> Vec<Refusal> {
    let Plan { rows, cols, lift, .. } = *plan;
    let product = |a: usize, b: usize| a as u128 * b as u128;
    let data_len = cols.checked_sub(rows).map(|columns| product(columns, lift));
    let more = applying([
        (word_len as u128 != product(cols, lift), refused(16, &[])),
        (!has_shape(plan), refused(30, &[])),
        (data_len != Some(data.len() as u128) || data.iter().any(|&byte| byte > 1), refused(31, &[])),
    ]);
    [plan::refusals(plan), more].concat()
}

/// The bits of a check in some columns.
fn bits_of<'a>(plan: &'a Plan, check: usize, columns: Range<usize>) -> impl Iterator<Item = usize> + 'a {
    let (p, i, y) = (plan.lift, check / plan.lift, check % plan.lift);
    columns.filter_map(move |j| match block(plan, i, j) {
        Some(Block::Filled(e)) => Some(j * p + (y + e) % p),
        _ => None,
    })
}

/// The checks of a plan of the shape, solved for the bits that carry no data: these are determined, whatever the data are.
fn solve(plan: &Plan) -> Elimination {
    let checks = (0..plan.rows * plan.lift).map(|check| bits_of(plan, check, 0..plan.rows).collect());
    Elimination::new(checks.collect()).expect("exactly one frame for all data bits")
}

/// A plan, with its checks solved where it is valid and has the shape: all its frames share that.
pub struct Coder<'a> {
    pub plan: Plan<'a>,
    solved: Option<Elimination>,
}

impl<'a> Coder<'a> {
    pub fn new(plan: Plan<'a>) -> Coder<'a> {
        let good = plan::check(&plan).is_ok() && has_shape(&plan);
        Coder { plan, solved: good.then(|| solve(&plan)) }
    }

    /// The only frame with these data bits, where nothing is refused.
    fn frame(&self, data: &[u8]) -> Vec<u8> {
        let (plan, solved) = (&self.plan, self.solved.as_ref().expect("a plan of the shape"));
        let first = plan.rows * plan.lift;
        let sum = |check| bits_of(plan, check, plan.rows..plan.cols).fold(0, |sum, bit| sum ^ data[bit - first]);
        let mut frame = solved.solution((0..first).map(sum).collect());
        frame.extend(data);
        frame
    }

    /// The answer, and the word as it is then.
    pub fn encode(&self, data: &[u8], lent: &[u8]) -> (Result<(), Refusal>, Vec<u8>) {
        match refusals(&self.plan, data, lent.len()).into_iter().next() {
            Some(lowest) => (Err(lowest), lent.to_vec()),
            None => (Ok(()), self.frame(data)),
        }
    }
}
