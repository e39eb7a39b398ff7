//! A round of turned bits (document 02, slip 12), and refusals 16, 18, 19 and 32.
use super::graph::{graph, Graph};
use super::{applying, plan, refused};
use qcldpc::{Plan, Refusal};

/// Whether some column has not exactly three filled blocks. Of a plan that is not valid, those that its list has are counted.
fn has_other_weight(plan: &Plan) -> bool {
    let column = |j: usize| plan.entries.iter().skip(j).step_by(plan.cols).take(plan.rows);
    (0..plan.cols).any(|j| column(j).filter(|&&entry| entry >= 0).count() != 3)
}

/// All refusals that apply, the lowest first. 16 to 32 are also told where the plan is not valid.
pub fn refusals(plan: &Plan, word: &[u8]) -> Vec<Refusal> {
    let [above, lost] = [word.iter().position(|&byte| byte > 2), word.iter().position(|&byte| byte == 2)];
    let more = applying([
        (word.len() as u128 != plan.cols as u128 * plan.lift as u128, refused(16, &[])),
        (above.is_some(), refused(18, &[above.unwrap_or(0)])),
        (lost.is_some(), refused(19, &[lost.unwrap_or(0)])),
        (has_other_weight(plan), refused(32, &[])),
    ]);
    [plan::refusals(plan), more].concat()
}

/// How many checks of each bit are odd.
pub fn odd_checks(graph: &Graph, word: &[u8]) -> Vec<usize> {
    let is_odd = |bits: &Vec<usize>| bits.iter().map(|&bit| word[bit] as usize).sum::<usize>() % 2 == 1;
    let odd: Vec<bool> = graph.bits_of.iter().map(is_odd).collect();
    graph.checks_of.iter().map(|checks| checks.iter().filter(|&&check| odd[check]).count()).collect()
}

/// A plan, with its graph where it is not refused: all its rounds share that.
pub struct Flipper<'a> {
    pub plan: Plan<'a>,
    graph: Option<Graph>,
}

impl<'a> Flipper<'a> {
    pub fn new(plan: Plan<'a>) -> Flipper<'a> {
        Flipper { plan, graph: plan::check(&plan).is_ok().then(|| graph(&plan)) }
    }

    pub fn graph(&self) -> &Graph {
        self.graph.as_ref().expect("a plan that is not refused")
    }

    /// The answer, and the word as it is then.
    pub fn flip(&self, lent: &[u8]) -> (Result<usize, Refusal>, Vec<u8>) {
        if let Some(lowest) = refusals(&self.plan, lent).into_iter().next() {
            return (Err(lowest), lent.to_vec());
        }
        let turned: Vec<bool> = odd_checks(self.graph(), lent).into_iter().map(|odd| odd >= 2).collect();
        let after = lent.iter().zip(&turned).map(|(bit, turned)| if *turned { 1 - bit } else { *bit }).collect();
        (Ok(turned.iter().filter(|turned| **turned).count()), after)
    }
}
