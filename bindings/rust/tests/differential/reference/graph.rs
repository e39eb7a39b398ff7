//! The expanded graph: check (i, y) joins bit (j, (y + e) mod P) where the entry at (i, j) is 0 or more, with the remainder e by P.
use qcldpc::Plan;

pub struct Graph {
    /// The bits of each check, rising.
    pub bits_of: Vec<Vec<usize>>,
    /// The checks of each bit, rising.
    pub checks_of: Vec<Vec<usize>>,
}

/// The graph of a plan that is not refused.
pub fn graph(plan: &Plan) -> Graph {
    let p = plan.lift;
    let mut bits_of = vec![vec![]; plan.rows * p];
    let mut checks_of = vec![vec![]; plan.cols * p];
    for (check, bits) in bits_of.iter_mut().enumerate() {
        let (i, y) = (check / p, check % p);
        for j in 0..plan.cols {
            let entry = plan.entries[i * plan.cols + j];
            if entry >= 0 {
                let e = entry as usize % p;
                let bit = j * p + (y + e) % p;
                bits.push(bit);
                checks_of[bit].push(check);
            }
        }
    }
    Graph { bits_of, checks_of }
}

impl Graph {
    pub fn joins(&self, check: usize, bit: usize) -> bool {
        check < self.bits_of.len() && self.bits_of[check].contains(&bit)
    }
}
