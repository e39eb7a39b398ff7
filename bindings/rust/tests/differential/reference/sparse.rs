//! Linear equations over GF(2), as many as unknowns and with few unknowns in each, eliminated once for all right sides.
use std::collections::BTreeSet;

pub struct Elimination {
    /// Which equation was added to which other one, in turn.
    added: Vec<(usize, usize)>,
    /// The equation solved for each unknown, with its other unknowns, which all come later.
    solved: Vec<(usize, Vec<usize>)>,
}

// Equations by their unknowns, and unknowns by the equations that are not yet solved for one.
struct Open {
    equations: Vec<BTreeSet<usize>>,
    having: Vec<BTreeSet<usize>>,
}

fn toggle(set: &mut BTreeSet<usize>, member: usize) {
    if !set.remove(&member) {
        set.insert(member);
    }
}

impl Open {
    fn add(&mut self, from: usize, to: usize) {
        for unknown in self.equations[from].clone() {
            toggle(&mut self.equations[to], unknown);
            toggle(&mut self.having[unknown], to);
        }
    }

    // Takes an equation out of those that are not yet solved. Gives the unknowns that it has beside one.
    fn solve_for(&mut self, equation: usize, unknown: usize) -> Vec<usize> {
        let unknowns = std::mem::take(&mut self.equations[equation]);
        unknowns.iter().for_each(|&k| _ = self.having[k].remove(&equation));
        unknowns.into_iter().filter(|&k| k != unknown).collect()
    }
}

impl Elimination {
    /// Of as many equations as unknowns, each with its unknowns. None unless there is exactly one solution, whatever the right
    /// sides are.
    pub fn new(equations: Vec<BTreeSet<usize>>) -> Option<Elimination> {
        let mut having = vec![BTreeSet::new(); equations.len()];
        for (equation, unknowns) in equations.iter().enumerate() {
            unknowns.iter().for_each(|&unknown| _ = having[unknown].insert(equation));
        }
        let (mut open, mut added, mut solved) = (Open { equations, having }, vec![], vec![]);
        for unknown in 0..open.having.len() {
            let having: Vec<usize> = open.having[unknown].iter().copied().collect();
            let &equation = having.iter().min_by_key(|&&equation| open.equations[equation].len())?;
            for &other in having.iter().filter(|&&other| other != equation) {
                open.add(equation, other);
                added.push((equation, other));
            }
            solved.push((equation, open.solve_for(equation, unknown)));
        }
        Some(Elimination { added, solved })
    }

    /// The unknowns, for a right side of each equation.
    pub fn solution(&self, mut right: Vec<u8>) -> Vec<u8> {
        self.added.iter().for_each(|&(from, to)| right[to] ^= right[from]);
        let mut values = vec![0; self.solved.len()];
        for (unknown, (equation, others)) in self.solved.iter().enumerate().rev() {
            values[unknown] = others.iter().fold(right[*equation], |sum, &other| sum ^ values[other]);
        }
        values
    }
}
