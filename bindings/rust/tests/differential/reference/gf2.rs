//! Linear equations over GF(2), solved by elimination. Each row holds a bit for each unknown, then the right side.

pub struct System {
    unknowns: usize,
    rows: Vec<Vec<u64>>,
    contradiction: bool,
}

/// Each equation solved for its first unknown.
pub struct Solved {
    unknowns: usize,
    rows: Vec<Vec<u64>>,
    pivots: Vec<usize>,
}

fn get(row: &[u64], k: usize) -> bool {
    row[k / 64] >> (k % 64) & 1 == 1
}

impl System {
    pub fn new(unknowns: usize) -> System {
        System { unknowns, rows: vec![], contradiction: false }
    }

    /// The sum of these unknowns (each named once) is `odd`.
    pub fn add(&mut self, unknowns: impl Iterator<Item = usize>, odd: bool) {
        let mut unknowns = unknowns.peekable();
        if unknowns.peek().is_none() {
            self.contradiction |= odd;
            return;
        }
        let mut row = vec![0; self.unknowns / 64 + 1];
        unknowns.for_each(|k| row[k / 64] ^= 1 << (k % 64));
        row[self.unknowns / 64] ^= (odd as u64) << (self.unknowns % 64);
        self.rows.push(row);
    }

    /// None where the equations contradict each other.
    pub fn solve(mut self) -> Option<Solved> {
        let mut pivots = vec![];
        for k in 0..self.unknowns {
            let top = pivots.len();
            let Some(found) = (top..self.rows.len()).find(|&r| get(&self.rows[r], k)) else { continue };
            self.rows.swap(top, found);
            let pivot = self.rows[top].clone();
            for (r, row) in self.rows.iter_mut().enumerate() {
                if r != top && get(row, k) {
                    row.iter_mut().zip(&pivot).for_each(|(a, b)| *a ^= b);
                }
            }
            pivots.push(k);
        }
        let rest = self.rows.split_off(pivots.len());
        if self.contradiction || rest.iter().any(|row| get(row, self.unknowns)) {
            return None;
        }
        Some(Solved { unknowns: self.unknowns, rows: self.rows, pivots })
    }
}

impl Solved {
    /// Whether there is only one solution.
    pub fn is_unique(&self) -> bool {
        self.pivots.len() == self.unknowns
    }

    /// The unknowns that the others determine, rising.
    pub fn determined(&self) -> &[usize] {
        &self.pivots
    }

    /// The solution in which each unknown that may be chosen has its value of `choice`.
    pub fn solution(&self, mut choice: impl FnMut() -> bool) -> Vec<u8> {
        let mut values: Vec<u8> = (0..self.unknowns).map(|_| choice() as u8).collect();
        self.pivots.iter().for_each(|&k| values[k] = 0);
        for (row, &k) in self.rows.iter().zip(&self.pivots) {
            let others = (0..self.unknowns).filter(|&u| u != k && get(row, u));
            values[k] = others.fold(get(row, self.unknowns) as u8, |sum, u| sum ^ values[u]);
        }
        values
    }
}
