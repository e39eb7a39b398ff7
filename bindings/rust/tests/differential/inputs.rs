//! Plans of many shapes, and what can be wrong with one.
use crate::random::Random;
use crate::reference;
use crate::reference::weights::{Places, Weights};
use qcldpc::Plan;

/// A plan as it is handed in, good or not.
#[derive(Clone, Debug, PartialEq, Eq)]
pub struct Draft {
    pub entries: Vec<i16>,
    pub rows: usize,
    pub cols: usize,
    pub lift: usize,
}

impl Draft {
    pub fn lent(&self) -> Plan<'_> {
        Plan { entries: &self.entries, rows: self.rows, cols: self.cols, lift: self.lift }
    }

    pub fn bits(&self) -> usize {
        self.cols * self.lift
    }

    /// Its weights, counted; of a refused plan any lists.
    pub fn weights(&self) -> Weights {
        match reference::plan::check(&self.lent()) {
            Ok(()) => reference::weights::weights(&self.lent()),
            Err(_) => Weights { rows: vec![1; self.rows.clamp(1, 200)], cols: vec![1; self.cols.clamp(1, 600)] },
        }
    }

    /// Its entries with lists beside them.
    pub fn with(&self, weights: &Weights) -> Places {
        Places { plan: self.entries.clone(), weights: weights.clone() }
    }
}

// The largest entry of 16 bits.
const LARGEST: usize = i16::MAX as usize;

/// An entry that leaves a remainder by the lift: the remainder itself, or with a multiple of the lift added.
pub fn printed(random: &Random, remainder: usize, lift: usize) -> i16 {
    let most = (LARGEST - remainder) / lift;
    (remainder + lift * random.choice(&[0, 0, 1, random.between(0, most), most])) as i16
}

// In half of the plans all entries stay below the lift; in the others each voltage stands as some program may print it.
fn as_printed(random: &Random, mut plan: Draft) -> Draft {
    if random.once_in(2) {
        let filled = plan.entries.iter_mut().filter(|entry| **entry >= 0);
        filled.for_each(|entry| *entry = printed(random, *entry as usize, plan.lift));
    }
    plan
}

/// The plan 0 0 / 0 e for every entry e that there is.
pub fn every_entry(lift: usize) -> impl Iterator<Item = Draft> {
    (i16::MIN..=i16::MAX).map(move |e| Draft { entries: vec![0, 0, 0, e], rows: 2, cols: 2, lift })
}

/// A plan of a shape in which each block is filled with the chance `density` in 8.
pub fn plan_of(random: &Random, rows: usize, cols: usize, lift: usize, density: usize) -> Draft {
    let limit = random.choice(&[1, 2, lift, lift, lift]).min(lift);
    let entry = |_| match random.below(8) < density {
        true => random.choice(&[random.below(limit), random.below(lift), lift - 1, limit - 1]) as i16,
        false => -1,
    };
    as_printed(random, Draft { entries: (0..rows * cols).map(entry).collect(), rows, cols, lift })
}

/// A small plan of any density, from all blocks empty to all filled.
pub fn small_plan(random: &Random) -> Draft {
    let (rows, cols) = (random.between(1, 6), random.between(1, 8));
    let lift = random.choice(&[1, 2, 3, random.between(1, 8), random.between(1, 40)]);
    let density = random.between(0, 8);
    plan_of(random, rows, cols, lift, density)
}

/// A plan with `weight` filled blocks in each column.
pub fn column_plan(random: &Random, rows: usize, cols: usize, lift: usize, weight: usize) -> Draft {
    let mut entries = vec![-1; rows * cols];
    for j in 0..cols {
        for i in random.distinct(weight, rows) {
            entries[i * cols + j] = random.below(lift) as i16;
        }
    }
    as_printed(random, Draft { entries, rows, cols, lift })
}

/// A small plan with an empty row and an empty column beside filled blocks.
pub fn holed_plan(random: &Random) -> Draft {
    let (rows, cols, density) = (random.between(2, 5), random.between(2, 6), random.between(3, 8));
    let lift = random.choice(&[1, 1, 2, 3, random.between(4, 12)]);
    let mut plan = plan_of(random, rows, cols, lift, density);
    let (rows, cols) = (random.distinct(2, rows), random.distinct(2, cols));
    plan.entries[rows[1] * plan.cols + cols[1]] = 0;
    for (k, entry) in plan.entries.iter_mut().enumerate() {
        if k / plan.cols == rows[0] || k % plan.cols == cols[0] {
            *entry = -1;
        }
    }
    plan
}

/// A small plan with as many filled blocks in each row and in each column: none of its lists is short. Some have no block.
pub fn regular_plan(random: &Random) -> Draft {
    let (size, lift) = (random.between(1, 5), random.choice(&[1, 2, random.between(1, 12)]));
    let weight = random.between(0, size);
    let entry = |k| match (k / size + k % size) % size < weight {
        true => random.below(lift) as i16,
        false => -1,
    };
    as_printed(random, Draft { entries: (0..size * size).map(entry).collect(), rows: size, cols: size, lift })
}

/// Plans at the limits of rows, columns, lift and bits.
pub fn limit_plans(random: &Random) -> Vec<Draft> {
    vec![
        column_plan(random, 192, 512, 128, 3),
        column_plan(random, 192, 512, 1, 3),
        column_plan(random, 192, 16, 4096, 2),
        column_plan(random, 3, 16, 4096, 3),
        column_plan(random, 192, 1, 4096, 4),
        plan_of(random, 1, 16, 4096, 8),
        plan_of(random, 1, 512, 128, 4),
        plan_of(random, 192, 1, 1, 8),
        plan_of(random, 192, 512, 1, 8),
        plan_of(random, 192, 512, 2, 0),
    ]
}

// A number that is not from 1 to `limit`, some of them right in their low bits.
fn outside(random: &Random, limit: usize, right: usize) -> usize {
    let wrapped = right.wrapping_add(random.choice(&[1 << 16, 1 << 32, 1 << 63]));
    random.choice(&[0, limit + 1, limit + 2, 1 << 16, wrapped, usize::MAX])
}

/// Makes one or more of refusals 1 to 6 apply to a good plan.
pub fn damage_plan(random: &Random, plan: &mut Draft) {
    for _ in 0..random.between(1, 3) {
        match random.between(1, 6) {
            1 => plan.rows = outside(random, 192, plan.rows),
            2 => plan.cols = outside(random, 512, plan.cols),
            3 => plan.lift = outside(random, 4096, plan.lift),
            4 => {
                let (cols, lift) = random.choice(&[(512, 129), (17, 4096), (16, 4097), (257, 256), (513, 128)]);
                (plan.cols, plan.lift) = (cols, lift);
                if random.once_in(2) {
                    plan.entries = vec![0; plan.rows.min(192) * cols];
                }
            }
            5 => {
                let len = plan.entries.len();
                plan.entries.resize(random.choice(&[0, len / 2, len.saturating_sub(1), len + 1]), 0);
            }
            _ => {
                for _ in 0..random.between(1, 3).min(plan.entries.len()) {
                    let place = random.below(plan.entries.len());
                    plan.entries[place] = random.choice(&[-2, -3, -256, i16::MIN + 1, i16::MIN]);
                }
            }
        }
    }
}

/// A small plan, damaged once in some times.
pub fn any_plan(random: &Random, damaged_once_in: usize) -> Draft {
    let mut plan = small_plan(random);
    if random.once_in(damaged_once_in) {
        damage_plan(random, &mut plan);
    }
    plan
}
