//! Plans with three filled blocks or more in each column that pass at a target, and codewords of them. The lost bits that always
//! come back are 3, 5, 9, 13, 21, 29, 45 at target 6, 8, 10, 12, 14, 16, 18; every table plan has that of 12, and every Steiner
//! plan that of 6.
use crate::inputs::{column_plan, Draft};
use crate::random::Random;
use crate::reference;
use crate::reference::gf2::Solved;
use crate::reference::graph::{graph, Graph};
use crate::reference::steiner::system;
use crate::seen::Seen;
use crate::tables::built_plans;
use crate::words::{code, code_word};
use crate::{cages, girth, pairs, steiner, table_vi};
use qcldpc::Plan;
use std::sync::LazyLock;

pub const BOUNDS: [(usize, usize); 7] = [(6, 3), (8, 5), (10, 9), (12, 13), (14, 21), (16, 29), (18, 45)];

/// A plan, and how many lost bits always come back.
pub struct Passing {
    pub plan: Draft,
    pub bound: usize,
    /// With how many codewords it is tried.
    pub times: usize,
}

/// All of them; drawn once, for every subject that tries them.
pub static PASSING: LazyLock<Vec<Passing>> = LazyLock::new(|| {
    let random = Random::new(7);
    let tables = built_plans(&random).into_iter().filter(|plan| plan.bits() <= 4200);
    let mut all: Vec<Passing> = tables.map(|plan| Passing { plan, bound: 13, times: 12 }).collect();
    all.extend(columns(&random));
    all.extend(steiner_plans(&random));
    all.extend(cages::plans().map(|plan| by_girth(plan, 40)));
    all
});

// The girth that the girth test tells; the test by sorted pairs agrees.
fn girth_of(plan: &Draft) -> Option<usize> {
    pairs::compare(&plan.lent(), &mut pairs::Met::default());
    girth::compare(&plan.lent(), &mut Seen::default())
}

/// The plan with what its girth, which is tested too, allows.
pub fn by_girth(plan: Draft, times: usize) -> Passing {
    let girth = girth_of(&plan).expect("a good plan");
    let (_, bound) = BOUNDS.into_iter().rfind(|(target, _)| *target <= girth).expect("the plan passes at 6");
    Passing { plan, bound, times }
}

// A plan that passes at a target: column after column, each drawn until the girth is kept, and again from the first where that
// does not come about.
fn passing_plan(target: usize, rows: usize, cols: usize, lift: usize, draw: impl Fn(usize) -> Vec<i16>) -> Draft {
    let mut columns: Vec<Vec<i16>> = vec![];
    let mut tries = 0;
    while columns.len() < cols {
        columns.push(draw(columns.len()));
        let entries = (0..rows).flat_map(|i| columns.iter().map(move |column| column[i])).collect();
        let plan = Draft { entries, rows, cols: columns.len(), lift };
        if reference::girth::girth(&graph(&plan.lent()), lift) < target {
            columns.pop();
            tries += 1;
        } else if columns.len() == cols {
            return plan;
        }
        if tries == 200 {
            columns.clear();
            tries = 0;
        }
    }
    unreachable!("a plan has columns")
}

/// One with three filled blocks in each column.
pub fn passing_column_plan(random: &Random, target: usize, rows: usize, cols: usize, lift: usize) -> Draft {
    passing_plan(target, rows, cols, lift, |_| column_plan(random, rows, 1, lift, 3).entries)
}

// One of an order's triples, built from its voltages.
fn passing_steiner_plan(random: &Random, target: usize, order: usize, lift: usize) -> Draft {
    let triples = system(order).expect("a supplied order");
    let cols = triples.len();
    let draw = |j: usize| {
        let mut column = vec![-1; order];
        triples[j].iter().for_each(|&point| column[point] = random.below(lift) as i16);
        column
    };
    let drawn = passing_plan(target, order, cols, lift, draw);
    let points = triples.iter().enumerate().flat_map(|(j, triple)| triple.map(|point| (point, j)));
    let built = steiner::plan(order, lift, points.map(|(point, j)| drawn.entries[point * cols + j]).collect());
    assert_eq!(built, drawn);
    built
}

// Plans of random columns. From 14 on they have more rows: two columns in three rows have a cycle of 12 edges whatever their
// voltages.
fn columns(random: &Random) -> Vec<Passing> {
    let mut all = vec![];
    for (target, bound) in BOUNDS {
        let shapes = if target <= 12 { [(3, 4), (4, 5), (6, 8)] } else { [(6, 4), (8, 6), (9, 7)] };
        for (rows, cols) in shapes {
            let plan = passing_column_plan(random, target, rows, cols, bound * random.between(16, 20));
            all.push(Passing { plan, bound, times: 40 });
        }
    }
    all
}

// Steiner plans with any voltages, and with voltages that give larger girths; and those of a source.
fn steiner_plans(random: &Random) -> Vec<Passing> {
    let mut all: Vec<Passing> = steiner::built_plans(random).into_iter().map(|plan| by_girth(plan, 12)).collect();
    let large = [
        [(7, 8, 40), (7, 12, 120), (7, 14, 400), (7, 16, 1200), (7, 18, 4096), (9, 10, 80), (9, 12, 252)],
        [(9, 14, 1500), (9, 16, 4096), (13, 10, 200), (13, 12, 1000), (15, 10, 300), (15, 12, 1800), (19, 10, 500)],
    ];
    for (order, target, lift) in large.concat() {
        all.push(by_girth(passing_steiner_plan(random, target, order, lift), 12));
    }
    all.extend(table_vi::plans().into_iter().map(|(plan, _)| by_girth(plan, 20)));
    all
}

// All codewords of the plan at a divisor of its lift: the largest by which elimination is quick.
fn part_code(plan: &Draft) -> (usize, Solved) {
    let quick = |divisor: &usize| plan.lift % divisor == 0 && plan.cols * divisor <= 5000;
    let divisor = (1..=plan.lift).rev().find(quick).expect("1 is a divisor");
    (divisor, code(&Plan { lift: divisor, ..plan.lent() }))
}

/// A word at a divisor of the lift, repeated in each column: check (i, y) then has the bits of check (i, y mod divisor).
pub fn repeated(plan: &Draft, divisor: usize, word: &[u8]) -> Vec<u8> {
    (0..plan.bits()).map(|bit| word[bit / plan.lift * divisor + bit % plan.lift % divisor]).collect()
}

// Bits near each other, which are likelier to stop a decoder: each is drawn from the neighbourhood of those before it.
fn near_bits(random: &Random, graph: &Graph, n: usize) -> Vec<usize> {
    let mut lost = vec![random.below(graph.checks_of.len())];
    while lost.len() < n {
        let bit = random.choice(&lost);
        let check = random.choice(&graph.checks_of[bit]);
        let next = match random.once_in(8) {
            true => random.below(graph.checks_of.len()),
            false => random.choice(&graph.bits_of[check]),
        };
        if !lost.contains(&next) {
            lost.push(next);
        }
    }
    lost
}

impl Passing {
    /// Any codewords, as many as it is tried with.
    pub fn codewords<'a>(&'a self, random: &'a Random) -> impl Iterator<Item = Vec<u8>> + 'a {
        let (divisor, code) = part_code(&self.plan);
        (0..self.times).map(move |_| repeated(&self.plan, divisor, &code_word(random, &code)))
    }

    /// Codewords, each with as many bits as the bound: any, and some near each other.
    pub fn each_damage(&self, random: &Random, mut each: impl FnMut(&[u8], &[usize])) {
        let graph = graph(&self.plan.lent());
        for word in self.codewords(random) {
            each(&word, &random.distinct(self.bound, self.plan.bits()));
            each(&word, &near_bits(random, &graph, self.bound));
        }
    }
}
