//! Filling: the largest stuck set by its definition, the values by linear algebra.
use super::gf2::System;
use super::graph::{graph, Graph};
use super::{refused, word};
use qcldpc::{Fill, Plan, Refusal};

/// The answer, and the word as it is then.
pub fn fill(plan: &Plan, lent: &[u8]) -> (Result<Fill, Refusal>, Vec<u8>) {
    match word::check(plan, lent) {
        Err(refusal) => (Err(refusal), lent.to_vec()),
        Ok(()) => fill_graph(&graph(plan), lent),
    }
}

fn fill_graph(graph: &Graph, lent: &[u8]) -> (Result<Fill, Refusal>, Vec<u8>) {
    let lost: Vec<bool> = lent.iter().map(|&byte| byte == 2).collect();
    let stuck = largest_stuck_set(graph, &lost);
    let unknown: Vec<usize> = (0..lent.len()).filter(|&b| lost[b] && !stuck[b]).collect();
    let mut number = vec![usize::MAX; lent.len()];
    unknown.iter().enumerate().for_each(|(k, &b)| number[b] = k);
    let mut system = System::new(unknown.len());
    for bits in graph.bits_of.iter().filter(|bits| !bits.iter().any(|&b| stuck[b])) {
        let known = bits.iter().filter(|&&b| !lost[b]).map(|&b| lent[b] as usize).sum::<usize>();
        system.add(bits.iter().filter(|&&b| lost[b]).map(|&b| number[b]), known % 2 == 1);
    }
    let Some(solved) = system.solve() else {
        return (Err(refused(20, &[])), lent.to_vec());
    };
    assert!(solved.is_unique(), "the requirement speaks of the only values");
    let mut filled = lent.to_vec();
    unknown.iter().zip(solved.solution(|| false)).for_each(|(&b, value)| filled[b] = value);
    let left = stuck.iter().filter(|&&s| s).count();
    (Ok(Fill { filled: unknown.len(), left }), filled)
}

/// Whether no check touches exactly one bit of a set.
pub fn is_stuck(graph: &Graph, set: &[bool]) -> bool {
    graph.bits_of.iter().all(|bits| bits.iter().filter(|&&b| set[b]).count() != 1)
}

/// U: a bit that some check touches alone is in no stuck set of these bits, so it goes; what is left at the end is one.
pub fn largest_stuck_set(graph: &Graph, lost: &[bool]) -> Vec<bool> {
    let mut set = lost.to_vec();
    loop {
        let alone = |bits: &Vec<usize>| {
            let mut touched = bits.iter().filter(|&&b| set[b]);
            touched.next().filter(|_| touched.next().is_none()).copied()
        };
        let go: Vec<usize> = graph.bits_of.iter().filter_map(alone).collect();
        if go.is_empty() {
            return set;
        }
        go.iter().for_each(|&b| set[b] = false);
    }
}

/// U again, as the union of all stuck sets, by trying every set of the lost bits.
pub fn union_of_stuck_sets(graph: &Graph, lost: &[bool]) -> Vec<bool> {
    let places: Vec<usize> = (0..lost.len()).filter(|&b| lost[b]).collect();
    let mut union = vec![false; lost.len()];
    for choice in 0..1u32 << places.len() {
        let mut set = vec![false; lost.len()];
        places.iter().enumerate().for_each(|(k, &b)| set[b] = choice >> k & 1 == 1);
        if is_stuck(graph, &set) {
            union.iter_mut().zip(&set).for_each(|(u, s)| *u |= s);
        }
    }
    union
}
