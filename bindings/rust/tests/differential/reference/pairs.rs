//! The trees of the girth test by sorted pairs, counted and not grown, and refusal 26.
use super::graph::Graph;
use super::refused;
use qcldpc::{Plan, Refusal};

/// How many walks of 0 to `edges` edges there are from bit 0 of each column that never step back. A check has one bit for each
/// block of its row, and a bit one check for each block of its column: so where a walk may go on is told by the block that it
/// came over, whatever the voltages. No count goes beyond 128 bits.
pub fn tree_sizes(plan: &Plan, edges: usize) -> Vec<u128> {
    let filled = (0..plan.entries.len()).filter(|&place| plan.entries[place] >= 0);
    let blocks: Vec<(usize, usize)> = filled.map(|place| (place / plan.cols, place % plan.cols)).collect();
    let mut sizes = vec![1; plan.cols];
    // Of walks that came over a block to its check, and to its bit: how many there are with so many edges more.
    let (mut to_check, mut to_bit) = (vec![1; blocks.len()], vec![1; blocks.len()]);
    for _ in 0..edges {
        let (mut of_row, mut of_col) = (vec![0; plan.rows], vec![0; plan.cols]);
        for (block, &(i, j)) in blocks.iter().enumerate() {
            of_row[i] += to_bit[block];
            of_col[j] += to_check[block];
        }
        (0..plan.cols).for_each(|j| sizes[j] += of_col[j]);
        // On over each other block of the row, or of the column.
        for (block, &(i, j)) in blocks.iter().enumerate() {
            (to_check[block], to_bit[block]) = (of_row[i] - to_bit[block], of_col[j] - to_check[block]);
        }
    }
    sizes
}

/// The same for one bit, by every walk in the expanded graph. Nodes are the bits, then the checks.
pub fn walks_from(graph: &Graph, bit: usize, edges: usize) -> u128 {
    let bits = graph.checks_of.len();
    let mut walks = vec![vec![bit]];
    let mut count = 1;
    for _ in 0..edges {
        let on = |walk: &Vec<usize>| {
            let (&last, before) = (walk.last().expect("a node"), walk.iter().rev().nth(1));
            let next: Vec<usize> = match last.checked_sub(bits) {
                None => graph.checks_of[last].iter().map(|check| bits + check).collect(),
                Some(check) => graph.bits_of[check].clone(),
            };
            let next = next.into_iter().filter(|node| Some(node) != before);
            next.map(|node| [&walk[..], &[node]].concat()).collect::<Vec<_>>()
        };
        walks = walks.iter().flat_map(on).collect();
        count += walks.len() as u128;
    }
    count
}

/// What the call answers: whether a plan of this girth passes, or refusals 1 to 6, 14, and 26 where some column's tree has more
/// nodes than there are places.
pub fn answer(plan: &Plan, girth: usize, target: usize, places: usize) -> Result<bool, Refusal> {
    super::girth::refusal(plan, target)?;
    match tree_sizes(plan, target / 2 - 1).iter().any(|&size| size > places as u128) {
        true => Err(refused(26, &[])),
        false => Ok(girth >= target),
    }
}
