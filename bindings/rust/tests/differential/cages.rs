//! Plans of the smallest cubic graphs of their girth (cages), with a bit for each vertex and a check for each edge: their girth
//! is twice the graph's, each column has three filled blocks, and all bits together are stuck.
use crate::inputs::Draft;

// A cubic graph whose vertices stand around a circle: vertex k joins k + 1, and the one that is a jump further on.
fn circle(vertices: usize, jumps: &[usize]) -> Vec<[usize; 2]> {
    let around = (0..vertices).map(|k| [k, (k + 1) % vertices]);
    let across = (0..vertices).map(|k| [k, (k + jumps[k % jumps.len()]) % vertices]);
    around.chain(across.filter(|[from, to]| from < to)).collect()
}

// Petersen's graph: five vertices around, five within that join the next but one, and a spoke to each.
fn petersen() -> Vec<[usize; 2]> {
    (0..5).flat_map(|k| [[k, (k + 1) % 5], [5 + k, 5 + (k + 2) % 5], [k, 5 + k]]).collect()
}

fn plan(vertices: usize, edges: &[[usize; 2]]) -> Draft {
    let block = |edge: &[usize; 2], vertex: usize| if edge.contains(&vertex) { 0 } else { -1 };
    let entries = edges.iter().flat_map(|edge| (0..vertices).map(move |vertex| block(edge, vertex))).collect();
    Draft { entries, rows: edges.len(), cols: vertices, lift: 1 }
}

/// The plans, by girth 6, 8, 10, 12, 14 and 16.
pub fn plans() -> [Draft; 6] {
    [
        plan(4, &circle(4, &[2])),
        plan(6, &circle(6, &[3])),
        plan(10, &petersen()),
        plan(14, &circle(14, &[5, 9])),
        plan(24, &circle(24, &[12, 7, 17])),
        plan(30, &circle(30, &[17, 21, 7, 23, 9, 13])),
    ]
}
