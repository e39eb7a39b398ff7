//! The girth by breadth-first search in the expanded graph, and what a shown cycle has to be.
use super::graph::Graph;
use super::{plan, refused};
use qcldpc::{Plan, Refusal};
use std::collections::HashSet;

/// Refusals 1 to 6 and 14.
pub fn refusal(plan: &Plan, target: usize) -> Result<(), Refusal> {
    plan::check(plan)?;
    match target {
        6 | 8 | 10 | 12 | 14 | 16 | 18 => Ok(()),
        _ => Err(refused(14, &[])),
    }
}

/// The length of the shortest simple cycle, or 18 where none is shorter than 18. The search starts from the bits with z = 0
/// alone: to add 1 to every y and z, modulo the lift, maps the graph to itself, so that some shortest cycle has such a bit.
pub fn girth(graph: &Graph, lift: usize) -> usize {
    girth_from(graph, (0..graph.checks_of.len()).step_by(lift))
}

/// The same by a search from every bit.
pub fn girth_from_every_bit(graph: &Graph) -> usize {
    girth_from(graph, 0..graph.checks_of.len())
}

fn girth_from(graph: &Graph, starts: impl Iterator<Item = usize>) -> usize {
    let mut search = Search::new(graph);
    for bit in starts {
        search.from(bit);
        if search.least == 4 {
            break;
        }
    }
    search.least
}

// Nodes are the bits, then the checks. A node was met from `start` where `met` says so; the rest is then about that tree.
struct Search<'a> {
    graph: &'a Graph,
    met: Vec<usize>,
    depth: Vec<usize>,
    parent: Vec<usize>,
    least: usize,
}

impl Search<'_> {
    fn new(graph: &Graph) -> Search<'_> {
        let nodes = graph.checks_of.len() + graph.bits_of.len();
        Search { graph, met: vec![usize::MAX; nodes], depth: vec![0; nodes], parent: vec![usize::MAX; nodes], least: 18 }
    }

    // An edge between two nodes of the tree closes a walk that holds a cycle no longer than it; from a bit of a shortest
    // cycle it is that cycle.
    fn from(&mut self, start: usize) {
        let bits = self.graph.checks_of.len();
        self.meet(start, start, 0, usize::MAX);
        let mut queue = vec![start];
        let mut first = 0;
        while first < queue.len() {
            let node = queue[first];
            first += 1;
            if 2 * self.depth[node] + 2 >= self.least {
                break;
            }
            let is_bit = node < bits;
            let next = if is_bit { &self.graph.checks_of[node] } else { &self.graph.bits_of[node - bits] };
            for &n in next {
                let n = if is_bit { n + bits } else { n };
                if n == self.parent[node] {
                    continue;
                }
                if self.met[n] == start {
                    self.least = self.least.min(self.depth[node] + self.depth[n] + 1);
                } else {
                    self.meet(start, n, self.depth[node] + 1, node);
                    queue.push(n);
                }
            }
        }
    }

    fn meet(&mut self, start: usize, node: usize, depth: usize, parent: usize) {
        self.met[node] = start;
        self.depth[node] = depth;
        self.parent[node] = parent;
    }
}

/// What is wrong with a shown cycle, if anything: it is to be a simple cycle of as many edges as the girth.
pub fn fault(graph: &Graph, girth: usize, checks: &[usize], bits: &[usize]) -> Option<String> {
    let n = checks.len();
    let distinct = |list: &[usize]| list.iter().collect::<HashSet<_>>().len() == list.len();
    if 2 * n != girth || bits.len() != n {
        return Some(format!("it has {n} checks and {} bits", bits.len()));
    }
    if !distinct(checks) || !distinct(bits) {
        return Some("a check or a bit comes twice".into());
    }
    (0..n).find_map(|k| match (graph.joins(checks[k], bits[k]), graph.joins(checks[(k + 1) % n], bits[k])) {
        (true, true) => None,
        _ => Some(format!("bit {k} is not joined to both its checks")),
    })
}
