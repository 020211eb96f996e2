//! Document 01's departure from the published code ("The departure"): of the closed walk only
//! the step made by the virtual edge is cut, not every step between its two ends. oracle/build puts a
//! call of `walk` in place of the tail of `hierholzer`, unless --as-published is given.

use crate::petgraph::graph::{EdgeIndex, NodeIndex, UnGraph};
use crate::petgraph::visit::EdgeRef;

/// The line from `start` over every edge of `graph`, cut at the virtual edge if there is one.
pub fn walk(graph: &UnGraph<(), f64>, start: NodeIndex, virtual_edge: Option<EdgeIndex>) -> Vec<NodeIndex> {
    let mut used = vec![false; graph.edge_count()];
    // Each node on the stack with the edge it was entered by; the start was entered by none.
    let mut stack: Vec<(NodeIndex, Option<EdgeIndex>)> = vec![(start, None)];
    let mut circuit = Vec::new();
    while let Some(&(current, _)) = stack.last() {
        match graph.edges(current).find(|e| !used[e.id().index()]) {
            Some(edge) => {
                used[edge.id().index()] = true;
                stack.push((edge.target(), Some(edge.id())));
            }
            None => circuit.extend(stack.pop()),
        }
    }
    circuit.reverse();

    // In the circuit, place i + 1 was reached from place i by the edge it carries.
    let cut = virtual_edge.map(|v| circuit.iter().position(|&(_, by)| by == Some(v)).expect("virtual step"));
    let nodes: Vec<NodeIndex> = circuit.into_iter().map(|(node, _)| node).collect();
    match cut {
        None => nodes,
        // The virtual step goes from place p to place p + 1 = after: p + 1 to the last, then 1 to p.
        Some(after) => [&nodes[after..], &nodes[1..after]].concat(),
    }
}
