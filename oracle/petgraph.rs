//! Stand-in for the parts of petgraph that the published code calls, written from document 01
//! ("Calls into other crates") and not from petgraph's source. Names follow petgraph, so that the
//! published text compiles unchanged against either.

pub mod graph {
    #[derive(Clone, Copy, Debug, PartialEq, Eq, PartialOrd, Ord, Hash)]
    pub struct NodeIndex(usize);

    impl NodeIndex {
        pub fn new(place: usize) -> Self {
            NodeIndex(place)
        }
        pub fn index(self) -> usize {
            self.0
        }
    }

    #[derive(Clone, Copy, Debug, PartialEq, Eq, PartialOrd, Ord, Hash)]
    pub struct EdgeIndex(usize);

    impl EdgeIndex {
        pub fn index(self) -> usize {
            self.0
        }
    }

    /// An edge as seen from one of its ends: `target` is the other end.
    #[derive(Clone, Copy)]
    pub struct EdgeReference<'a, E> {
        pub(super) edge: EdgeIndex,
        pub(super) target: NodeIndex,
        pub(super) weight: &'a E,
    }

    impl<'a, E> EdgeReference<'a, E> {
        pub fn weight(&self) -> &'a E {
            self.weight
        }
    }

    /// Two lists of edges for each node: those it is the first end of, and those it is the second
    /// end of, both in the order they were added.
    #[derive(Clone)]
    pub struct UnGraph<N, E> {
        nodes: Vec<N>,
        edges: Vec<(NodeIndex, NodeIndex, E)>,
        as_first: Vec<Vec<usize>>,
        as_second: Vec<Vec<usize>>,
    }

    impl<N, E> UnGraph<N, E> {
        pub fn new_undirected() -> Self {
            UnGraph { nodes: Vec::new(), edges: Vec::new(), as_first: Vec::new(), as_second: Vec::new() }
        }

        pub fn add_node(&mut self, weight: N) -> NodeIndex {
            self.nodes.push(weight);
            self.as_first.push(Vec::new());
            self.as_second.push(Vec::new());
            NodeIndex(self.nodes.len() - 1)
        }

        pub fn add_edge(&mut self, a: NodeIndex, b: NodeIndex, weight: E) -> EdgeIndex {
            // The planner never joins a node to itself; document 01 gives no order for such an edge.
            assert!(a != b);
            let place = self.edges.len();
            self.edges.push((a, b, weight));
            self.as_first[a.0].push(place);
            self.as_second[b.0].push(place);
            EdgeIndex(place)
        }

        pub fn node_count(&self) -> usize {
            self.nodes.len()
        }

        pub fn edge_count(&self) -> usize {
            self.edges.len()
        }

        pub fn node_indices(&self) -> impl Iterator<Item = NodeIndex> + use<N, E> {
            (0..self.nodes.len()).map(NodeIndex)
        }

        /// Edges added with `n` as first end, newest first, then those with `n` as second end,
        /// newest first.
        pub fn edges(&self, n: NodeIndex) -> impl Iterator<Item = EdgeReference<'_, E>> {
            let first = self.as_first[n.0].iter().rev();
            let second = self.as_second[n.0].iter().rev();
            first.chain(second).map(move |&place| {
                let (a, b, weight) = &self.edges[place];
                let target = if *a == n { *b } else { *a };
                EdgeReference { edge: EdgeIndex(place), target, weight }
            })
        }

        pub fn edge_endpoints(&self, e: EdgeIndex) -> Option<(NodeIndex, NodeIndex)> {
            self.edges.get(e.0).map(|&(a, b, _)| (a, b))
        }

        pub fn find_edge(&self, a: NodeIndex, b: NodeIndex) -> Option<EdgeIndex> {
            self.edges(a).find(|e| e.target == b).map(|e| e.edge)
        }
    }
}

pub mod visit {
    use super::graph::{EdgeIndex, EdgeReference, NodeIndex};

    pub trait EdgeRef {
        fn id(&self) -> EdgeIndex;
        fn target(&self) -> NodeIndex;
    }

    impl<E> EdgeRef for EdgeReference<'_, E> {
        fn id(&self) -> EdgeIndex {
            self.edge
        }
        fn target(&self) -> NodeIndex {
            self.target
        }
    }
}

pub mod algo {
    use super::graph::{EdgeReference, NodeIndex, UnGraph};
    use super::visit::EdgeRef;
    use std::cmp::Reverse;
    use std::collections::{BinaryHeap, HashMap};

    /// Least cost over all ways from the source, weights added from the source on, each sum rounded.
    ///
    /// The goal is not looked at: every node that can be reached gets its final cost. petgraph stops
    /// at the goal, which leaves farther nodes missing or not final; document 01 says that no
    /// retrace uses one, and the runs against the real petgraph try that.
    pub fn dijkstra<N, F>(
        graph: &UnGraph<N, f64>,
        source: NodeIndex,
        _goal: Option<NodeIndex>,
        mut cost_of: F,
    ) -> HashMap<NodeIndex, f64>
    where
        F: FnMut(EdgeReference<'_, f64>) -> f64,
    {
        let mut cost: Vec<Option<f64>> = vec![None; graph.node_count()];
        let mut done = vec![false; graph.node_count()];
        // Costs are never negative, so their bits are ordered as they are.
        let mut open = BinaryHeap::new();
        cost[source.index()] = Some(0.0);
        open.push(Reverse((0f64.to_bits(), source)));
        while let Some(Reverse((bits, node))) = open.pop() {
            if done[node.index()] {
                continue;
            }
            done[node.index()] = true;
            for edge in graph.edges(node) {
                let next = edge.target();
                let sum = f64::from_bits(bits) + cost_of(edge);
                if cost[next.index()].is_none_or(|known| sum < known) {
                    cost[next.index()] = Some(sum);
                    open.push(Reverse((sum.to_bits(), next)));
                }
            }
        }
        graph.node_indices().filter_map(|n| cost[n.index()].map(|c| (n, c))).collect()
    }
}
