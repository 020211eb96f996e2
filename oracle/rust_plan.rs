// The published planner behind document 01's checks. main.rs includes this file in a module for each way of taking
// lengths; the module brings that way in as the trait whose method `nearest_hypot` the published text calls.
//
// published.rs is not ours. oracle/build cuts it out of the published source; it is never committed.

use crate::petgraph::algo::dijkstra;
use crate::petgraph::graph::{NodeIndex, UnGraph};
use crate::petgraph::visit::EdgeRef;
use crate::pairings::Pairings;
use crate::{departure, geo, links, petgraph, reader, Lent};

include!("published.rs");

const MOST_EDGES: usize = 4000;

/// The error by which `apply_matching` stops for refusal 13; any other error is refusal 12.
const TOO_MANY_EDGES: &str = "more than 4,000 edges after a retrace";

/// Called by the published `apply_matching` after each retrace (oracle/build puts the call there), so
/// that 13 is found before the next search runs on a graph that is too large.
fn after_retrace(graph: &UnGraph<(), f64>) -> Result<(), String> {
    if graph.edge_count() > MOST_EDGES { Err(TOO_MANY_EDGES.to_owned()) } else { Ok(()) }
}

pub struct Plan {
    pub retrace: f64,
    pub odd_before: usize,
    pub odd_after: usize,
    pub points: Vec<(f64, f64)>,
    // Not part of the answer: the number of edges before repair, and the repaired graph.
    pub edges_drawn: usize,
    pub graph: UnGraph<(), f64>,
}

/// The plan for a file, or the number of its refusal.
pub fn plan(file: &[u8], lent: Lent) -> Result<Plan, u32> {
    let (drawing, mut graph, node_coords) = checked(file, lent)?;
    let edges_drawn = graph.edge_count();
    let (retrace, odd_before, odd_after) = fix_parity(&mut graph, &node_coords, pairing_of(&drawing), drawing.close)
        .map_err(|error| if error == TOO_MANY_EDGES { 13u32 } else { 12 })?;
    let points = line_of(&drawing, &graph, &node_coords);
    if lent.output_bytes < 6 + 16 * points.len() {
        return Err(14);
    }
    Ok(Plan { retrace, odd_before, odd_after, points, edges_drawn, graph })
}

/// The drawing and its graph, when it has passed the checks that come before the pairs: 1 to 9, 11 and 15.
fn checked(file: &[u8], lent: Lent) -> Result<(reader::Drawing, UnGraph<(), f64>, Vec<geo::Coord<f64>>), u32> {
    let drawing = links::drawing_of(file)?;
    let (graph, node_coords) = graph_of(&drawing);
    if !all_reached_from_first(&graph) {
        return Err(9);
    }
    if drawing.optimal {
        let (floats, bytes) = entries_asked(odd_degree_vertices(&graph).len());
        if lent.f64_entries < floats || lent.byte_entries < bytes {
            return Err(11);
        }
    }
    Ok((drawing, graph, node_coords))
}

/// How many odd nodes a file has, and the pairs that `fix_parity` takes where there are more than two, in the order in which it hands them to
/// `apply_matching`, by the numbers that `build_graph` gives the nodes. The two that are joined to close the line are not among them, and 12 to 14,
/// which come behind the pairs, are not looked for.
pub fn taken(file: &[u8], lent: Lent) -> Result<(usize, Vec<(usize, usize)>), u32> {
    let (drawing, graph, node_coords) = checked(file, lent)?;
    let odd = odd_degree_vertices(&graph);
    let pairs = pairs_of(&drawing, &graph, &odd, &node_coords);
    Ok((odd.len(), pairs.into_iter().map(|(a, b)| (a.index(), b.index())).collect()))
}

/// As in `fix_parity`.
fn pairs_of(drawing: &reader::Drawing, graph: &UnGraph<(), f64>, odd: &[NodeIndex], node_coords: &[geo::Coord<f64>]) -> Vec<(NodeIndex, NodeIndex)> {
    match odd.len() {
        0 | 2 => Vec::new(),
        _ if drawing.optimal => optimal_matching(graph, odd, node_coords).expect("pairs"),
        _ => greedy_euclidean_matching(odd, node_coords),
    }
}

/// The entries of the f64 table and of the byte table that check 11 asks for where Optimal was chosen with n odd nodes. Above
/// 20 they are change request 5's: the floats hold a distance for each two odd nodes, and no byte is used.
pub fn entries_asked(n: usize) -> (usize, usize) {
    if n < 4 {
        (0, 0)
    } else if n <= DP_THRESHOLD {
        ((1 << n) + n * n, 1 << n)
    } else {
        (n * n, 0)
    }
}

/// How many odd nodes a drawing has, 0 where its file is refused.
pub fn odd_count(file: &[u8]) -> usize {
    links::drawing_of(file).map_or(0, |drawing| odd_degree_vertices(&graph_of(&drawing).0).len())
}

/// What `optimal_matching` chooses from where there are more than 20 odd nodes, by the places of the nodes among the odd ones.
pub fn pairings(file: &[u8]) -> Result<Pairings, u32> {
    let drawing = links::drawing_of(file)?;
    let (graph, node_coords) = graph_of(&drawing);
    all_reached_from_first(&graph).then_some(()).ok_or(9u32)?;
    let odd = odd_degree_vertices(&graph);
    let distances = all_pairs_graph_distances(&graph, &odd);
    let places = |pairs: Vec<(NodeIndex, NodeIndex)>| {
        let place = |node| odd.iter().position(|&n| n == node).expect("an odd node");
        pairs.into_iter().map(|(a, b)| (place(a), place(b))).collect::<Vec<_>>()
    };
    let costs = |pairs: &[(NodeIndex, NodeIndex)]| matching_graph_cost(pairs, &odd, &distances);
    let euclidean = greedy_euclidean_matching(&odd, &node_coords);
    let by_graph = greedy_graph_distance_matching(&odd, &distances, &node_coords);
    let costs = [costs(&euclidean), costs(&by_graph)];
    let is_many = odd.len() > DP_THRESHOLD;
    let taken = if is_many { places(optimal_matching(&graph, &odd, &node_coords).expect("pairs")) } else { Vec::new() };
    Ok(Pairings { euclidean: places(euclidean), by_graph: places(by_graph), costs, taken, distances })
}

fn graph_of(drawing: &reader::Drawing) -> (UnGraph<(), f64>, Vec<geo::Coord<f64>>) {
    // Empty lines stay in the list, so that the links' line numbers fit; `build_graph` skips them.
    let lines: Vec<Polyline> = drawing
        .lines
        .iter()
        .map(|line| Polyline::new(line.iter().map(|&(x, y)| Point::new(x, y)).collect()))
        .collect();
    let line_refs: Vec<&Polyline> = lines.iter().collect();
    let links: Vec<MstEdge> = drawing
        .links
        .iter()
        .map(|l| MstEdge {
            poly_a: l.line_a,
            poly_b: l.line_b,
            point_a: geo::Coord { x: l.a.0, y: l.a.1 },
            point_b: geo::Coord { x: l.b.0, y: l.b.1 },
            seg_a: l.segment_a,
            seg_b: l.segment_b,
        })
        .collect();
    build_graph(&line_refs, &links)
}

fn pairing_of(drawing: &reader::Drawing) -> ParityStrategy {
    if drawing.optimal { ParityStrategy::Optimal } else { ParityStrategy::Greedy }
}

fn line_of(drawing: &reader::Drawing, graph: &UnGraph<(), f64>, node_coords: &[geo::Coord<f64>]) -> Vec<(f64, f64)> {
    let dims = Dimensions { width: drawing.width, height: drawing.height };
    let start = if drawing.inside { StartPointStrategy::Inside } else { StartPointStrategy::Outside };
    let path = hierholzer(graph, node_coords, start, dims);
    let line = orient_path(emit_polyline(&path, node_coords), start, dims);
    line.into_points().into_iter().map(|p| (p.x, p.y)).collect()
}

/// When each phase ends, by this clock: reading (the making of links in it), `build_graph`, check 9 and the odd nodes, the pairs, the searches, the
/// retraces, and the line. `fix_parity` is taken apart for it: for each pair the search is made alone first, on the
/// graph without copies, so that the retraces hold a search each too. A refused drawing has fewer phases.
pub fn phase_ends(file: &[u8], now: fn() -> f64) -> Vec<f64> {
    let mut ends = vec![now()];
    let Ok(drawing) = links::drawing_of(file) else {
        return ends;
    };
    ends.push(now());
    let (mut graph, node_coords) = graph_of(&drawing);
    ends.push(now());
    let is_whole = all_reached_from_first(&graph);
    let odd = odd_degree_vertices(&graph);
    ends.push(now());
    if !is_whole {
        return ends;
    }
    let mut pairs = pairs_of(&drawing, &graph, &odd, &node_coords);
    // The two nodes that no pair has, where the line is to be closed: retraced too, but not among the searches.
    let mut last = Vec::new();
    if drawing.close {
        let paired: Vec<NodeIndex> = pairs.iter().flat_map(|&(a, b)| [a, b]).collect();
        let left: Vec<NodeIndex> = odd.iter().copied().filter(|n| !paired.contains(n)).collect();
        last.extend(left.chunks(2).map(|pair| (pair[0], pair[1])));
    }
    ends.push(now());
    for &(from, to) in &pairs {
        std::hint::black_box(dijkstra(&graph, from, Some(to), |e| *e.weight()));
    }
    ends.push(now());
    pairs.extend(last);
    let repaired = apply_matching(&mut graph, &pairs);
    ends.push(now());
    if repaired.is_ok() {
        std::hint::black_box(line_of(&drawing, &graph, &node_coords));
        ends.push(now());
    }
    ends
}

/// Check 9, which the published code has no part for.
fn all_reached_from_first(graph: &UnGraph<(), f64>) -> bool {
    let mut reached = vec![false; graph.node_count()];
    let mut open: Vec<NodeIndex> = graph.node_indices().take(1).collect();
    for node in &open {
        reached[node.index()] = true;
    }
    while let Some(node) = open.pop() {
        for edge in graph.edges(node) {
            let next = edge.target();
            if !reached[next.index()] {
                reached[next.index()] = true;
                open.push(next);
            }
        }
    }
    reached.into_iter().all(|r| r)
}
