#!/usr/bin/env python3
"""Shows that the list of answers tells the oracle from versions of it that are nearly right.

usage: oracle/variants.py SOURCE OUT [--only TEXT] [--generated SEED COUNT]

SOURCE is the published source, as oracle/build takes it; OUT a folder to write to. Builds the oracle, makes each edit
of VERSIONS in its text, and runs the version that results on oracle/answers.txt (or on COUNT generated drawings of
each kind). Prints how many answers differ and the first of them; fails if a version gives every answer of the list.
"""
import argparse
import pathlib
import random
import re
import shutil
import subprocess
import sys

import answers
import drawing as d
from generate import KINDS

HERE = pathlib.Path(__file__).resolve().parent

# Blocks of reader.rs and rust_plan.rs that versions exchange or move.
KINDS_CHECKED = """    if !kinds_in_order || !kinds_known || settings_count != 1 {
        return Err(3);
    }
"""
LENGTHS_CHECKED = """    if !records.iter().all(right_length) {
        return Err(4);
    }
"""
SETTINGS_CHECKED = """    if width > 8192 || height > 8192 || pairing > 1 || flags > 7 {
        return Err(5);
    }
"""
COUNTS_CHECKED = """    if line_bodies.len() > 256 || points_in_all > 1024 || link_bodies.len() > 255 {
        return Err(6);
    }
"""
OWN_LINKS_CHECKED = """    if link && !link_bodies.is_empty() {
        return Err(15);
    }
"""
GRID_CHECKED = """    if !lines.iter().flatten().copied().chain(ends).all(|(x, y)| on_grid(x) && on_grid(y)) {
        return Err(7);
    }
"""
LINKS_CHECKED = """    if !links.iter().all(|l| names_segment(l.line_a, l.segment_a) && names_segment(l.line_b, l.segment_b)) {
        return Err(8);
    }
"""
ALL_REACHED = """    if !all_reached_from_first(&graph) {
        return Err(9);
    }
"""
SHORT_TABLES = """    if drawing.optimal {
        let (floats, bytes) = entries_asked(odd_degree_vertices(&graph).len());
        if lent.f64_entries < floats || lent.byte_entries < bytes {
            return Err(11);
        }
    }
"""
# The same when the graph is repaired.
SHORT_TABLES_LATER = SHORT_TABLES.replace("odd_degree_vertices(&graph).len()", "odd_before")
MANY_REFUSED = """    if drawing.optimal && odd_degree_vertices(&graph).len() > DP_THRESHOLD {
        return Err(10);
    }
"""
LINE_MADE = "    let points = line_of("
ACCEPTED = "    Ok(Plan { retrace,"
# Above 20 odd nodes: what check 11 asks, the choice, the cost of a pair, and the costs of both pairings.
ASKED_MANY = "(n * n, 0)"
CHOSEN = "euclidean_cost <= graph_dist_cost"
PAIR_COST = "dist_matrix[ia][ib]"
COSTED = "matching_graph_cost(&{}_pairs, odd, &dist_matrix)"
STRAIGHT = """{}_pairs.iter().map(|&(a, b)| {{
            let (p, q) = (node_coords[a.index()], node_coords[b.index()]);
            (p.x - q.x).nearest_hypot(p.y - q.y)
        }}).sum::<f64>()"""
WORKING_PAIR = "pairs.push((odd[indices[best_ii]], odd[indices[best_jj]]));"
CANDIDATES = "let mut rest = mask & !(1 << i);"
BY_VIRTUAL = "circuit.iter().position(|&(_, by)| by == Some(v))"
BY_ENDS = """|&(_, by)| by.is_some_and(|e| {
    let ((a, b), (c, d)) = (graph.edge_endpoints(e).unwrap(), graph.edge_endpoints(v).unwrap());
    (a, b) == (c, d) || (a, b) == (d, c)
})"""
CUT = "[&nodes[after..], &nodes[1..after]].concat()"
# A coordinate with its sign, for versions that do not clean all of them.
RAW = "fn raw(bytes: &[u8], at: usize) -> f64 {\n    f64::from_le_bytes(bytes[at..at + 8].try_into().unwrap())\n}\n\n"
RAW_POINT = "(raw(p, 0), raw(p, 8))"
FIRST_END, SECOND_END = "a: point_at(b, 8),", "b: point_at(b, 24),"
CLEANED = "if read == 0.0 && !cfg!(as_signed) { 0.0 } else { read }"
MINUS_ZERO = "[0, 0, 0, 0, 0, 0, 0, 0x80]"
# Where edges are counted, and where one from a node to itself is passed over. Between two split points of a segment there can't be one.
COUNTED = "graph.edges(n).count()"
DRAWN_APART, LAST_APART, LINKED_APART = "na != nb && dist > 1e-12", "n_prev != n_end && dist > 1e-12", "if na != nb {"
SECOND_KEPT = "            self.as_second[b.0].push(place);\n"


def tolerance(by):
    return "fn shortest_path(", ("< 1e-10", by)


def limit(old, new):
    return "reader.rs", (old, new)


def rank(old, new):
    return "links.rs", (old, new)


def joined_before(condition):
    """Lines a and b that meet the condition need no link."""
    merged = f"""    for b in 0..lines.len() {{
        for a in 0..b {{
            if {condition} {{
                let (one, other) = (group[a], group[b]);
                group.iter_mut().filter(|g| **g == other).for_each(|g| *g = one);
            }}
        }}
    }}
"""
    return "links.rs", ("    let mut kept = Vec::new();", merged + "    let mut kept = Vec::new();")


def zero_read(by):
    """Minus zero is read as something else."""
    return "reader.rs", (CLEANED, f"if read.to_bits() == 1 << 63 {{ {by} }} else {{ read }}")


def zero_refused(bodies):
    """Minus zero is refused in these bodies, which hold coordinates alone."""
    check = f"    if {bodies}.any(|b| b.chunks(8).any(|c| c == {MINUS_ZERO})) {{\n        return Err(7);\n    }}\n"
    return "reader.rs", (GRID_CHECKED, check + GRID_CHECKED)


def zero_kept(*pairs):
    return "reader.rs", ("fn point_at(bytes", RAW + "fn point_at(bytes"), *pairs


def zero_kept_in_lines(condition):
    """In point k of the points of a line's body b where the condition holds."""
    return zero_kept(("b.chunks(16).map(|p| point_at(p, 0))",
                      f"b.chunks(16).enumerate().map(|(k, p)| if {condition} {{ {RAW_POINT} }} else {{ point_at(p, 0) }})"))


def stops_at(where, most):
    """A count that rises no further. One that wraps round at 256 keeps its parity, and is seen only where it is asked whether a node has edges."""
    return where, (COUNTED, f"{COUNTED}.min({most})")


def one_sided(where, ends):
    """Edges counted at their first ends alone, or at their second ends."""
    return [("petgraph.rs", ("        pub fn find_edge(", f"        pub fn one_sided(&self, n: NodeIndex) -> usize {{\n            self.{ends}[n.0].len()\n        }}\n\n"
                             "        pub fn find_edge(")), (where, (COUNTED, "graph.one_sided(n)"))]


def with_loops(apart, by, counted_once):
    """Edges from a node to itself are let in at one place of the published text. The stand-in for petgraph gives them twice at their node, petgraph once."""
    once = [(SECOND_KEPT, "            if a != b {\n    " + SECOND_KEPT + "            }\n")] if counted_once else []
    return [("petgraph.rs", ("            assert!(a != b);\n", ""), *once), ("fn build_graph(", (apart, by))]


def marked(by, more=""):
    """The mark of edge e is another one's too. `last` is the highest number, the virtual edge's if there is one; `ends` are each edge's nodes."""
    return "departure.rs", ("    // Each node on the stack", f"""    let last = used.len().wrapping_sub(1);
    let mut ends = vec![Vec::new(); used.len()];
    for node in graph.node_indices() {{
        graph.edges(node).for_each(|e| ends[e.id().index()].push(node));
    }}
    let mark = |e: usize| {by};
    // Each node on the stack"""), (
        "!used[e.id().index()]", "!used[mark(e.id().index())]"), ("used[edge.id().index()] = true;", f"used[mark(edge.id().index())] = true;{more}")


def virtual_marked(condition, by):
    """The virtual edge's mark is another one's too."""
    return marked(f"if virtual_edge.is_some() && e == last && {condition} {{ {by} }} else {{ e }}")


def marks_short(count):
    """There are so few marks; behind them every edge is taken for used."""
    return "departure.rs", ("vec![false; graph.edge_count()];", f"""vec![false; graph.edge_count()];
    let (all, real) = (used.len(), used.len() - usize::from(virtual_edge.is_some()));
    used.iter_mut().skip({count}).for_each(|u| *u = true);""")


def marked_too(more):
    """With edge e others are marked or freed. A walk that has no end stops."""
    return marked("e", f"\n                let e = edge.id().index();\n                {more}\n                assert!(stack.len() + circuit.len() < 9000);")


def chosen(by):
    """Which pairs are kept above 20 odd nodes."""
    return "fn optimal_matching(", (CHOSEN, by)


def pair_cost(by):
    return "fn matching_graph_cost(", (PAIR_COST, by)


def summed(by):
    """The cost by another sum; `costs` are those of the pairs in their order."""
    return "fn matching_graph_cost(", ("    pairs\n", "    let costs: Vec<f64> = pairs\n"), (".sum()", f".collect();\n    {by}")


def working(old, new):
    """The pairs by graph distance."""
    return "fn greedy_graph_distance_matching(", (old, new)


def between(by):
    """The distance that the working list's nodes i and j are compared by."""
    return working("dist_matrix[i][j]", by)


def asked_many(by):
    return "rust_plan.rs", (ASKED_MANY, by)


def distances(by):
    """All distances, changed when they are there."""
    return "fn all_pairs_graph_distances(", ("\n    dist", f"\n    for i in 0..n {{\n        for j in 0..i {{\n            {by}\n        }}\n    }}\n    dist")


def paired_few(*pairs):
    """The table for 4 to 20 odd nodes. A walk back through it that has no end stops."""
    return "fn dp_bitmask_matching(", *pairs, ("    while mask != 0 {", "    while mask != 0 {\n        assert!(pairs.len() < 10);")


def candidates_few(by):
    """The nodes that the lowest one of a set may be paired with, changed where there are several: `rest` has a bit for each."""
    return paired_few((CANDIDATES, f"{CANDIDATES}\n        if rest & (rest - 1) != 0 {{\n            {by}\n        }}"))


def left_out(first, second):
    """Which two nodes are tried to be left out, a below b."""
    return paired_few(("for a in 0..n {", f"for a in {first} {{"), ("for b in (a + 1)..n {", f"for b in {second} {{"))


def by_rule(cost):
    """Up to 10 odd nodes another choice is taken where it costs less than the right one by a rule that is nearly right: an expression of `pairs`, which are places
    among the odd nodes with rising lower nodes, and of `d`, the distances."""
    return "fn optimal_matching(", ("dp_bitmask_matching(odd, &dist_matrix)", f"""{{
            type Pairs = Vec<(usize, usize)>;
            fn choices(nodes: &[usize], left_out: usize, so_far: &mut Pairs, all: &mut Vec<Pairs>) {{
                let Some((&first, rest)) = nodes.split_first() else {{
                    all.extend((left_out == 0).then(|| so_far.clone()));
                    return;
                }};
                if left_out > 0 {{
                    choices(rest, left_out - 1, so_far, all);
                }}
                for &other in rest {{
                    so_far.push((first, other));
                    choices(&rest.iter().copied().filter(|&n| n != other).collect::<Vec<_>>(), left_out, so_far, all);
                    so_far.pop();
                }}
            }}
            let right = dp_bitmask_matching(odd, &dist_matrix)?;
            let mut all = Vec::new();
            if n <= 10 {{
                choices(&(0..n).collect::<Vec<_>>(), 2, &mut Vec::new(), &mut all);
            }}
            let place = |node| odd.iter().position(|&n| n == node).unwrap();
            let mut taken: Pairs = right.into_iter().map(|(a, b)| (place(a), place(b))).collect();
            let d = &dist_matrix;
            let straight = |a: usize, b: usize| {{
                let (p, q) = (node_coords[odd[a].index()], node_coords[odd[b].index()]);
                (p.x - q.x).nearest_hypot(p.y - q.y)
            }};
            let cost = |pairs: &Pairs| {{ {cost} }};
            for other in all {{
                if cost(&other) < cost(&taken) {{
                    taken = other;
                }}
            }}
            Ok(taken.into_iter().map(|(a, b)| (odd[a], odd[b])).collect())
        }}""")


def falling(pair, start="0.0"):
    """The request's sum with another cost of a pair or another start."""
    return by_rule(f"pairs.iter().rev().fold({start}, |sum, &(a, b)| sum + {pair})")


def sorted_costs(by):
    return by_rule(f"let mut costs: Vec<f64> = pairs.iter().map(|&(a, b)| d[a][b]).collect();\n costs.sort_by(f64::total_cmp);\n {by}")


def side(name, by):
    return "fn image_center(", (f"f64::from(dims.{name}) / 2.0", by)


# One edit, or a list of some. Where each edit is made, one of our files or an item of the published text by its first words, and pairs of old and new
# text. An old text stands once in the file; in an item every place is changed.
VERSIONS = {
    "check 1: 65,535 bytes at most": limit("> 65_536", "> 65_535"),
    "check 1: 65,537 bytes at most": limit("> 65_536", "> 65_537"),
    "check 5: width 8,191 at most": limit("width > 8192", "width > 8191"),
    "check 5: width 8,193 at most": limit("width > 8192", "width > 8193"),
    "check 5: height 8,191 at most": limit("height > 8192", "height > 8191"),
    "check 5: height 8,193 at most": limit("height > 8192", "height > 8193"),
    "check 5: pairing 2": limit("pairing > 1", "pairing > 2"),
    "check 5: flags 8": limit("flags > 7", "flags > 8"),
    "check 5: flags 3 at most": limit("flags > 7", "flags > 3"),
    "check 5: flags 4 at most": limit("flags > 7", "flags > 4"),
    "check 5: flags 6 at most": limit("flags > 7", "flags > 6"),
    "check 6: 255 lines at most": limit("line_bodies.len() > 256", "line_bodies.len() > 255"),
    "check 6: 257 lines at most": limit("line_bodies.len() > 256", "line_bodies.len() > 257"),
    "check 6: 255 lines with points at most": limit(
        "line_bodies.len() > 256", "line_bodies.len() > 256 || line_bodies.iter().filter(|b| !b.is_empty()).count() > 255"),
    "check 6: empty lines not counted": limit(
        "line_bodies.len() > 256", "line_bodies.iter().filter(|b| !b.is_empty()).count() > 256"),
    "check 6: lines with points not counted": limit(
        "line_bodies.len() > 256", "line_bodies.iter().filter(|b| b.is_empty()).count() > 256"),
    "check 6: 1,023 points at most": limit("points_in_all > 1024", "points_in_all > 1023"),
    "check 6: 1,025 points at most": limit("points_in_all > 1024", "points_in_all > 1025"),
    "check 6: 1,024 points in each line": limit("points_in_all > 1024", "line_bodies.iter().any(|b| b.len() / 16 > 1024)"),
    "check 6: points of links counted": limit("points_in_all > 1024", "points_in_all + 2 * link_bodies.len() > 1024"),
    "check 6: 254 links at most": limit("link_bodies.len() > 255", "link_bodies.len() > 254"),
    "check 6: 256 links at most": limit("link_bodies.len() > 255", "link_bodies.len() > 256"),
    "check 8: an empty line may be named": limit("!l.is_empty() && ", ""),
    "check 8: the segment behind the last": limit("l.len().saturating_sub(2)", "l.len().saturating_sub(1)"),
    "2 before 1": ("reader.rs", ("""    if file.len() > 65_536 {
        return Err(1);
    }
""", ""), ("    let kinds_in_order", "    if file.len() > 65_536 {\n        return Err(1);\n    }\n    let kinds_in_order")),
    # The records before the one that is cut, judged by check 3.
    "3 before 2": ("reader.rs", ("    let mut rest = file;", "    let mut rest = file;\n    let mut cut = false;"),
                   ("        if rest.len() < 6 {\n            return Err(2);", "        if rest.len() < 6 {\n            cut = true;\n            break;"),
                   ("        if length > rest.len() {\n            return Err(2);",
                    "        if length > rest.len() {\n            records.push(Record { kind, body: rest });\n            cut = true;\n            break;"),
                   (KINDS_CHECKED, KINDS_CHECKED + "    if cut {\n        return Err(2);\n    }\n")),
    "4 before 3": ("reader.rs", (KINDS_CHECKED, ""), (LENGTHS_CHECKED, LENGTHS_CHECKED + KINDS_CHECKED)),
    "4 before 3, other kinds having no length": (
        "reader.rs", (KINDS_CHECKED, ""), (LENGTHS_CHECKED, LENGTHS_CHECKED + KINDS_CHECKED),
        ("        _ => r.body.len() == 40,", "        3 => r.body.len() == 40,\n        _ => true,")),
    # Settings too short to be read are left to check 4.
    "5 before 4": ("reader.rs", (LENGTHS_CHECKED, "    if records[0].body.len() < 10 {\n        return Err(4);\n    }\n"),
                   (SETTINGS_CHECKED, SETTINGS_CHECKED + LENGTHS_CHECKED)),
    "6 before 5": ("reader.rs", (SETTINGS_CHECKED, ""), (COUNTS_CHECKED, COUNTS_CHECKED + SETTINGS_CHECKED)),
    "15 before 5": ("reader.rs", (OWN_LINKS_CHECKED, ""), (
        SETTINGS_CHECKED, "    if link && records.iter().any(|r| r.kind == 3) {\n        return Err(15);\n    }\n" + SETTINGS_CHECKED)),
    "15 before 6": ("reader.rs", (OWN_LINKS_CHECKED, ""), (COUNTS_CHECKED, OWN_LINKS_CHECKED + COUNTS_CHECKED)),
    "15 before 6, where lines or points are too many": (
        "reader.rs", (COUNTS_CHECKED, "    if link_bodies.len() > 255 {\n        return Err(6);\n    }\n"),
        (OWN_LINKS_CHECKED, OWN_LINKS_CHECKED + COUNTS_CHECKED)),
    "15 behind 7": ("reader.rs", (OWN_LINKS_CHECKED, ""), (GRID_CHECKED, GRID_CHECKED + OWN_LINKS_CHECKED)),
    # The links' coordinates alone, or the lines' alone, before 15.
    "15 behind 7 of the links": ("reader.rs", (OWN_LINKS_CHECKED, ""), (
        GRID_CHECKED, "    if !ends.clone().all(|(x, y)| on_grid(x) && on_grid(y)) {\n        return Err(7);\n    }\n" + OWN_LINKS_CHECKED + GRID_CHECKED)),
    "15 behind 7 of the lines": ("reader.rs", (OWN_LINKS_CHECKED, ""), (
        GRID_CHECKED, "    if !lines.iter().flatten().all(|&(x, y)| on_grid(x) && on_grid(y)) {\n        return Err(7);\n    }\n" + OWN_LINKS_CHECKED + GRID_CHECKED)),
    "15 behind 8": ("reader.rs", (OWN_LINKS_CHECKED, ""), (LINKS_CHECKED, LINKS_CHECKED + OWN_LINKS_CHECKED)),
    "15 never": ("reader.rs", (OWN_LINKS_CHECKED, "")),
    "15 without the flag": ("reader.rs", ("    if link && !link_bodies", "    if !link_bodies")),
    "15 without a link": ("reader.rs", ("    if link && !link_bodies.is_empty()", "    if link")),
    "15 from two links on": ("reader.rs", ("    if link && !link_bodies.is_empty()", "    if link && link_bodies.len() > 1")),
    "7 before 6": ("reader.rs", (COUNTS_CHECKED, ""), (GRID_CHECKED, GRID_CHECKED + COUNTS_CHECKED)),
    "8 before 7": ("reader.rs", (GRID_CHECKED, ""), (LINKS_CHECKED, LINKS_CHECKED + GRID_CHECKED)),
    "10 still given": ("rust_plan.rs", (SHORT_TABLES, MANY_REFUSED + SHORT_TABLES)),
    "10 still given, behind 11": ("rust_plan.rs", (SHORT_TABLES, SHORT_TABLES + MANY_REFUSED)),
    "11 before 9": ("rust_plan.rs", (SHORT_TABLES, ""), (ALL_REACHED, SHORT_TABLES + ALL_REACHED)),
    "13 before 11": ("rust_plan.rs", (SHORT_TABLES, ""), (LINE_MADE, SHORT_TABLES_LATER + LINE_MADE)),
    "14 before 11": ("rust_plan.rs", (SHORT_TABLES, ""), (ACCEPTED, SHORT_TABLES_LATER + ACCEPTED)),
    "check 11: 2^n + 4 n entries": ("rust_plan.rs", ("(1 << n) + n * n", "(1 << n) + 4 * n")),
    "check 11: 2^n + n^2 - 1 entries": ("rust_plan.rs", ("(1 << n) + n * n", "(1 << n) + n * n - 1")),
    "check 11: 2^n - 1 bytes": ("rust_plan.rs", ("n * n, 1 << n)", "n * n, (1 << n) - 1)")),
    "check 11: tables for 2 odd nodes": ("rust_plan.rs", ("n < 4 {", "n < 2 {")),
    "check 11: tables for no odd node": ("rust_plan.rs", ("n < 4 {", "false {")),
    "check 11: no tables for 4 odd nodes": ("rust_plan.rs", ("n < 4 {", "n <= 4 {")),
    "check 11: n^2 + 1 entries above 20": asked_many("(n * n + 1, 0)"),
    "check 11: n^2 - 1 entries above 20": asked_many("(n * n - 1, 0)"),
    "check 11: n (n - 1) entries above 20": asked_many("(n * (n - 1), 0)"),
    "check 11: n (n - 1) / 2 entries above 20": asked_many("(n * (n - 1) / 2, 0)"),
    "check 11: 2^n + n^2 entries above 20": asked_many("((1 << n.min(40)) + n * n, 0)"),
    "check 11: 2^n + n^2 entries and 2^n bytes above 20": asked_many("((1 << n.min(40)) + n * n, 1 << n.min(40))"),
    "check 11: tables for 20 odd nodes above 20": asked_many("((1 << 20) + 400, 1 << 20)"),
    "check 11: no tables above 20": asked_many("(0, 0)"),
    "check 11: a byte above 20": asked_many("(n * n, 1)"),
    "check 11: n bytes above 20": asked_many("(n * n, n)"),
    "check 11: n^2 bytes above 20": asked_many("(n * n, n * n)"),
    "check 11: n^2 entries from 20 on": ("rust_plan.rs", ("n <= DP_THRESHOLD {", "n < DP_THRESHOLD {")),
    "check 11: n^2 entries from 24 on": ("rust_plan.rs", ("n <= DP_THRESHOLD {", "n <= 22 {")),
    # An odd number of odd nodes can't be, so that 21 is no other threshold.
    "many odd: from 20 on": ("const DP_THRESHOLD:", ("usize = 20", "usize = 19")),
    "many odd: from 24 on": ("const DP_THRESHOLD:", ("usize = 20", "usize = 22")),
    "many odd: 20 paired as many, tables as before": ("fn optimal_matching(", ("n <= DP_THRESHOLD", "n < DP_THRESHOLD")),
    "many odd: 22 paired as few, tables as for many": ("fn optimal_matching(", ("n <= DP_THRESHOLD", "n <= 22")),
    "choice: the graph's pairs on a tie": chosen("euclidean_cost < graph_dist_cost"),
    "choice: the dearer": chosen("euclidean_cost >= graph_dist_cost"),
    "choice: the Euclidean pairs always": chosen("true"),
    "choice: the graph's pairs always": chosen("false"),
    "choice: the Euclidean pairs where the costs are 1e-10 apart": chosen("euclidean_cost <= graph_dist_cost + 1e-10"),
    "choice: the graph's pairs where the costs are 1e-10 apart": chosen("euclidean_cost <= graph_dist_cost - 1e-10"),
    "choice: by costs in 32 bits": chosen("euclidean_cost as f32 <= graph_dist_cost as f32"),
    "choice: by costs in whole pixels": chosen("euclidean_cost.round() <= graph_dist_cost.round()"),
    "choice: by the costs of all pairs but the last": ("fn optimal_matching(", *[
        (COSTED.format(which), COSTED.format(which).replace("_pairs", f"_pairs[..{which}_pairs.len() - 1]")) for which in ("euclidean", "graph_dist")]),
    "choice: the Euclidean cost by straight distance": ("fn optimal_matching(", (COSTED.format("euclidean"), STRAIGHT.format("euclidean"))),
    "choice: both costs by straight distance": ("fn optimal_matching(", *[
        (COSTED.format(which), STRAIGHT.format(which)) for which in ("euclidean", "graph_dist")]),
    "choice: the graph's pairs, from the last to the first": ("fn optimal_matching(", (
        "            graph_dist_pairs\n", "            graph_dist_pairs.into_iter().rev().collect()\n")),
    "choice: the graph's pairs, turned round": ("fn optimal_matching(", (
        "            graph_dist_pairs\n", "            graph_dist_pairs.into_iter().map(|(a, b)| (b, a)).collect()\n")),
    "choice: the Euclidean pairs, from the last to the first": ("fn optimal_matching(", (
        "            euclidean_pairs\n", "            euclidean_pairs.into_iter().rev().collect()\n")),
    "choice: the Euclidean pairs, turned round": ("fn optimal_matching(", (
        "            euclidean_pairs\n", "            euclidean_pairs.into_iter().map(|(a, b)| (b, a)).collect()\n")),
    "choice: the Euclidean pairs, the lower node first": ("fn optimal_matching(", (
        "            euclidean_pairs\n", "            euclidean_pairs.into_iter().map(|(a, b)| (a.min(b), a.max(b))).collect()\n")),
    "cost: from the last pair on": summed("costs.iter().rev().sum()"),
    "cost: from the smallest on": summed("let mut costs = costs;\n    costs.sort_by(f64::total_cmp);\n    costs.iter().sum()"),
    "cost: from the largest on": summed("let mut costs = costs;\n    costs.sort_by(f64::total_cmp);\n    costs.iter().rev().sum()"),
    "cost: by halves": summed("let (one, other) = costs.split_at(costs.len() / 2);\n    one.iter().sum::<f64>() + other.iter().sum::<f64>()"),
    "cost: what is lost in a sum is added at the end": summed("""let (mut sum, mut lost) = (0.0f64, 0.0);
    for cost in costs {
        let next = sum + cost;
        lost += if sum.abs() >= cost.abs() { (sum - next) + cost } else { (cost - next) + sum };
        sum = next;
    }
    sum + lost"""),
    "cost: the longest pair alone": summed("costs.into_iter().fold(0.0, f64::max)"),
    "cost: the two that are left too": summed("""let left: Vec<usize> = (0..odd.len()).filter(|&k| !pairs.iter().any(|&(a, b)| a == odd[k] || b == odd[k])).collect();
    costs.iter().sum::<f64>() + dist_matrix[left[0]][left[1]]"""),
    "cost: squares": pair_cost("dist_matrix[ia][ib] * dist_matrix[ia][ib]"),
    "cost: from the second node": pair_cost("dist_matrix[ib][ia]"),
    "cost: from the lower node": pair_cost("dist_matrix[ia.min(ib)][ia.max(ib)]"),
    "cost: from the higher node": pair_cost("dist_matrix[ia.max(ib)][ia.min(ib)]"),
    "cost: the smaller of both ways": pair_cost("dist_matrix[ia][ib].min(dist_matrix[ib][ia])"),
    "cost: the larger of both ways": pair_cost("dist_matrix[ia][ib].max(dist_matrix[ib][ia])"),
    "working list: the last of the nearest": working("d < best_dist", "d <= best_dist"),
    "working list: remove for swap_remove": working(".swap_remove(", ".remove("),
    "working list: the lower place removed first": working("if best_ii > best_jj", "if best_jj + 1 < indices.len()"),
    "working list: from the second node": between("dist_matrix[j][i]"),
    "working list: from the lower node": between("dist_matrix[i.min(j)][i.max(j)]"),
    "working list: from the higher node": between("dist_matrix[i.max(j)][i.min(j)]"),
    "working list: the smaller of both ways": between("dist_matrix[i][j].min(dist_matrix[j][i])"),
    "working list: the larger of both ways": between("dist_matrix[i][j].max(dist_matrix[j][i])"),
    "working list: in whole pixels": between("dist_matrix[i][j].round()"),
    "working list: in 32 bits": between("f64::from(dist_matrix[i][j] as f32)"),
    "working list: all are paired": working("indices.len() > 2", "indices.len() > 1"),
    "working list: four are left": working("indices.len() > 2", "indices.len() > 4"),
    "working list: a pair with its lower node first": working(WORKING_PAIR, """{
            let (a, b) = (indices[best_ii], indices[best_jj]);
            pairs.push((odd[a.min(b)], odd[a.max(b)]));
        }"""),
    "working list: a pair with its second node first": working(WORKING_PAIR, "pairs.push((odd[indices[best_jj]], odd[indices[best_ii]]));"),
    "working list: the nearest of the first, by turns": working("for (ii, &i) in indices.iter().enumerate() {", "for (ii, &i) in indices.iter().enumerate().take(1) {"),
    "working list: falling, not rising": ("fn greedy_graph_distance_matching(", ("d < best_dist", "-d < best_dist"), ("best_dist = d", "best_dist = -d")),
    "distances: from lower nodes alone": distances("dist[i][j] = dist[j][i];"),
    "distances: from higher nodes alone": distances("dist[j][i] = dist[i][j];"),
    "distances: the smaller of both ways": distances("let least = dist[i][j].min(dist[j][i]);\n            (dist[i][j], dist[j][i]) = (least, least);"),
    "check 13: 3,999 edges at most": ("rust_plan.rs", ("MOST_EDGES: usize = 4000", "MOST_EDGES: usize = 3999")),
    "check 13: 4,001 edges at most": ("rust_plan.rs", ("MOST_EDGES: usize = 4000", "MOST_EDGES: usize = 4001")),
    "check 14: a byte more": ("rust_plan.rs", ("lent.output_bytes < 6", "lent.output_bytes <= 6")),
    "check 14: a byte less": ("rust_plan.rs", ("lent.output_bytes < 6", "lent.output_bytes + 1 < 6")),
    "tolerance: equality": tolerance("== 0.0"),
    "tolerance: 1e-20": tolerance("< 1e-20"),
    "tolerance: 1e-11": tolerance("< 1e-11"),
    "tolerance: 1 / 11^10": tolerance("< 1.0 / 25_937_424_601.0"),
    "tolerance: 0.98e-10": tolerance("< 0.98e-10"),
    "tolerance: 1.02e-10": tolerance("< 1.02e-10"),
    "tolerance: 1e-9": tolerance("< 1e-9"),
    "centre: width rounded down": side("width", "f64::from(dims.width / 2)"),
    "centre: height rounded down": side("height", "f64::from(dims.height / 2)"),
    "centre: width rounded up": side("width", "f64::from(dims.width.div_ceil(2))"),
    "centre: height rounded up": side("height", "f64::from(dims.height.div_ceil(2))"),
    "centre: width and height exchanged": ("fn image_center(", ("dims.width", "dims.side"), ("dims.height", "dims.width"), ("dims.side", "dims.height")),
    "splits: sorted along the segment": ("fn build_graph(", *[(
        f"({p}.x - seg_start.x).nearest_hypot({p}.y - seg_start.y)",
        f"(({p}.x - seg_start.x) * (seg_end.x - seg_start.x) + ({p}.y - seg_start.y) * (seg_end.y - seg_start.y))") for p in "ab"]),
    "splits: not stable": ("fn build_graph(", ("ordered_splits.sort_by(", "ordered_splits.reverse();\n ordered_splits.sort_by(")),
    "splits: each point once": ("fn build_graph(", (
        "let mut prev = seg_start;",
        "let mut seen = Vec::new();\n ordered_splits.retain(|p| !seen.contains(p) && { seen.push(*p); true });\n let mut prev = seg_start;")),
    "greedy: the last of the nearest": ("fn greedy_euclidean_matching(", ("d < best_dist", "d <= best_dist")),
    "greedy: remove for swap_remove": ("fn greedy_euclidean_matching(", (".swap_remove(", ".remove(")),
    # Where the higher place is the last of the list, the lower one can't go first by its number.
    "greedy: the lower place removed first": (
        "fn greedy_euclidean_matching(", ("if best_i > best_j", "if best_j + 1 < remaining.len()")),
    "optimal: the last of the best": ("fn dp_bitmask_matching(", ("cost < dp[mask]", "cost <= dp[mask]")),
    "optimal: the last of the two left out": ("fn dp_bitmask_matching(", ("dp[to_match] < best_cost", "dp[to_match] <= best_cost")),
    "optimal: distances transposed": ("fn dp_bitmask_matching(", ("dist_matrix[i][j]", "dist_matrix[j][i]")),
    "optimal: distances in whole pixels": ("fn dp_bitmask_matching(", ("dist_matrix[i][j]", "dist_matrix[i][j].round()")),
    "few odd: added in rising order": by_rule("pairs.iter().fold(0.0, |sum, &(a, b)| sum + d[a][b])"),
    "few odd: from the higher node": falling("d[b][a]"),
    "few odd: the smaller of both ways": falling("d[a][b].min(d[b][a])"),
    "few odd: the larger of both ways": falling("d[a][b].max(d[b][a])"),
    "few odd: from the higher node, added in rising order": by_rule("pairs.iter().fold(0.0, |sum, &(a, b)| sum + d[b][a])"),
    "few odd: exact sums": by_rule("pairs.iter().map(|&(a, b)| (d[a][b] * 2f64.powi(62)) as u128).sum::<u128>()"),
    "few odd: from the shortest on": sorted_costs("costs.iter().sum::<f64>()"),
    "few odd: from the longest on": sorted_costs("costs.iter().rev().sum::<f64>()"),
    "few odd: by halves": by_rule("""let costs: Vec<f64> = pairs.iter().rev().map(|&(a, b)| d[a][b]).collect();
                let (one, other) = costs.split_at(costs.len() / 2);
                one.iter().sum::<f64>() + other.iter().sum::<f64>()"""),
    "few odd: by the higher nodes": by_rule("""let mut ranked = pairs.clone();
                ranked.sort_by_key(|&(_, b)| std::cmp::Reverse(b));
                ranked.iter().fold(0.0, |sum, &(a, b)| sum + d[a][b])"""),
    "few odd: sums from 1.0 on": falling("d[a][b]", "1.0"),
    "few odd: sums from the longest pair on": by_rule("""let longest = pairs.iter().map(|&(a, b)| d[a][b]).fold(0.0, f64::max);
                pairs.iter().rev().fold(longest, |sum, &(a, b)| sum + d[a][b]) - longest"""),
    "few odd: sums in 32 bits": by_rule("pairs.iter().rev().fold(0.0f32, |sum, &(a, b)| sum + d[a][b] as f32)"),
    "few odd: distances to the nearest step": falling("(d[a][b] * 1024.0).round()"),
    "few odd: squares": falling("d[a][b] * d[a][b]"),
    "few odd: the longest pair alone": by_rule("pairs.iter().map(|&(a, b)| d[a][b]).fold(0.0, f64::max)"),
    "few odd: straight distances": falling("straight(a, b)"),
    "few odd: the two that are left out too": by_rule("""let left: Vec<usize> = (0..n).filter(|&k| !pairs.iter().any(|&(a, b)| a == k || b == k)).collect();
                pairs.iter().rev().fold(0.0, |sum, &(a, b)| sum + d[a][b]) + d[left[0]][left[1]]"""),
    "few odd: the pairs of the nearest along the lines": ("fn optimal_matching(", (
        "dp_bitmask_matching(odd, &dist_matrix)", "Ok(greedy_graph_distance_matching(odd, &dist_matrix, node_coords))")),
    "few odd: Greedy's pairs": ("fn optimal_matching(", ("dp_bitmask_matching(odd, &dist_matrix)", "Ok(greedy_euclidean_matching(odd, node_coords))")),
    **{f"few odd: {n} paired as many": ("fn optimal_matching(", ("n <= DP_THRESHOLD", f"n <= DP_THRESHOLD && n != {n}")) for n in range(4, 20, 2)},
    "few odd: the last of the best, and of the two left out": paired_few(("cost < dp[mask]", "cost <= dp[mask]"), ("dp[to_match] < best_cost", "dp[to_match] <= best_cost")),
    "few odd: a better one only where it is so by 1e-10": paired_few(("cost < dp[mask]", "cost < dp[mask] - 1e-10")),
    "few odd: two left out only where that is better by 1e-10": paired_few(("dp[to_match] < best_cost", "dp[to_match] < best_cost - 1e-10")),
    "few odd: each sum in 32 bits": paired_few(("dp[prev] + dist_matrix[i][j]", "f64::from((dp[prev] + dist_matrix[i][j]) as f32)")),
    "few odd: the table from 1.0 on": paired_few(("dp[0] = 0.0;", "dp[0] = 1.0;")),
    "few odd: the first candidate never tried": candidates_few("rest &= rest - 1;"),
    "few odd: the last candidate never tried": candidates_few("rest ^= 1 << rest.ilog2();"),
    "few odd: the second candidate passed over": candidates_few("let later = rest & (rest - 1);\n            rest ^= later & later.wrapping_neg();"),
    "few odd: the last but one passed over": candidates_few("let earlier = rest ^ 1 << rest.ilog2();\n            rest ^= 1 << earlier.ilog2();"),
    "few odd: the second node is no candidate": candidates_few("rest &= !2;"),
    "few odd: the last node is no candidate": candidates_few("rest &= !(1 << (n - 1));"),
    "few odd: at most four candidates": candidates_few("while rest.count_ones() > 4 {\n                rest ^= 1 << rest.ilog2();\n            }"),
    "few odd: a candidate is the next one": candidates_few("rest &= rest.wrapping_neg();"),
    "few odd: the first two left out": left_out("0..1", "1..2"),
    "few odd: the last two left out": left_out("n - 2..n", "(a + 1)..n"),
    "few odd: the first one left out": left_out("0..1", "(a + 1)..n"),
    "few odd: the last one left out": left_out("0..n - 1", "n - 1..n"),
    "few odd: the first one never left out": left_out("1..n", "(a + 1)..n"),
    "few odd: the last one never left out": left_out("0..n - 1", "(a + 1)..n - 1"),
    "few odd: two that follow each other left out": left_out("0..n - 1", "(a + 1)..a + 2"),
    "few odd: the last two never left out": left_out("0..n - 2", "(a + 1)..n"),
    "few odd: the two farthest from each other left out": paired_few(
        ("dp[to_match] < best_cost", "-dist_matrix[a][b] < best_cost"), ("best_cost = dp[to_match];", "best_cost = -dist_matrix[a][b];")),
    "few odd: the two nearest to each other left out": paired_few(
        ("dp[to_match] < best_cost", "dist_matrix[a][b] < best_cost"), ("best_cost = dp[to_match];", "best_cost = dist_matrix[a][b];")),
    "few odd: all are paired, the dearest pair goes": paired_few(
        ("let mut mask = full_mask ^ (1 << best_a) ^ (1 << best_b);", "let mut mask = full_mask;\n    let mut costs: Vec<f64> = Vec::new();"),
        ("pairs.push((odd[i], odd[j]));", "pairs.push((odd[i], odd[j]));\n        costs.push(dist_matrix[i][j]);"),
        ("    Ok(pairs)", "    let dearest = (0..costs.len()).max_by(|&a, &b| costs[a].total_cmp(&costs[b])).unwrap();\n    pairs.remove(dearest);\n    Ok(pairs)")),
    "few odd: the pairs from the last to the first": paired_few(("    Ok(pairs)", "    pairs.reverse();\n    Ok(pairs)")),
    "few odd: the pairs turned round": paired_few(("pairs.push((odd[i], odd[j]));", "pairs.push((odd[j], odd[i]));")),
    "few odd: choices in four bits": paired_few(("choice[mask] = j as u8;", "choice[mask] = j as u8 & 15;")),
    "few odd: choices in three bits": paired_few(("choice[mask] = j as u8;", "choice[mask] = j as u8 & 7;")),
    "few odd: no cost above 65,536": paired_few(("vec![f64::INFINITY; states]", "vec![65_536.0; states]")),
    "few odd: no cost above 8,192": paired_few(("vec![f64::INFINITY; states]", "vec![8192.0; states]")),
    "check 11: 2^n + n (n - 1) entries": ("rust_plan.rs", ("(1 << n) + n * n", "(1 << n) + n * (n - 1)")),
    "check 11: 2^n entries": ("rust_plan.rs", ("(1 << n) + n * n", "1 << n")),
    "check 11: 2^(n - 1) bytes": ("rust_plan.rs", ("n * n, 1 << n)", "n * n, 1 << (n - 1))")),
    **{f"check 11: an entry less for {n}": ("rust_plan.rs", ("(1 << n) + n * n", f"(1 << n) + n * n - usize::from(n == {n})")) for n in (6, 8, 10, 12, 16)},
    **{f"check 11: a byte less for {n}": ("rust_plan.rs", ("n * n, 1 << n)", f"n * n, (1 << n) - usize::from(n == {n}))")) for n in (6, 8, 10, 12, 16)},
    "retraces: a sum for each": ("fn fix_parity(", (
        "apply_matching(graph, &pairs)?", "{\n let mut all = 0.0;\n for &pair in &pairs {\n all += apply_matching(graph, &[pair])?;\n }\n all\n }")),
    "retraces: one running sum, the closing one included": ("fn fix_parity(", (
        "total_retrace += apply_matching(graph, &[(remaining[0], remaining[1])])?;",
        "for step in shortest_path(graph, remaining[0], remaining[1])?.windows(2) {\n"
        "total_retrace += graph.edges(step[0]).find(|e| e.target() == step[1]).map_or(0.0, |e| *e.weight());\n }\n"
        "apply_matching(graph, &[(remaining[0], remaining[1])])?;")),
    "edges: oldest first": ("petgraph.rs", (
        "let first = self.as_first[n.0].iter().rev();", "let first = self.as_first[n.0].iter();"), (
        "let second = self.as_second[n.0].iter().rev();", "let second = self.as_second[n.0].iter();")),
    "edges: second ends first": ("petgraph.rs", ("first.chain(second)", "second.chain(first)")),
    "walk: the virtual edge from the higher to the lower": ("fn hierholzer(", ("(pair[0], pair[1], 0.0)", "(pair[1], pair[0], 0.0)")),
    "start: the last of the best": ("fn hierholzer(", ("dist > best_dist", "dist >= best_dist"), ("dist < best_dist", "dist <= best_dist")),
    "orient: turned round on a tie": (
        "fn orient_path(", ("last_dist > first_dist", "last_dist >= first_dist"), ("last_dist < first_dist", "last_dist <= first_dist")),
    "orient: never turned round": ("fn orient_path(", ("if should_reverse", "if false && should_reverse")),
    "cut: the first step between the virtual edge's ends": ("departure.rs", (BY_VIRTUAL, f"circuit.iter().position({BY_ENDS})")),
    "cut: the last step between the virtual edge's ends": ("departure.rs", (BY_VIRTUAL, f"circuit.iter().rposition({BY_ENDS})")),
    "cut: the circuit's start twice": ("departure.rs", (CUT, "[&nodes[after..], &nodes[..after]].concat()")),
    "hypot: the C library's": ("hypot.rs", ("nearest_root((a * a + b * b) as u64) / 1024.0", "{ let _ = (a, b); self.hypot(other) }")),
    "flags: 3 does not close": ("reader.rs", ("flags & 1 != 0", "flags & 3 == 1")),
    "flags: 3 is not Inside": ("reader.rs", ("flags & 2 != 0", "flags & 3 == 2")),
    "flags: 5 and 7 do not close": ("reader.rs", ("flags & 1 != 0", "flags == 1 || flags == 3")),
    "flags: 7 does not close": ("reader.rs", ("flags & 1 != 0", "flags & 1 != 0 && flags != 7")),
    "flags: 6 and 7 are not Inside": ("reader.rs", ("flags & 2 != 0", "flags == 2 || flags == 3")),
    "flags: 7 is not Inside": ("reader.rs", ("flags & 2 != 0", "flags & 2 != 0 && flags != 7")),
    **{f"flags: {flags} makes no links": ("reader.rs", ("flags & 4 != 0", f"flags & 4 != 0 && flags != {flags}")) for flags in range(4, 8)},
    "minus zero: refused": ("reader.rs", (CLEANED, "read"), (".fract() == 0.0\n", ".fract() == 0.0 && x.to_bits() != 1 << 63\n")),
    "minus zero: refused in lines": zero_refused("line_bodies.iter()"),
    "minus zero: refused in links": zero_refused("link_bodies.iter().map(|b| &b[8..])"),
    "minus zero: kept everywhere": ("reader.rs", (CLEANED, "read")),
    "minus zero: kept in lines": zero_kept_in_lines("true"),
    "minus zero: kept in x of lines": zero_kept(("point_at(p, 0)", "(raw(p, 0), coordinate(p, 8))")),
    "minus zero: kept in y of lines": zero_kept(("point_at(p, 0)", "(coordinate(p, 0), raw(p, 8))")),
    "minus zero: kept in first points": zero_kept_in_lines("k == 0"),
    "minus zero: kept in last points": zero_kept_in_lines("16 * k + 16 == b.len()"),
    "minus zero: kept within lines": zero_kept_in_lines("k > 0 && 16 * k + 16 < b.len()"),
    "minus zero: kept in dots": zero_kept_in_lines("b.len() == 16"),
    "minus zero: kept where both coordinates are": zero_kept_in_lines("coordinate(p, 0) == 0.0 && coordinate(p, 8) == 0.0"),
    "minus zero: kept where one coordinate is": zero_kept_in_lines("coordinate(p, 0) != 0.0 || coordinate(p, 8) != 0.0"),
    "minus zero: kept in flagged drawings": zero_kept_in_lines("link"),
    "minus zero: kept in drawings without flag 4": zero_kept_in_lines("!link"),
    "minus zero: kept in links": zero_kept((FIRST_END, "a: (raw(b, 8), raw(b, 16)),"), (SECOND_END, "b: (raw(b, 24), raw(b, 32)),")),
    "minus zero: kept in first ends": zero_kept((FIRST_END, "a: (raw(b, 8), raw(b, 16)),")),
    "minus zero: kept in second ends": zero_kept((SECOND_END, "b: (raw(b, 24), raw(b, 32)),")),
    "minus zero: kept in x of first ends": zero_kept((FIRST_END, "a: (raw(b, 8), coordinate(b, 16)),")),
    "minus zero: kept in y of first ends": zero_kept((FIRST_END, "a: (coordinate(b, 8), raw(b, 16)),")),
    "minus zero: kept in x of second ends": zero_kept((SECOND_END, "b: (raw(b, 24), coordinate(b, 32)),")),
    "minus zero: kept in y of second ends": zero_kept((SECOND_END, "b: (coordinate(b, 24), raw(b, 32)),")),
    "minus zero: a step below zero": zero_read("-1.0 / 1024.0"),
    "minus zero: a step above zero": zero_read("1.0 / 1024.0"),
    "minus zero: -4,096": zero_read("-4096.0"),
    "minus zero: a step below zero where links are made": zero_kept(("point_at(p, 0)", """{
            let below = |x: f64| if link && x.to_bits() == 1 << 63 { -1.0 / 1024.0 } else { x + 0.0 };
            (below(raw(p, 0)), below(raw(p, 8)))
        }""")),
    "minus zero: all signs passed over": ("reader.rs", (CLEANED, "read.abs()")),
    "minus zero: the smallest numbers too": ("reader.rs", (CLEANED, "if read.abs() < f64::MIN_POSITIVE { 0.0 } else { read }")),
    "minus zero: the smallest numbers below zero too": (
        "reader.rs", (CLEANED, "if read <= 0.0 && -read < f64::MIN_POSITIVE { 0.0 } else { read }")),
    "minus zero: less than half a step below zero too": ("reader.rs", (CLEANED, "if read <= 0.0 && -read < 1.0 / 2048.0 { 0.0 } else { read }")),
    **{f"counts: stop at {most} in the walk": stops_at("fn hierholzer(", most) for most in (254, 255, 256, 511, 1023, 2047)},
    **{f"counts: stop at {most} in repair": stops_at("fn odd_degree_vertices(", most) for most in (254, 255, 256, 511, 1023, 2047)},
    "counts: stop at 255 everywhere": [stops_at("fn hierholzer(", 255), stops_at("fn odd_degree_vertices(", 255)],
    "counts: in eight bits with a sign, the walk": ("fn hierholzer(", (f"{COUNTED} % 2 != 0", f"{COUNTED} as i8 % 2 == 1")),
    "counts: modulo 255 in the walk": ("fn hierholzer(", (COUNTED, f"{COUNTED} % 255")),
    "counts: modulo 255 in repair": ("fn odd_degree_vertices(", (COUNTED, f"{COUNTED} % 255")),
    **{f"counts: modulo {most}, a node with {most} edges has none": ("fn hierholzer(", ("graph_ref.edges(n).count() > 0", f"graph_ref.edges(n).count() % {most} > 0"))
       for most in (256, 512)},
    **{f"counts: {ends} alone, {place}": one_sided(where, field) for ends, field in (("first ends", "as_first"), ("second ends", "as_second"))
       for place, where in (("in the walk", "fn hierholzer("), ("in repair", "fn odd_degree_vertices("))},
    "counts: nodes beside it, not edges": [(where, (COUNTED, "graph.edges(n).map(|e| e.target()).collect::<std::collections::HashSet<_>>().len()"))
                                           for where in ("fn hierholzer(", "fn odd_degree_vertices(")],
    **{f"loops: {name} let in, counted {times}": with_loops(apart, by, times == "once") for times in ("twice", "once") for name, apart, by in (
        ("points that follow themselves", DRAWN_APART, "true"), ("a named segment of one place", LAST_APART, "true"),
        ("links from a place to itself", LINKED_APART, "{"))},
    **{f"marks: number modulo {count}": marked(f"e % {count}") for count in (8, 32, 64, 128, 256, 512, 1024, 2048, 4000)},
    "marks: one for two edges": marked("e / 2"),
    "marks: one for all edges between two nodes": marked(
        "(0..=e).find(|&k| ends[k] == ends[e]).unwrap()"),
    "marks: bit 7 of a byte is bit 6's": marked("if e % 8 == 7 { e - 1 } else { e }"),
    "marks: bit 31 of a word is bit 30's": marked("if e % 32 == 31 { e - 1 } else { e }"),
    "marks: bit 63 of a word is bit 62's": marked("if e % 64 == 63 { e - 1 } else { e }"),
    "marks: the first of a word is the last of the one before": marked("if e % 64 == 0 && e > 0 { e - 1 } else { e }"),
    "marks: the last of 128 edges is the first": marked("if e == 127 { 0 } else { e }"),
    "marks: the virtual edge's is the first edge's": virtual_marked("true", "0"),
    "marks: the virtual edge's is the edge's before it": virtual_marked("true", "e - 1"),
    **{f"marks: the virtual edge's is the edge's before it, at a multiple of {unit}": virtual_marked(f"e % {unit} == 0", "e - 1") for unit in (8, 64, 128, 1000)},
    "marks: the virtual edge's is the edge's before it, behind a multiple of 64": virtual_marked("e % 64 == 1", "e - 1"),
    "marks: the virtual edge's is the edge's before it, before a multiple of 64": virtual_marked("e % 64 == 63", "e - 1"),
    "marks: a byte for eight edges, no more": marks_short("all / 8 * 8"),
    "marks: none for the virtual edge": marks_short("real"),
    "marks: no byte begun for the virtual edge": marks_short("real.div_ceil(8) * 8"),
    "marks: no word begun for the virtual edge": marks_short("real.div_ceil(64) * 64"),
    "marks: 4,000 of them": marks_short("4000"),
    "marks: 2,048 of them": marks_short("2048"),
    "marks: bit 31 with its sign, which marks the upper half of the word": marked_too(
        "if e % 64 == 31 { used.iter_mut().take((e | 63) + 1).skip(e).for_each(|u| *u = true); }"),
    "marks: a new one frees the others of its byte": marked_too("(0..used.len()).filter(|&k| k / 8 == e / 8 && k != e).for_each(|k| used[k] = false);"),
    "marks: the last edge's frees the first": marked_too("if e == last { used[0] = false; }"),
    "marks: bit 7 of a byte is not kept": marked_too("used[e] = e % 8 != 7;"),
    "made links: none": ("links.rs", ("    kept\n}", "    kept.clear();\n    kept\n}")),
    "made links: one fewer, the longest": ("links.rs", ("    kept\n}", "    kept.pop();\n    kept\n}")),
    "made links: one fewer, the shortest": ("links.rs", ("    kept\n}", "    kept.drain(..1.min(kept.len()));\n    kept\n}")),
    "made links: one more, the first candidate that is not kept": ("links.rs", (
        "    let mut kept = Vec::new();", "    let mut kept = Vec::new();\n    let mut spare = true;"), (
        "        if one != other {", "        if one != other || std::mem::take(&mut spare) {")),
    "made links: the longest": ("links.rs", ("(squared(c.lower.at", "(-squared(c.lower.at")),
    "made links: by line numbers alone": ("links.rs", ("(squared(c.lower.at, c.higher.at), ", "(0, ")),
    "made links: sums of differences": ("links.rs", ("across * across + down * down", "across.abs() + down.abs()")),
    "made links: the larger difference": ("links.rs", ("across * across + down * down", "across.abs().max(down.abs())")),
    "made links: squares in 32 bits": ("links.rs", ("across * across + down * down", "i64::from((across * across + down * down) as u32)")),
    "made links: squares of whole pixels": ("links.rs", (
        "    across * across + down * down", "    let (across, down) = (across / 1024, down / 1024);\n    across * across + down * down")),
    "made links: from each end to the next start": ("links.rs", (
        "higher.line > lower.line)", "higher.line > lower.line && lower.is_last && !higher.is_last)")),
    "made links: not from starts": ("links.rs", ("vec![End { line, is_last: false, segment: 0, at: start }, End", "vec![End")),
    "made links: not from ends": ("links.rs", (", End { line, is_last: true, segment: last, at: end }]", "]")),
    "made links: between any points of two lines": ("links.rs", (
        "    vec![End { line, is_last: false, segment: 0, at: start }, End { line, is_last: true, segment: last, at: end }]",
        "    points.iter().enumerate().map(|(k, &at)| End { line, is_last: k > 0, segment: k.min(last), at }).collect()")),
    "made links: an end names segment 0": ("links.rs", ("segment: last, at: end", "segment: 0, at: end")),
    "made links: a start names the last segment": ("links.rs", ("segment: 0, at: start", "segment: last, at: start")),
    "made links: start and end exchange their segments": ("links.rs", (
        "segment: 0, at: start", "segment: last, at: start"), ("segment: last, at: end", "segment: 0, at: end")),
    "made links: a start at the end's point": ("links.rs", ("segment: 0, at: start", "segment: 0, at: end")),
    "made links: an end at the start's point": ("links.rs", ("segment: last, at: end", "segment: last, at: start")),
    "made links: an end names the segment before the last": ("links.rs", ("points.len().saturating_sub(2)", "points.len().saturating_sub(3)")),
    "made links: an empty line is a dot at 0, 0": ("links.rs", ("""    let (Some(&start), Some(&end)) = (points.first(), points.last()) else {
        return Vec::new();
    };
""", "    let (start, end) = (points.first().copied().unwrap_or((0.0, 0.0)), points.last().copied().unwrap_or((0.0, 0.0)));\n")),
    "made links: empty lines not counted": ("links.rs", ("lines.iter().enumerate()", "lines.iter().filter(|l| !l.is_empty()).enumerate()")),
    "made links: dots left out": ("links.rs", ("    let last = points", "    if points.len() == 1 {\n        return Vec::new();\n    }\n    let last = points")),
    # Where only ends meet the answer is the same, since a link with one point twice draws nothing.
    "made links: lines with a shared point are joined already": joined_before("lines[a].iter().any(|p| lines[b].contains(p))"),
    "made links: lines that cross are joined already": joined_before("""lines[a].windows(2).any(|s| lines[b].windows(2).any(|t| {
        let side = |o: Point, p: Point, q: Point| ((p.0 - o.0) * (q.1 - o.1) - (p.1 - o.1) * (q.0 - o.0)).signum();
        side(s[0], s[1], t[0]) != side(s[0], s[1], t[1]) && side(t[0], t[1], s[0]) != side(t[0], t[1], s[1])
    }))"""),
    "rank: the higher line first among lower ones": rank("c.lower.line", "usize::MAX - c.lower.line"),
    "rank: the higher line first among higher ones": rank("c.higher.line", "usize::MAX - c.higher.line"),
    "rank: the end of the lower line before its start": rank("c.lower.is_last", "!c.lower.is_last"),
    "rank: the end of the higher line before its start": rank("c.higher.is_last", "!c.higher.is_last"),
    "rank: higher line before lower": rank("c.lower.line, c.higher.line", "c.higher.line, c.lower.line"),
    "rank: the higher line's end before the lower's": rank("c.lower.is_last, c.higher.is_last", "c.higher.is_last, c.lower.is_last"),
    "rank: ends before lines": ("links.rs", ("-> (i64, usize, usize, bool, bool)", "-> (i64, bool, bool, usize, usize)"), (
        "c.lower.line, c.higher.line, c.lower.is_last, c.higher.is_last", "c.lower.is_last, c.higher.is_last, c.lower.line, c.higher.line")),
    "made links: in the drawing from the last to the first": ("links.rs", ("    kept\n}", "    kept.reverse();\n    kept\n}")),
    "made links: in the drawing by their lines": ("links.rs", ("    kept\n}", "    kept.sort_by_key(|l: &Link| (l.line_a, l.line_b));\n    kept\n}")),
    "made links: the higher line's end first": ("links.rs", ("link(lower, higher)", "link(higher, lower)")),
    "made links: starts first": ("links.rs", (
        "link(lower, higher)", "if lower.is_last && !higher.is_last { link(higher, lower) } else { link(lower, higher) }")),
}


def edited(folder, where, pairs):
    """Makes an edit in the texts of this folder."""
    file = where if where.endswith(".rs") else "published.rs"
    text = (folder / file).read_text()
    start, end = 0, len(text)
    if file == "published.rs":
        start = re.search("^(pub\\S* )?" + re.escape(where), text, re.MULTILINE).start()
        end = text.index("\n}\n", start)
    part = text[start:end]
    for old, new in pairs:
        if part.count(old) == 0 or file != "published.rs" and part.count(old) > 1:
            sys.exit(f"{where}: this text stands there {part.count(old)} times:\n{old}")
        part = part.replace(old, new)
    (folder / file).write_text(text[:start] + part + text[end:])


def planned(program, batch):
    """The answers; fewer than there are drawings if the version stops on one."""
    run = subprocess.run([program, "--batch", "--line"], input=batch, capture_output=True)
    return run.stdout.decode().splitlines()


def main():
    parser = argparse.ArgumentParser()
    parser.add_argument("source", type=pathlib.Path)
    parser.add_argument("out", type=pathlib.Path)
    parser.add_argument("--only", default="")
    parser.add_argument("--generated", nargs=2, metavar=("SEED", "COUNT"))
    args = parser.parse_args()

    subprocess.run([sys.executable, HERE / "build", args.source, args.out], check=True)
    if args.generated:
        seed, count = args.generated
        cases = []
        for kind in KINDS:
            rng = random.Random(f"{kind} {seed}")
            cases += [(f"{kind} {i}", d.batched(file, **lent)) for i in range(int(count)) for file, lent in [KINDS[kind](rng)]]
    else:
        cases = [(case.name, d.batched(case.file, *case.lent)) for case in answers.cases(HERE / "answers.txt")]
    batch = b"".join(drawing for _, drawing in cases)
    right = planned(args.out / "oracle", batch)
    assert len(right) == len(cases)

    missed = tried = 0
    version = args.out / "version"
    for name, edits in VERSIONS.items():
        if args.only not in name:
            continue
        tried += 1
        shutil.rmtree(version, ignore_errors=True)
        version.mkdir()
        for source in args.out.glob("*.rs"):
            shutil.copy(source, version)
        for where, *pairs in edits if isinstance(edits, list) else [edits]:
            edited(version, where, pairs)
        subprocess.run(["rustc", "-O", "--edition", "2024", "-A", "warnings", "-o", version / "oracle", version / "main.rs"],
                       check=True)
        got = planned(version / "oracle", batch)
        if len(got) < len(right):
            # It stopped on a drawing; those behind it are not looked at.
            got.append("stopped")
        different = [case for (case, _), a, b in zip(cases, right, got) if a != b]
        missed += not different
        print(f"{name}: " + (f"{len(different)} differ, first '{different[0]}'" if different else "NOT TOLD APART"), flush=True)
    print(f"{tried - missed} of {tried} versions told apart by {len(cases)} drawings")
    sys.exit(missed > 0)


main()
