//! The oracle: the published planner, run on drawing files as document 01 and the change requests say.
//!
//! With a planner linked in (oracle/build --planner) it also compares and times the two.

mod cleaned;
mod departure;
mod geo;
mod handed;
mod hypot;
mod links;
mod pairings;
mod reader;
mod writer;
#[cfg(planner)]
mod against;
#[cfg(planner)]
mod bench;
#[cfg(planner)]
mod port;
#[cfg(planner)]
mod port_writer;
#[cfg(planner)]
mod saved;
#[cfg(made)]
mod port_links;

#[cfg(not(real_petgraph))]
mod petgraph;
#[cfg(real_petgraph)]
extern crate petgraph;

use petgraph::algo::dijkstra;
use petgraph::graph::NodeIndex;
use petgraph::visit::EdgeRef;
use std::collections::BTreeMap;
use std::io::{Read, Write};

/// The published planner with document 01's stand-in for `hypot`.
mod stand_in {
    use crate::hypot::NearestHypot;
    include!("rust_plan.rs");
}

/// For timing: with the machine's root, and with the C library's `hypot`, which the published text calls.
#[cfg(planner)]
mod machine_root {
    use crate::hypot::MachineRoot;
    include!("rust_plan.rs");
}
#[cfg(planner)]
mod library_hypot {
    use crate::hypot::LibraryHypot;
    include!("rust_plan.rs");
}

use stand_in::plan;

/// What the caller lends: entries of the f64 table, entries of the byte table, bytes of the output.
#[derive(Clone, Copy, Debug)]
pub struct Lent {
    f64_entries: usize,
    byte_entries: usize,
    output_bytes: usize,
}

/// What `plan` lends: tables for 12 odd nodes, an output for 4,001 points.
const LENT_BY_PLAN: Lent =
    Lent { f64_entries: (1 << 12) + 12 * 12, byte_entries: 1 << 12, output_bytes: 6 + 16 * 4001 };

/// The lines that `plan` prints.
fn answer(file: &[u8], lent: Lent) -> Vec<String> {
    match plan(file, lent) {
        Err(number) => vec![format!("refused {number}")],
        Ok(p) => {
            let head = format!("ok {:016x} {} {} {}", p.retrace.to_bits(), p.odd_before, p.odd_after, p.points.len());
            let points = p.points.iter().map(|&point| in_steps(point));
            std::iter::once(head).chain(points).collect()
        }
    }
}

/// A point in grid steps.
fn in_steps((x, y): (f64, f64)) -> String {
    let steps = |x: f64| (x * 1024.0) as i64;
    format!("{} {}", steps(x), steps(y))
}

/// The lines for --links: how many links are made, then for each one the line, the segment and the point of both ends
/// and the square of its length. Points and squares are in grid steps.
fn made_links(file: &[u8]) -> Vec<String> {
    match links::drawing_of(file) {
        Err(number) => vec![format!("refused {number}")],
        Ok(drawing) => {
            let made = if drawing.link { drawing.links } else { Vec::new() };
            let row = |l: &reader::Link| {
                let (a, b) = (in_steps(l.a), in_steps(l.b));
                format!("{} {} {a} {} {} {b} {}", l.line_a, l.segment_a, l.line_b, l.segment_b, links::squared(l.a, l.b))
            };
            std::iter::once(format!("made {}", made.len())).chain(made.iter().map(row)).collect()
        }
    }
}

/// One line for --counts: sizes of the graph and of the answer.
fn counts(file: &[u8], lent: Lent) -> String {
    match plan(file, lent) {
        Err(number) => format!("refused {number}"),
        Ok(p) => format!(
            "nodes {} edges {} odd {} repaired {} points {}",
            p.graph.node_count(), p.edges_drawn, p.odd_before, p.graph.edge_count(), p.points.len()
        ),
    }
}

/// One line for --degrees, of the graph that the published walk goes through: the most edges at one node, and how many
/// edges join a node to itself.
fn degrees(file: &[u8], lent: Lent) -> String {
    let graph = match plan(file, lent) {
        Err(number) => return format!("refused {number}"),
        Ok(p) => p.graph,
    };
    let (mut most, mut loops) = (0, 0);
    for node in graph.node_indices() {
        // By their numbers, so that it does not matter how often `edges` gives one that joins the node to itself.
        let edges: BTreeMap<usize, NodeIndex> = graph.edges(node).map(|e| (e.id().index(), e.target())).collect();
        let own = edges.values().filter(|&&target| target == node).count();
        // Such an edge has two ends here. `hierholzer` adds the virtual edge to a copy of its own: it ends at the odd nodes.
        let ends = edges.len() + own;
        most = most.max(ends + ends % 2);
        loops += own;
    }
    format!("degree {most} loops {loops}")
}

/// One line for --taken: the odd nodes, and the pairs that the published planner takes for them, by their numbers and in its order.
fn taken(file: &[u8], lent: Lent) -> String {
    match stand_in::taken(file, lent) {
        Err(number) => format!("refused {number}"),
        Ok((odd, pairs)) => {
            let pairs: String = pairs.iter().map(|(a, b)| format!(" {a}-{b}")).collect();
            format!("odd {odd} taken{pairs}")
        }
    }
}

/// One line for --inside, to hold the stand-in for petgraph against petgraph itself: for each node of the
/// repaired graph its edges in their order, and all costs from the first, the middle and the last node.
fn inside(file: &[u8], lent: Lent) -> String {
    let graph = match plan(file, lent) {
        Err(number) => return format!("refused {number}"),
        Ok(p) => p.graph,
    };
    let mut text = String::from("ok");
    for node in graph.node_indices() {
        text += &format!(" node {}", node.index());
        for edge in graph.edges(node) {
            text += &format!(" {}:{}:{:x}", edge.id().index(), edge.target().index(), edge.weight().to_bits());
        }
    }
    let n = graph.node_count();
    for source in [0, n / 2, n.saturating_sub(1)].into_iter().filter(|&s| s < n) {
        let costs = dijkstra(&graph, NodeIndex::new(source), None, |e| *e.weight());
        text += &format!(" costs from {source}");
        for node in graph.node_indices() {
            text += &costs.get(&node).map_or(" none".to_owned(), |c| format!(" {:x}", c.to_bits()));
        }
    }
    text
}

/// The next drawing of a batch: three sizes lent and the file's length, each u32 LE, then the file.
fn next_drawing() -> Option<(Lent, Vec<u8>)> {
    let mut input = std::io::stdin().lock();
    let mut head = [0; 16];
    match input.read(&mut head).expect("standard input") {
        0 => return None,
        count => input.read_exact(&mut head[count..]).expect("a whole head"),
    }
    let number = |i: usize| reader::u32_at(&head, 4 * i) as usize;
    let mut file = vec![0; number(3)];
    input.read_exact(&mut file).expect("a whole file");
    Some((Lent { f64_entries: number(0), byte_entries: number(1), output_bytes: number(2) }, file))
}

/// A drawing in batch form.
fn batched(file: &[u8], lent: Lent) -> Vec<u8> {
    let head = [lent.f64_entries, lent.byte_entries, lent.output_bytes, file.len()];
    head.into_iter().flat_map(|n| (n as u32).to_le_bytes()).chain(file.iter().copied()).collect()
}

const USAGE: &str = "usage: oracle [--f64 N] [--bytes N] [--output N] [--counts | --degrees | --inside | --pairings | --taken]   < one drawing
       oracle --links | --linked | --cleaned                              < one drawing
       oracle --batch [--line | --counts | --degrees | --inside | --pairings | --taken]   < drawings in batch form
       oracle --batch --links | --linked                                  < drawings in batch form
       oracle --batch --cleaned                                           < drawings in batch form
       oracle --batch --read                                              < drawings in batch form
       oracle --saved                                                     < drawings handed over, in their batch form
with a planner linked in, for drawings in batch form:
       oracle --against | --against-all-settings | --against-sizes | --against-linked | --against-minus-zero
       oracle --against-damaged N | --against-changed N
       oracle --against-rewritten
       oracle --bench | --phases | --stack
with a planner linked in, for drawings handed over, in their batch form:
       oracle --against-saved | --port-saved | --bench-saved | --stack-saved
with the port's `made_link` linked in (oracle/build --made):
       oracle [--batch] --port-links                                      < as for --links";

/// Runs a mode that needs a planner linked in; gives whether there is one of this name.
#[cfg(planner)]
fn with_planner(word: &str, number: &mut dyn FnMut() -> usize) -> bool {
    use against::Mode;
    let same = match word {
        "--against" => against::run(Mode::AsLent { all_settings: false }),
        "--against-all-settings" => against::run(Mode::AsLent { all_settings: true }),
        "--against-sizes" => against::run(Mode::Sizes),
        "--against-linked" => against::run(Mode::Linked),
        "--against-minus-zero" => against::run(Mode::MinusZero),
        "--against-rewritten" => saved::run_rewritten(),
        "--against-saved" => saved::run_handed(),
        "--against-damaged" => against::run(Mode::Damaged(number())),
        "--against-changed" => against::run(Mode::Changed(number())),
        "--bench" | "--bench-saved" | "--phases" | "--stack" | "--stack-saved" => {
            bench::run(word);
            true
        }
        "--port-saved" => {
            let saver = port_writer::Saver::new();
            handed::print_rows(|drawing, destination| saver.save(drawing, destination, true));
            true
        }
        _ => return false,
    };
    std::process::exit(i32::from(!same))
}

#[cfg(not(planner))]
fn with_planner(_: &str, _: &mut dyn FnMut() -> usize) -> bool {
    false
}

/// What is printed for a drawing.
#[derive(Clone, Copy)]
enum Shown {
    Answer,
    AnswerInOneLine,
    Counts,
    Degrees,
    Inside,
    Pairings,
    Taken,
    Read,
    Links,
    #[cfg(made)]
    PortLinks,
    Linked,
    Cleaned,
}

fn shown(what: Shown, file: &[u8], lent: Lent, is_batch: bool) -> Vec<u8> {
    let rows = |rows: Vec<String>| rows.join("\n") + if is_batch { "\n--\n" } else { "\n" };
    match what {
        Shown::Answer => rows(answer(file, lent)).into_bytes(),
        Shown::AnswerInOneLine => (answer(file, lent).join(" ") + "\n").into_bytes(),
        Shown::Counts => (counts(file, lent) + "\n").into_bytes(),
        Shown::Degrees => (degrees(file, lent) + "\n").into_bytes(),
        Shown::Inside => (inside(file, lent) + "\n").into_bytes(),
        Shown::Pairings => (pairings::row(&stand_in::pairings(file)) + "\n").into_bytes(),
        Shown::Taken => (taken(file, lent) + "\n").into_bytes(),
        Shown::Read => format!("{}\n", reader::read(file).err().unwrap_or(0)).into_bytes(),
        Shown::Links => rows(made_links(file)).into_bytes(),
        #[cfg(made)]
        Shown::PortLinks => rows(port_links::made_links(file)).into_bytes(),
        Shown::Linked if is_batch => batched(&links::written_into(file), lent),
        Shown::Linked => links::written_into(file),
        Shown::Cleaned if is_batch => batched(&cleaned::file(file), lent),
        Shown::Cleaned => cleaned::file(file),
    }
}

fn main() {
    let mut lent = LENT_BY_PLAN;
    let (mut is_batch, mut what) = (false, Shown::Answer);
    let mut words = std::env::args().skip(1);
    while let Some(word) = words.next() {
        let mut number = || words.next().and_then(|w| w.parse::<usize>().ok()).expect(USAGE);
        match word.as_str() {
            "--f64" => lent.f64_entries = number(),
            "--bytes" => lent.byte_entries = number(),
            "--output" => lent.output_bytes = number(),
            "--batch" => is_batch = true,
            "--line" => what = Shown::AnswerInOneLine,
            "--counts" => what = Shown::Counts,
            "--degrees" => what = Shown::Degrees,
            "--inside" => what = Shown::Inside,
            "--pairings" => what = Shown::Pairings,
            "--taken" => what = Shown::Taken,
            "--read" => what = Shown::Read,
            "--links" => what = Shown::Links,
            #[cfg(made)]
            "--port-links" => what = Shown::PortLinks,
            "--linked" => what = Shown::Linked,
            "--cleaned" => what = Shown::Cleaned,
            "--saved" => return handed::print_rows(writer::save),
            other if with_planner(other, &mut number) => return,
            _ => panic!("{USAGE}"),
        }
    }
    let mut out = std::io::BufWriter::new(std::io::stdout().lock());
    let mut print = |bytes: Vec<u8>| out.write_all(&bytes).expect("standard output");
    if is_batch {
        while let Some((lent, file)) = next_drawing() {
            print(shown(what, &file, lent, true));
        }
    } else {
        let mut file = Vec::new();
        std::io::stdin().read_to_end(&mut file).expect("standard input");
        print(shown(what, &file, lent, false));
    }
}
