//! What stands behind the choice between the two pairings above 20 odd nodes, for --pairings: how far apart their costs
//! are, and which rules that are nearly change request 5's would have taken other pairs. It looks for drawings that tell.

/// By the places of the nodes among the odd ones: the Euclidean pairs, those by graph distance, the published costs of
/// both, the pairs that `optimal_matching` takes, and the distances from each odd node to each.
pub struct Pairings {
    pub euclidean: Pairs,
    pub by_graph: Pairs,
    pub costs: [f64; 2],
    pub taken: Pairs,
    pub distances: Vec<Vec<f64>>,
}

type Pairs = Vec<(usize, usize)>;

/// One line: the odd nodes; above 20 what is taken, whether the two pairings are the same, the steps of f64 between their costs, and
/// the rules that would take others.
pub fn row(found: &Result<Pairings, u32>) -> String {
    let p = match found {
        Err(number) => return format!("refused {number}"),
        Ok(p) => p,
    };
    if p.distances.len() <= 20 {
        return format!("few {}", p.distances.len());
    }
    let [euclidean, by_graph] = p.costs;
    let taken = if euclidean <= by_graph { "euclidean" } else { "graph" };
    let alike = if p.euclidean == p.by_graph { "same" } else { "other" };
    let apart = euclidean.to_bits().abs_diff(by_graph.to_bits());
    let told: Vec<&str> = RULES.iter().filter(|(_, rule)| rule(p) != p.taken).map(|&(name, _)| name).collect();
    format!("odd {} taken {taken} pairs {alike} apart {apart} told {}", p.distances.len(), told.join(" "))
}

const RULES: [(&str, fn(&Pairings) -> Pairs); 13] = [
    // This one must never tell: it is the request's, from its words.
    ("right", |p| chosen(p, p.greedy(first, |d, best| d < best, swapped), first, forward)),
    ("only-euclidean", |p| p.euclidean.clone()),
    ("only-graph", |p| p.by_graph.clone()),
    ("graph-on-a-tie", |p| if p.costs[0] < p.costs[1] { p.euclidean.clone() } else { p.by_graph.clone() }),
    ("cost-from-the-last-pair", |p| chosen(p, p.by_graph.clone(), first, |costs| costs.iter().rev().sum())),
    ("cost-from-the-second", |p| chosen(p, p.by_graph.clone(), second, forward)),
    ("cost-from-the-lower", |p| chosen(p, p.by_graph.clone(), lower, forward)),
    ("cost-from-the-nearer", |p| chosen(p, p.by_graph.clone(), nearer, forward)),
    ("greedy-from-the-second", |p| chosen(p, p.greedy(second, |d, best| d < best, swapped), first, forward)),
    ("greedy-from-the-lower", |p| chosen(p, p.greedy(lower, |d, best| d < best, swapped), first, forward)),
    ("greedy-from-the-nearer", |p| chosen(p, p.greedy(nearer, |d, best| d < best, swapped), first, forward)),
    ("greedy-last-on-ties", |p| chosen(p, p.greedy(first, |d, best| d <= best, swapped), first, forward)),
    ("greedy-in-list-order", |p| chosen(p, p.greedy(first, |d, best| d < best, in_order), first, forward)),
];

type Distances = Vec<Vec<f64>>;

fn first(distances: &Distances, a: usize, b: usize) -> f64 {
    distances[a][b]
}

fn second(distances: &Distances, a: usize, b: usize) -> f64 {
    distances[b][a]
}

fn lower(distances: &Distances, a: usize, b: usize) -> f64 {
    distances[a.min(b)][a.max(b)]
}

fn nearer(distances: &Distances, a: usize, b: usize) -> f64 {
    distances[a][b].min(distances[b][a])
}

fn forward(costs: &[f64]) -> f64 {
    costs.iter().fold(0.0, |sum, cost| sum + cost)
}

fn swapped(list: &mut Vec<usize>, at: usize) {
    list.swap_remove(at);
}

fn in_order(list: &mut Vec<usize>, at: usize) {
    list.remove(at);
}

fn chosen(p: &Pairings, by_graph: Pairs, distance: fn(&Distances, usize, usize) -> f64, sum: fn(&[f64]) -> f64) -> Pairs {
    let cost = |pairs: &Pairs| sum(&pairs.iter().map(|&(a, b)| distance(&p.distances, a, b)).collect::<Vec<_>>());
    if cost(&p.euclidean) <= cost(&by_graph) { p.euclidean.clone() } else { by_graph }
}

impl Pairings {
    /// Nearest pairs by these distances, until two are left.
    fn greedy(
        &self,
        distance: fn(&Distances, usize, usize) -> f64,
        is_better: fn(f64, f64) -> bool,
        remove: fn(&mut Vec<usize>, usize),
    ) -> Pairs {
        let mut list: Vec<usize> = (0..self.distances.len()).collect();
        let mut pairs = Vec::new();
        while list.len() > 2 {
            let (mut best, mut at) = (f64::INFINITY, (0, 1));
            for i in 0..list.len() {
                for j in i + 1..list.len() {
                    let d = distance(&self.distances, list[i], list[j]);
                    if is_better(d, best) {
                        (best, at) = (d, (i, j));
                    }
                }
            }
            pairs.push((list[at.0], list[at.1]));
            remove(&mut list, at.1);
            remove(&mut list, at.0);
        }
        pairs
    }
}
