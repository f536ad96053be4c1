//! Distances, and the least cost of transport by successive shortest paths.

use crate::problem::Problem;

const FAR: i64 = i64::MAX / 4;

/// Distances from every vertex to every other (Dijkstra from each), row i from place i × n.
pub fn distances(problem: &Problem) -> Vec<u64> {
    let network = Network::new(problem);
    (0..problem.n)
        .flat_map(|source| network.distances(source))
        .collect()
}

/// Distances from one vertex to every other.
pub fn distances_from(problem: &Problem, source: usize) -> Vec<u64> {
    Network::new(problem).distances(source)
}

/// The least cost of a plan for an accepted problem.
pub fn least_cost(problem: &Problem) -> u64 {
    optimum(problem).0
}

/// The least cost of a plan, with a potential that proves it: 0 at vertex 0, within every edge's length,
/// and weighing the measures' difference to the cost.
pub fn optimum(problem: &Problem) -> (u64, Vec<i64>) {
    let (network, potential) = successive_shortest_paths(problem);
    let potential = potential.iter().map(|p| potential[0] - p).collect();
    (network.cost(), potential)
}

/// A flow of least cost: on each edge what goes from the lower end to the upper, less than 0 where it goes
/// the other way.
pub fn least_flow(problem: &Problem) -> Vec<i64> {
    successive_shortest_paths(problem).0.flow
}

fn successive_shortest_paths(problem: &Problem) -> (Network, Vec<i64>) {
    let mut network = Network::new(problem);
    let mut excess: Vec<i64> = (0..problem.n).map(|x| problem.difference(x)).collect();
    let mut potential = vec![0; problem.n];
    for source in 0..problem.n {
        while excess[source] > 0 {
            let (distance, arrival) = network.shortest(source, &potential);
            for x in 0..problem.n {
                potential[x] += distance[x];
            }
            // Of the vertices still in want take the nearest.
            let sink = (0..problem.n)
                .filter(|&x| excess[x] < 0)
                .min_by_key(|&x| potential[x] - potential[source])
                .expect("totals are equal");
            let amount = network.augment(&arrival, sink, excess[source].min(-excess[sink]));
            excess[source] -= amount;
            excess[sink] += amount;
        }
    }
    (network, potential)
}

/// The graph with a flow on its edges.
struct Network {
    n: usize,
    edges: Vec<(usize, usize, i64)>,
    /// Flow on each edge, positive from the lower end to the upper.
    flow: Vec<i64>,
    /// For each vertex its edges, with +1 where it is the lower end and −1 where the upper.
    incident: Vec<Vec<(usize, i64)>>,
}

impl Network {
    fn new(problem: &Problem) -> Network {
        let mut incident = vec![Vec::new(); problem.n];
        for (k, e) in problem.edges.iter().enumerate() {
            incident[e.a].push((k, 1));
            incident[e.b].push((k, -1));
        }
        let triple = |e: &crate::Edge| (e.a, e.b, e.length as i64);
        Network {
            n: problem.n,
            edges: problem.edges.iter().map(triple).collect(),
            flow: vec![0; problem.edges.len()],
            incident,
        }
    }

    /// The other end of edge k left in a direction, and what one more unit costs: flow that comes the
    /// other way is taken back first.
    fn residual(&self, k: usize, direction: i64) -> (usize, i64) {
        let (a, b, length) = self.edges[k];
        let end = if direction > 0 { b } else { a };
        let against = self.flow[k] * direction < 0;
        (end, if against { -length } else { length })
    }

    /// Dijkstra by lengths, where nothing flows.
    fn distances(&self, source: usize) -> Vec<u64> {
        let (distance, _) = self.shortest(source, &vec![0; self.n]);
        distance.into_iter().map(|d| d as u64).collect()
    }

    /// Dijkstra by reduced cost: the distances and the edge, with direction, by which each vertex is reached.
    fn shortest(&self, source: usize, potential: &[i64]) -> (Vec<i64>, Vec<Option<(usize, i64)>>) {
        let mut distance = vec![FAR; self.n];
        let mut arrival = vec![None; self.n];
        let mut done = vec![false; self.n];
        distance[source] = 0;
        for _ in 0..self.n {
            let open = (0..self.n).filter(|&x| !done[x]);
            let x = open.min_by_key(|&x| distance[x]).expect("one is left");
            done[x] = true;
            for &(k, direction) in &self.incident[x] {
                let (y, cost) = self.residual(k, direction);
                let reduced = cost + potential[x] - potential[y];
                debug_assert!(reduced >= 0);
                if distance[x] + reduced < distance[y] {
                    distance[y] = distance[x] + reduced;
                    arrival[y] = Some((k, direction));
                }
            }
        }
        (distance, arrival)
    }

    /// Sends up to `amount` to `sink` along the path found, and says how much.
    fn augment(&mut self, arrival: &[Option<(usize, i64)>], sink: usize, amount: i64) -> i64 {
        let mut path = Vec::new();
        let mut at = sink;
        while let Some((k, direction)) = arrival[at] {
            path.push((k, direction));
            at = if direction > 0 {
                self.edges[k].0
            } else {
                self.edges[k].1
            };
        }
        let taken_back = path.iter().map(|&(k, direction)| self.flow[k] * direction);
        let bound = taken_back.filter(|&f| f < 0).map(|f| -f).min();
        let amount = amount.min(bound.unwrap_or(amount));
        for (k, direction) in path {
            self.flow[k] += direction * amount;
        }
        amount
    }

    fn cost(&self) -> u64 {
        let edges = self.edges.iter().zip(&self.flow);
        edges.map(|(e, f)| e.2 as u64 * f.unsigned_abs()).sum()
    }
}
