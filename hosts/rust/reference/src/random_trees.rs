//! Spanning trees of a problem: cheapest ones, their neighbours, and those where descent stalls.

use crate::exhaustive::hang;
use crate::flow::least_flow;
use crate::problem::{Problem, Tree};
use crate::random::{forest, spanning_tree, Random};
use crate::tree::tree_cost;

type Pair = (usize, usize);

/// Two ends, the lower first.
fn pair(x: usize, y: usize) -> Pair {
    (x.min(y), x.max(y))
}

/// The edges of a tree.
fn pairs(tree: &Tree) -> Vec<Pair> {
    let others = (0..tree.parents.len()).filter(|&x| x != tree.root);
    others.map(|x| pair(x, tree.parents[x])).collect()
}

/// The path between two vertices of the tree that the pairs form, as vertices; none if they are not joined.
fn path(n: usize, pairs: &[Pair], from: usize, to: usize) -> Option<Vec<usize>> {
    let mut came = vec![None; n];
    let mut reached = vec![to];
    let mut next = 0;
    while let Some(&x) = reached.get(next) {
        for &(a, b) in pairs.iter().filter(|&&(a, b)| a == x || b == x) {
            let y = a + b - x;
            if y != to && came[y].is_none() {
                came[y] = Some(x);
                reached.push(y);
            }
        }
        next += 1;
    }
    let whole = from == to || came[from].is_some();
    whole.then(|| std::iter::successors(Some(from), |&x| came[x]).collect())
}

/// A cheapest spanning tree under a random root: the edges that carry a cheapest flow, and any others.
///
/// What is on a tree's edges follows from the measures, so every tree over those edges has that cost.
pub fn best_tree(random: &mut Random, problem: &Problem) -> Tree {
    let mut others: Vec<Pair> = problem.edges.iter().map(|e| (e.a, e.b)).collect();
    random.shuffle(&mut others);
    let order = carriers(problem).into_iter().chain(others);
    let chosen = forest(problem.n, order);
    hang(problem.n, &chosen, random.index(problem.n)).expect("a connected graph")
}

/// The edges that carry a cheapest flow, without a cycle among them.
fn carriers(problem: &Problem) -> Vec<Pair> {
    let mut flow = least_flow(problem);
    loop {
        let all = (0..flow.len()).filter(|&k| flow[k] != 0);
        let carrying: Vec<Pair> = all.map(|k| (problem.edges[k].a, problem.edges[k].b)).collect();
        let kept = forest(problem.n, carrying.iter().copied());
        let Some(&(a, b)) = carrying.iter().find(|p| !kept.contains(p)) else {
            return carrying;
        };
        let mut cycle = path(problem.n, &kept, b, a).expect("a cycle");
        cycle.push(b);
        cancel(problem, &mut flow, &cycle);
    }
}

/// Sends flow round a cycle until one of its edges carries nothing; a cheapest flow stays one.
fn cancel(problem: &Problem, flow: &mut [i64], cycle: &[usize]) {
    let step = |s: &[usize]| {
        let at = |e: &crate::Edge| (e.a, e.b) == pair(s[0], s[1]);
        let k = problem.edges.iter().position(at).expect("an edge");
        (k, if s[0] < s[1] { 1 } else { -1 })
    };
    let mut steps: Vec<(usize, i64)> = cycle.windows(2).map(step).collect();
    if steps.iter().all(|&(k, direction)| flow[k] * direction > 0) {
        steps.iter_mut().for_each(|s| s.1 = -s.1);
    }
    let against = steps.iter().map(|&(k, direction)| flow[k] * direction);
    let amount = against.filter(|&f| f < 0).map(|f| -f).min().expect("one against");
    for (k, direction) in steps {
        flow[k] += direction * amount;
    }
}

/// The trees that one exchange of edges makes: an edge comes in, another of the cycle goes out.
fn exchanges(problem: &Problem, tree: &Tree) -> Vec<Vec<Pair>> {
    let held = pairs(tree);
    let entering = problem
        .edges
        .iter()
        .map(|e| (e.a, e.b))
        .filter(|p| !held.contains(p));
    let exchange = |(a, b): Pair| {
        let cycle = path(problem.n, &held, a, b).expect("a tree");
        let leaving: Vec<Pair> = cycle.windows(2).map(|s| pair(s[0], s[1])).collect();
        let held = &held;
        leaving.into_iter().map(move |out| {
            let kept = held.iter().copied().filter(move |&p| p != out);
            kept.chain([(a, b)]).collect()
        })
    };
    entering.flat_map(exchange).collect()
}

/// A tree that differs by one exchange, or the same one if there is none.
pub fn neighbour(random: &mut Random, problem: &Problem, tree: &Tree) -> Tree {
    let held = pairs(tree);
    let outside = problem.edges.iter().map(|e| (e.a, e.b));
    let outside: Vec<Pair> = outside.filter(|p| !held.contains(p)).collect();
    if outside.is_empty() {
        return tree.clone();
    }
    let (a, b) = random.pick(&outside);
    let cycle = path(problem.n, &held, a, b).expect("a tree");
    let at = random.index(cycle.len() - 1);
    let out = pair(cycle[at], cycle[at + 1]);
    let mut changed: Vec<Pair> = held.into_iter().filter(|&p| p != out).collect();
    changed.push((a, b));
    hang(problem.n, &changed, random.index(problem.n)).expect("a tree")
}

/// A tree of which no single exchange makes a cheaper one, found by going down from a random tree. It need
/// not be a cheapest one. For small problems.
pub fn stalled_tree(random: &mut Random, problem: &Problem) -> Tree {
    let mut tree = spanning_tree(random, problem.n, &problem.edges);
    while let Some(cheaper) = cheaper_neighbour(problem, &tree) {
        tree = cheaper;
    }
    tree
}

/// A cheaper tree that differs by one exchange, if there is one.
pub fn cheaper_neighbour(problem: &Problem, tree: &Tree) -> Option<Tree> {
    let cost = tree_cost(problem, tree);
    let all = exchanges(problem, tree).into_iter();
    let mut trees = all.map(|pairs| hang(problem.n, &pairs, tree.root).expect("a tree"));
    trees.find(|other| tree_cost(problem, other) < cost)
}
