//! One graph and several calls: the best answer with its flow, another tree judged, distances, a refusal.
//!
//! Run it with `cargo run --example elbow`.

use weight_mover::{Answer, Graph, Refusal};

fn main() -> Result<(), Refusal> {
    // Two rings of three vertices round a limb, joined along its length, in hundredths of a millimetre.
    let graph = Graph::new(6)
        .edges([(0, 1, 210), (1, 2, 190), (0, 2, 205)])
        .edges([(3, 4, 180), (4, 5, 170), (3, 5, 175)])
        .edges([(0, 3, 340), (1, 4, 330), (2, 5, 350)]);
    let mu = [610, 240, 150, 0, 0, 0];
    let nu = [0, 100, 100, 300, 300, 200];

    let best = graph.solve(&mu, &nu)?;
    println!("best cost {} in {} moves", best.cost, best.moves);
    for (from, to, amount) in best.entries() {
        let path: Vec<String> = best.tree_path(from, to).iter().map(usize::to_string).collect();
        println!("  {amount:3} grains along {}", path.join(" - "));
    }
    for (x, flow) in best.flow().into_iter().enumerate().filter(|&(_, flow)| flow != 0) {
        println!(
            "  {:3} grains on the edge of {x} and {}",
            flow.abs(),
            best.parents[x]
        );
    }

    let parents = [0, 0, 1, 4, 5, 2];
    let chain = graph.evaluate(&mu, &nu, 0, &parents)?;
    let judged = graph.is_optimal(&mu, &nu, 0, &parents)?;
    println!("another tree costs {}; best: {judged}", chain.answer.cost);
    println!("from 0 to 5 it is {}", graph.distances()?.between(0, 5));

    // Many frames: the same answer is filled again and again.
    let mut answer = Answer::default();
    for grains in [100, 200, 300] {
        let after = [610 - grains, 240, 150, grains, 0, 0];
        graph.solve_into(&mu, &after, &mut answer)?;
        println!("{grains} grains to 3 cost {}", answer.cost);
    }

    // What is not sound is refused, with the reason.
    if let Err(refusal) = graph.solve(&mu, &[1000, 1, 0, 0, 0, 0]) {
        println!("{refusal}");
    }
    Ok(())
}
