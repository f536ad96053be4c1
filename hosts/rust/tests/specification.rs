//! The specification's marked cases and the examples of its refusal table, through the library.

use reference::Problem;
use weight_mover::{mover_run, record_size, rewrite, run as run_image, Answer, Evaluation, Patch, Refusal};

const RING: [(u32, u32, u32); 4] = [(0, 1, 1), (0, 3, 1), (1, 2, 1), (2, 3, 1)];
const LINE: [(u32, u32, u32); 3] = [(0, 1, 2), (1, 2, 3), (2, 3, 1)];

/// The answer, by tables and by the image.
fn run(patch: Patch) -> Answer {
    let answer = patch.run().expect("accepted");
    let image = patch.image().expect("small numbers");
    assert_eq!(run_image(&image).expect("accepted").cost, answer.cost);
    answer
}

/// The evaluation of the given tree, and whether it is judged best.
fn weigh(patch: &Patch) -> (Evaluation, bool) {
    let (graph, (mu, nu)) = (patch.graph(), patch.measures());
    let (root, parents) = patch.given_tree().expect("a tree");
    let evaluation = graph.evaluate(mu, nu, root, parents).expect("accepted");
    assert_eq!(patch.run().as_ref(), Ok(&evaluation.answer));
    let judged = graph.is_optimal(mu, nu, root, parents);
    (evaluation, judged.expect("accepted"))
}

#[test]
fn case_a() {
    let a = Patch::new(4).edges(LINE).mu(&[5, 0, 1, 0]).nu(&[0, 2, 1, 3]);
    let given = a.clone().tree(3, &[1, 2, 3, 3]);
    let (evaluation, judged) = weigh(&given);
    assert_eq!((evaluation.imbalance, judged), (vec![5, 3, 3, 0], true));
    let answer = run(given);
    assert_eq!(answer.flow(), [5, 3, 3, 0]);
    assert_eq!((answer.cost, answer.moves), (22, 2));
    assert_eq!(answer.potential, [6, 4, 1, 0]);
    assert_eq!((answer.root, answer.parents.as_slice()), (3, &[1, 2, 3, 3][..]));
    let entries: Vec<_> = answer.entries().collect();
    assert_eq!(entries, [(0, 1, 2), (0, 3, 3), (2, 2, 1)]);
    assert_eq!(run(a).cost, 22);
}

#[test]
fn cases_b_and_c() {
    let b = Patch::new(4).edges(RING).mu(&[4, 0, 0, 0]).nu(&[0, 0, 0, 4]);
    let given = b.clone().tree(0, &[0, 0, 1, 2]);
    assert!(!weigh(&given).1);
    assert_eq!(run(given).cost, 12);
    assert_eq!(run(b).cost, 4);
    let c = Patch::new(4).edges(RING).mu(&[1; 4]).nu(&[1; 4]);
    let given = c.tree(0, &[0, 0, 1, 2]);
    assert!(weigh(&given).1);
    let answer = run(given);
    assert_eq!((answer.cost, answer.potential.as_slice()), (0, &[0, 0, 0, 0][..]));
}

/// A best tree whose own potential falls along edge (0, 2) by more than its length.
#[test]
fn own_potential() {
    let patch = Patch::new(3).edge(0, 1, 2).edge(0, 2, 1).edge(1, 2, 3);
    let given = patch.mu(&[1, 0, 0]).nu(&[0, 1, 0]).tree(0, &[0, 0, 1]);
    let (evaluation, judged) = weigh(&given);
    assert_eq!((evaluation.imbalance, judged), (vec![0, -1, 0], true));
    let answer = run(given);
    assert_eq!((answer.cost, answer.potential.as_slice()), (2, &[0, -2, -2][..]));
}

#[test]
fn case_d() {
    let d = Patch::new(3).edge(0, 1, 5).edge(0, 2, 1).edge(1, 2, 1);
    let distances = d.graph().distances().expect("accepted");
    assert_eq!(distances.table(), [0, 2, 1, 2, 0, 1, 1, 1, 0]);
    let answer = run(d.mu(&[3, 0, 0]).nu(&[0, 3, 0]));
    assert_eq!((answer.cost, answer.moves, answer.root), (6, 1, 0));
    assert_eq!(answer.amount(0, 1), 3);
    assert_eq!(answer.potential, [0, -2, -1]);
}

#[test]
fn case_e() {
    let e = Patch::new(1).mu(&[7]).nu(&[7]);
    for patch in [e.clone(), e.tree(0, &[0])] {
        let answer = run(patch);
        assert_eq!((answer.cost, answer.moves, answer.plan()), (0, 0, &[7][..]));
    }
}

#[test]
fn case_f() {
    let f = |grains: u64| Patch::new(2).edge(0, 1, 65_535).mu(&[grains, 0]).nu(&[0, grains]);
    assert_eq!(run(f(16_777_216)).cost, 1_099_494_850_560);
    assert_eq!(run(f(16_777_216).tree(1, &[1, 1])).cost, 1_099_494_850_560);
    assert_eq!(f(16_777_217).run(), Err(Refusal::TotalTooLarge));
}

#[test]
fn cases_g_and_h() {
    let line = Patch::new(6).edges((0..5).map(|x| (x, x + 1, 1)));
    let line = line.mu(&[1, 1, 0, 0, 0, 6]).nu(&[0, 0, 4, 2, 2, 0]);
    let g = line.clone().tree(5, &[1, 2, 3, 4, 5, 5]);
    assert_eq!(weigh(&g).0.imbalance, [1, 2, -2, -4, -6, 0]);
    let g = run(g);
    assert_eq!((g.cost, g.moves), (15, 5));
    assert_eq!(g.potential, [-1, -2, -3, -2, -1, 0]);
    let h = line.clone().tree(0, &[0, 0, 1, 2, 3, 4]);
    assert_eq!(weigh(&h).0.imbalance, [0, -1, -2, 2, 4, 6]);
    assert_eq!(run(h).cost, 15);
    assert_eq!(run(line).cost, 15);
}

/// A welded seam: a ring of edges of length 0, and an edge that leads out of it.
#[test]
fn seam() {
    let seam = Patch::new(4).edges([(0, 1, 0), (0, 2, 0), (1, 2, 0), (2, 3, 5)]);
    let seam = seam.mu(&[3, 0, 0, 0]).nu(&[0, 1, 0, 2]);
    let given = run(seam.clone().tree(0, &[0, 0, 1, 2]));
    assert_eq!((given.cost, given.moves), (10, 2));
    assert_eq!(given.potential, [0, 0, 0, -5]);
    assert_eq!(run(seam).cost, 10);
    let far = Patch::new(2).edge(0, 1, 65_535).mu(&[1, 0]).nu(&[0, 1]);
    assert_eq!(run(far).cost, 65_535);
}

/// The examples of the refusal table, over tables.
#[test]
fn refusal_table() {
    let two = || Patch::new(2).edge(0, 1, 1);
    let three = || Patch::new(3).edge(0, 1, 1).edge(1, 2, 1);
    assert_eq!(Patch::new(0).run(), Err(Refusal::VertexCount));
    assert_eq!(Patch::new(65).run(), Err(Refusal::VertexCount));
    assert_eq!(two().mu(&[0, 0, 0]).run(), Err(Refusal::TableSize));
    assert_eq!(two().tree(0, &[0]).run(), Err(Refusal::TableSize));
    let crowded = (0..513).fold(Patch::new(2), |patch, _| patch.edge(0, 1, 1));
    assert_eq!(crowded.run(), Err(Refusal::TableSize));
    assert_eq!(two().edge(0, 1, 2).run(), Err(Refusal::EdgeOrder));
    assert_eq!(two().edge(1, 2, 2).run(), Err(Refusal::EdgeOrder));
    assert_eq!(two().edge(1, 1, 2).run(), Err(Refusal::EdgeOrder));
    assert_eq!(Patch::new(2).edge(0, 1, 65_536).run(), Err(Refusal::EdgeLength));
    assert_eq!(Patch::new(3).edge(0, 1, 1).run(), Err(Refusal::NotConnected));
    let heavy = Patch::new(1).mu(&[16_777_217]).nu(&[16_777_217]);
    assert_eq!(heavy.run(), Err(Refusal::TotalTooLarge));
    assert_eq!(Patch::new(1).mu(&[3]).nu(&[4]).run(), Err(Refusal::TotalsDiffer));
    assert_eq!(two().tree(0, &[1, 0]).run(), Err(Refusal::TreeParents));
    assert_eq!(three().tree(0, &[0, 0, 0]).run(), Err(Refusal::TreeEdge));
    assert_eq!(three().tree(0, &[0, 2, 1]).run(), Err(Refusal::TreeCycle));
}

/// The examples of the refusal table that are about images.
#[test]
fn refusal_table_of_images() {
    let two = |mu: &[u64]| Problem::new(2, &[(0, 1, 1)], mu, &[0, 0]);
    let none = Problem::new(0, &[], &[], &[]);
    assert_eq!(run_image(&none.image()), Err(Refusal::VertexCount));
    let many = Problem::new(65, &[], &[0; 65], &[0; 65]);
    assert_eq!(run_image(&many.image()), Err(Refusal::VertexCount));
    assert_eq!(run_image(&two(&[1]).image()), Err(Refusal::SectionLength));
    let one_parent = two(&[0, 0]).with_tree(0, &[0]);
    assert_eq!(run_image(&one_parent.image()), Err(Refusal::SectionLength));

    let image = two(&[0, 0]).image();
    let mut record = [0xA5; record_size(2)];
    assert_eq!(mover_run(&image[..35], &mut record), 11);
    assert_eq!(mover_run(&[], &mut []), 11);
    assert_eq!(mover_run(&vec![0; 65_537], &mut record), 11);
    let mut moved = image.clone();
    moved[4] = 35;
    assert_eq!(mover_run(&moved, &mut record), 12);
    let mut reversed = image.clone();
    reversed[36..38].copy_from_slice(&[1, 0]);
    assert_eq!(mover_run(&reversed, &mut record), 3);
    assert_eq!(mover_run(&image, &mut record[1..]), 2);
    assert_eq!(record, [0xA5; record_size(2)]);
    assert_eq!(mover_run(&image, &mut record), 0);
}

/// The image of case A.
#[rustfmt::skip]
const IMAGE_OF_CASE_A: [u8; 85] = [
    4, 0, 3, 0,
    36, 0, 0, 0, 12, 0, 0, 0,
    48, 0, 0, 0, 16, 0, 0, 0,
    64, 0, 0, 0, 16, 0, 0, 0,
    80, 0, 0, 0, 5, 0, 0, 0,
    0, 1, 2, 0, 1, 2, 3, 0, 2, 3, 1, 0,
    5, 0, 0, 0, 0, 0, 0, 0, 1, 0, 0, 0, 0, 0, 0, 0,
    0, 0, 0, 0, 2, 0, 0, 0, 1, 0, 0, 0, 3, 0, 0, 0,
    3, 1, 2, 3, 3,
];

/// Written, and written anew of one with a gap and a tail.
#[test]
fn image_of_case_a() {
    let plain = Patch::new(4).edges(LINE).mu(&[5, 0, 1, 0]).nu(&[0, 2, 1, 3]);
    let given = plain.clone().tree(3, &[1, 2, 3, 3]);
    let mut without = IMAGE_OF_CASE_A[..80].to_vec();
    without[32] = 0;
    for (patch, image) in [(given, IMAGE_OF_CASE_A.to_vec()), (plain, without)] {
        assert_eq!(patch.image(), Ok(image.clone()));
        let mut apart = image.clone();
        apart[28] += 2;
        apart.splice(80..80, [7, 7]);
        apart.push(7);
        assert_eq!(rewrite(&apart), Ok(image.clone()));
        assert_eq!(rewrite(&image), Ok(image));
    }
}

/// What the writer examines, each by its own number; what it does not examine it writes.
#[test]
fn refusal_table_of_the_writer() {
    let two = || Patch::new(2).edge(0, 1, 1);
    assert_eq!(Patch::new(0).image(), Err(Refusal::VertexCount));
    assert_eq!(Patch::new(65).image(), Err(Refusal::VertexCount));
    assert_eq!(two().mu(&[0, 0, 0]).image(), Err(Refusal::TableSize));
    assert_eq!(two().tree(0, &[0]).image(), Err(Refusal::TableSize));
    let crowded = (0..513).fold(Patch::new(2), |patch, _| patch.edge(0, 1, 1));
    assert_eq!(crowded.image(), Err(Refusal::TableSize));
    assert_eq!(two().edge(0, 256, 1).image(), Err(Refusal::SectionLength));
    assert_eq!(two().edge(256, 257, 1).image(), Err(Refusal::SectionLength));
    assert_eq!(two().edge(0, 1, 65_536).image(), Err(Refusal::SectionLength));
    assert_eq!(two().mu(&[0, 1 << 32]).image(), Err(Refusal::SectionLength));
    assert_eq!(two().nu(&[1 << 32, 0]).image(), Err(Refusal::SectionLength));
    assert_eq!(two().tree(256, &[0, 0]).image(), Err(Refusal::SectionLength));
    assert_eq!(two().tree(0, &[0, 256]).image(), Err(Refusal::SectionLength));

    assert_eq!(two().tree(256, &[0]).image(), Err(Refusal::TableSize));
    assert_eq!(Patch::new(65).edge(0, 256, 1).image(), Err(Refusal::VertexCount));

    let odd = Patch::new(3)
        .edges([(9, 200, 0), (9, 200, 1)])
        .mu(&[1, 0, u32::MAX.into()]);
    assert!(odd.tree(255, &[1, 0, 7]).image().is_ok());
}

/// Edges are handed over in rising order, however they were added.
#[test]
fn builder_sorts_edges() {
    let sorted = Patch::new(4).edges(LINE).mu(&[1, 0, 0, 0]).nu(&[0, 0, 0, 1]);
    let mixed = Patch::new(4).edge(3, 2, 1).edge(1, 0, 2).edge(2, 1, 3);
    let mixed = mixed.mu(&[1, 0, 0, 0]).nu(&[0, 0, 0, 1]);
    assert!(mixed.image().is_ok());
    assert_eq!(mixed.image(), sorted.image());
    assert_eq!(run(mixed).cost, 6);
}
