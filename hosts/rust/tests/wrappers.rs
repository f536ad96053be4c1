//! The safe wrappers: the same answers as the calls, buffers that are reused, numbers that do not wrap, flow, pages,
//! reports.
//!
//! `MOVER_CASES` and `MOVER_SEED` are as in the differential tests.

use reference::page::page;
use reference::random::{self, Fault, Random, FAULTS};
use reference::random_lists::{faulty_lists, sound_problem, ListFault, LIST_FAULTS, SHARED_FAULTS};
use reference::random_pages::{printable, unprintable, UNPRINTABLE};
use reference::random_queries::{faulty_query, sound_query, Query, UNASKABLE};
use reference::random_writer::{accepted, refused, Given, UNWRITABLE};
use reference::record::Record;
use reference::runs::{cases, seed};
use reference::sequences::{misplace, of_size, pool, some_of, transport, MISPLACED};
use reference::weights::weight;
use reference::writer::{rewrite as anew, write};
use reference::Lists;
use std::fmt::Debug;
use weight_mover::calls::{
    mover_distances, mover_distances_of_records, mover_evaluate, mover_is_optimal, mover_mark_ancestors,
    mover_nearest_vertex, mover_report, mover_solve, mover_to_amounts, mover_to_weights,
    mover_vertices_within, mover_write_page,
};
use weight_mover::{
    distances_of_records, distances_of_records_into, image_size, mark_ancestors, pack, page_size, read,
    read_into, report, report_by_parts, rewrite, rewrite_into, run, run_into, to_amounts, to_amounts_into,
    to_weights, to_weights_into, Answer, Distances, Edge, Evaluation, Graph, Patch, Refusal, Report, Tree,
};

/// The graph of some lists, its edges added in any order and their ends either way.
fn graph(random: &mut Random, lists: &Lists) -> Graph {
    let triples = lists.a.iter().zip(&lists.b).zip(&lists.lengths);
    let mut edges: Vec<(u32, u32, u32)> = triples
        .map(|((&a, &b), &length)| {
            if random.chance(2) {
                (b, a, length)
            } else {
                (a, b, length)
            }
        })
        .collect();
    random.shuffle(&mut edges);
    Graph::new(lists.n).edges(edges)
}

/// The lists of a graph: lower ends, upper ends and lengths.
fn columns(graph: &Graph) -> [Vec<u32>; 3] {
    let fields: [fn(Edge) -> u32; 3] = [|e| e.a, |e| e.b, |e| e.length];
    fields.map(|field| graph.iter().map(field).collect())
}

/// What all wrappers give, filled anew or into what is there.
#[derive(Clone, Debug, Default, PartialEq)]
struct Filled {
    distances: Distances,
    of_records: Distances,
    evaluation: Evaluation,
    answer: Answer,
}

/// The results of all wrappers, in this order: distances, records, evaluating, judging, solving.
type Results = [Result<(), Refusal>; 5];

fn fill(graph: &Graph, lists: &Lists, filled: &mut Filled) -> (Results, Option<bool>) {
    let Lists {
        n,
        mu,
        nu,
        root,
        parents,
        ..
    } = lists;
    let records: Vec<Edge> = graph.iter().collect();
    let judged = graph.is_optimal(mu, nu, *root, parents);
    let results = [
        graph.distances_into(&mut filled.distances),
        distances_of_records_into(*n, &records, &mut filled.of_records),
        graph.evaluate_into(mu, nu, *root, parents, &mut filled.evaluation),
        judged.map(|_| ()),
        graph.solve_into(mu, nu, &mut filled.answer),
    ];
    (results, judged.ok())
}

/// The numbers that the calls return for the lists of a graph.
fn numbers(graph: &Graph, lists: &Lists) -> [u32; 5] {
    let edges: Vec<Edge> = graph.iter().collect();
    let [a, b, lengths] = columns(graph);
    let Lists {
        n,
        mu,
        nu,
        root,
        parents,
        ..
    } = lists;
    let (mut row, mut other, mut table) = ([0; 64], [0; 64], [0; 4096]);
    let (mut list, mut cost, mut moves, mut optimal) = ([0; 64], 0, 0, 0);
    [
        mover_distances(*n, &a, &b, &lengths, &mut table),
        mover_distances_of_records(*n, &edges, &mut table),
        mover_evaluate(
            *n, &a, &b, &lengths, mu, nu, *root, parents, &mut row, &mut other, &mut table, &mut cost,
            &mut moves,
        ),
        mover_is_optimal(*n, &a, &b, &lengths, mu, nu, *root, parents, &mut optimal),
        mover_solve(
            *n, &a, &b, &lengths, mu, nu, &mut list, &mut row, &mut table, &mut cost, &mut moves,
        ),
    ]
}

fn same<T: PartialEq + Debug>(name: &str, got: &T, expected: &T) -> Result<(), String> {
    match got == expected {
        true => Ok(()),
        false => Err(format!("{name}: expected {expected:?}, but got {got:?}")),
    }
}

/// Tests what the wrappers filled against the calls themselves, made with tables that are longer.
fn agree(graph: &Graph, lists: &Lists, filled: &Filled, judged: bool) -> Result<(), String> {
    agree_on_distances(lists, filled)?;
    agree_on_the_given_tree(lists, &filled.evaluation, judged)?;
    agree_on_the_best(lists, &filled.answer)?;
    agree_with_each_other(graph, lists, filled)
}

fn agree_on_distances(lists: &Lists, filled: &Filled) -> Result<(), String> {
    let (n, mut table) = (lists.n, [0; 5000]);
    let number = mover_distances(n, &lists.a, &lists.b, &lists.lengths, &mut table);
    assert_eq!(number, 0);
    same("distances", &filled.distances.table(), &&table[..n * n])?;
    same("of records", &filled.of_records, &filled.distances)?;
    same("vertices", &filled.distances.vertices(), &n)?;
    let between = (0..n * n).map(|k| filled.distances.between(k / n, k % n));
    same("between", &between.eq(table[..n * n].iter().copied()), &true)
}

fn agree_on_the_given_tree(lists: &Lists, evaluation: &Evaluation, judged: bool) -> Result<(), String> {
    let Lists {
        n,
        a,
        b,
        lengths,
        mu,
        nu,
        root,
        parents,
    } = lists;
    let (n, root) = (*n, *root);
    let (mut row, mut other, mut table) = ([0; 99], [0; 99], [0; 5000]);
    let (mut cost, mut moves, mut optimal) = (0, 0, 0);
    let number = mover_evaluate(
        n, a, b, lengths, mu, nu, root, parents, &mut row, &mut other, &mut table, &mut cost, &mut moves,
    );
    assert_eq!(number, 0);
    let Evaluation { imbalance, answer } = evaluation;
    same("imbalance", &&imbalance[..], &&row[..n])?;
    same("potential", &&answer.potential[..], &&other[..n])?;
    same("plan", &answer.plan(), &&table[..n * n])?;
    same("tree", &(answer.root, &answer.parents), &(root, parents))?;
    same("figures", &(answer.cost, answer.moves), &(cost, moves))?;
    let number = mover_is_optimal(n, a, b, lengths, mu, nu, root, parents, &mut optimal);
    assert_eq!(number, 0);
    same("judged", &judged, &(optimal == 1))
}

fn agree_on_the_best(lists: &Lists, answer: &Answer) -> Result<(), String> {
    let Lists {
        n,
        a,
        b,
        lengths,
        mu,
        nu,
        ..
    } = lists;
    let n = *n;
    let (mut list, mut row, mut table) = ([0; 99], [0; 99], [0; 5000]);
    let (mut cost, mut moves) = (0, 0);
    let number = mover_solve(
        n, a, b, lengths, mu, nu, &mut list, &mut row, &mut table, &mut cost, &mut moves,
    );
    assert_eq!(number, 0);
    same("best potential", &&answer.potential[..], &&row[..n])?;
    same("best plan", &answer.plan(), &&table[..n * n])?;
    same("best tree", &(answer.root, &answer.parents[..]), &(0, &list[..n]))?;
    same("best figures", &(answer.cost, answer.moves), &(cost, moves))
}

/// The convenient wrappers give the same again, and so does filling over another tree's answer.
fn agree_with_each_other(graph: &Graph, lists: &Lists, filled: &Filled) -> Result<(), String> {
    let Lists {
        n,
        mu,
        nu,
        root,
        parents,
        ..
    } = lists;
    let records: Vec<Edge> = graph.iter().collect();
    same("distances()", &graph.distances().as_ref(), &Ok(&filled.distances))?;
    let of_records = distances_of_records(*n, &records);
    same(
        "distances_of_records()",
        &of_records.as_ref(),
        &Ok(&filled.of_records),
    )?;
    let evaluation = graph.evaluate(mu, nu, *root, parents);
    same("evaluate()", &evaluation.as_ref(), &Ok(&filled.evaluation))?;
    same("solve()", &graph.solve(mu, nu).as_ref(), &Ok(&filled.answer))?;
    let mut over = filled.evaluation.answer.clone();
    graph.solve_into(mu, nu, &mut over).expect("accepted");
    same("solve_into()", &over, &filled.answer)
}

/// Wrappers give what the calls give, also into what was filled before with more or fewer vertices.
#[test]
fn wrappers_agree_with_the_calls() {
    let seed = seed();
    let mut filled = Filled::default();
    for index in 0..cases(2_000) {
        let random = &mut Random::for_case(seed, index);
        let lists = Lists::of(&sound_problem(random));
        let graph = graph(random, &lists);
        let (results, judged) = fill(&graph, &lists, &mut filled);
        assert_eq!(results, [Ok(()); 5]);
        let result = agree(&graph, &lists, &filled, judged.expect("judged"));
        result.unwrap_or_else(|complaint| panic!("seed {seed}, case {index}: {complaint}"));
    }
    println!("wrappers against the calls: seed {seed}, {} cases", cases(2_000));
}

type Spoil = fn(&mut Filled, &mut bool);

/// The test above can fail: whatever is spoiled is missed.
#[test]
fn wrong_wrappers_are_caught() {
    let spoils: [(&str, Spoil); 10] = [
        ("distances", |f, _| {
            f.distances = Graph::new(1).distances().expect("accepted")
        }),
        ("of records", |f, _| {
            f.of_records = Graph::new(1).distances().expect("accepted")
        }),
        ("imbalance", |f, _| f.evaluation.imbalance.push(0)),
        ("potential", |f, _| f.evaluation.answer.potential[0] += 1),
        ("tree", |f, _| f.evaluation.answer.root += 1),
        ("figures", |f, _| f.evaluation.answer.cost += 1),
        ("judged", |_, judged| *judged = !*judged),
        ("best potential", |f, _| f.answer.potential[0] += 1),
        ("best tree", |f, _| f.answer.parents[0] += 1),
        ("best figures", |f, _| f.answer.moves += 1),
    ];
    let random = &mut Random::new(3);
    let lists = Lists::of(&sound_problem(random));
    let graph = graph(random, &lists);
    let mut right = Filled::default();
    let judged = fill(&graph, &lists, &mut right).1.expect("judged");
    assert!(lists.n > 1);
    assert_eq!(agree(&graph, &lists, &right, judged), Ok(()));
    for (name, spoil) in spoils {
        let (mut filled, mut judged) = (right.clone(), judged);
        spoil(&mut filled, &mut judged);
        let complaint = agree(&graph, &lists, &filled, judged).expect_err(name);
        assert!(complaint.starts_with(&format!("{name}: ")), "{name}: {complaint}");
    }
}

/// After a refusal, which is the call's own, what was filled before is as it was.
#[test]
fn refusals_leave_what_is_there() {
    let seed = seed();
    let mut filled = Filled::default();
    let mut seen = [[false; 11]; 5];
    let count = cases(4_000);
    for index in 0..count {
        let random = &mut Random::for_case(seed, index);
        let fault = random.index(SHARED_FAULTS.len() + LIST_FAULTS.len());
        let (shared, others): (&[Fault], &[ListFault]) = match fault.checked_sub(SHARED_FAULTS.len()) {
            None => (&[SHARED_FAULTS[fault]], &[]),
            Some(k) => (&[], &[LIST_FAULTS[k]]),
        };
        let lists = faulty_lists(random, shared, others);
        let graph = graph(random, &lists);
        let before = filled.clone();
        let expected = numbers(&graph, &lists);
        let (results, judged) = fill(&graph, &lists, &mut filled);
        assert_eq!(
            results,
            expected.map(Refusal::check),
            "seed {seed}, case {index}: {lists:?}"
        );
        assert_eq!(judged.is_some(), expected[3] == 0);
        let unchanged = [
            filled.distances == before.distances,
            filled.of_records == before.of_records,
            filled.evaluation == before.evaluation,
            true,
            filled.answer == before.answer,
        ];
        for call in 0..5 {
            let number = expected[call];
            assert!(
                number == 0 || unchanged[call],
                "seed {seed}, case {index}, call {call}: {lists:?}"
            );
            seen[call][number as usize] = true;
        }
    }
    for (call, last) in [5, 5, 10, 10, 7].into_iter().enumerate() {
        let came: Vec<usize> = (1..11).filter(|&k| seen[call][k]).collect();
        assert!(
            count < 2_000 || came == (1..=last).collect::<Vec<_>>(),
            "call {call}: {came:?}"
        );
    }
}

/// Filling again what was as large before allocates nothing: the tables stay where they are.
#[test]
fn buffers_are_reused() {
    let edges = |n: u32| (1..n).map(|x| (x - 1, x, 3));
    let graph = |n: u32| Graph::new(n as usize).edges(edges(n));
    let ones = [1; 64];
    let parents: Vec<u32> = (0..64u32).map(|x| x.saturating_sub(1)).collect();
    let places = |f: &Filled| {
        [
            f.distances.table().as_ptr() as usize,
            f.evaluation.imbalance.as_ptr() as usize,
            f.evaluation.answer.potential.as_ptr() as usize,
            f.evaluation.answer.plan().as_ptr() as usize,
            f.answer.parents.as_ptr() as usize,
            f.answer.plan().as_ptr() as usize,
        ]
    };
    let mut filled = Filled::default();
    let mut patch = Patch::default();
    let mut run_before = Answer::default();
    let mut first = None;
    for n in [64, 5, 64, 1, 33] {
        let size = n as usize;
        let (graph, mu, parents) = (graph(n), &ones[..size], &parents[..size]);
        graph.distances_into(&mut filled.distances).expect("accepted");
        let evaluation = &mut filled.evaluation;
        graph
            .evaluate_into(mu, mu, 0, parents, evaluation)
            .expect("accepted");
        graph.solve_into(mu, mu, &mut filled.answer).expect("accepted");
        let given = Patch::new(size).edges(edges(n)).mu(mu).nu(mu).tree(0, parents);
        let image = given.image().expect("small numbers");
        read_into(&image, &mut patch).expect("accepted");
        assert_eq!(patch, given);
        run_into(&image, &mut run_before).expect("accepted");
        let (mu, nu) = patch.measures();
        let mut now = places(&filled).to_vec();
        now.extend([
            mu.as_ptr() as usize,
            nu.as_ptr() as usize,
            run_before.plan().as_ptr() as usize,
        ]);
        assert_eq!(*first.get_or_insert(now.clone()), now, "{n} vertices");
    }
}

/// Numbers that would be right if they were cut to fewer bits are refused for what they are.
#[test]
fn numbers_do_not_wrap() {
    let two = |length: u32| Graph::new(2).edge(0, 1, length);
    assert_eq!(two(65_536 + 7).distances(), Err(Refusal::EdgeLength));
    assert_eq!(two(65_536).solve(&[1, 0], &[0, 1]), Err(Refusal::EdgeLength));
    for end in [256 + 1, 65_536 + 1, u32::MAX] {
        assert_eq!(Graph::new(2).edge(0, end, 1).distances(), Err(Refusal::EdgeOrder));
    }
    for n in [256 + 2, (1 << 32) + 2, usize::MAX] {
        assert_eq!(Graph::new(n).edge(0, 1, 1).distances(), Err(Refusal::VertexCount));
        assert_eq!(Patch::new(n).edge(0, 1, 1).run(), Err(Refusal::VertexCount));
    }
    let heavy = Err(Refusal::TotalTooLarge);
    assert_eq!(two(1).solve(&[(1 << 32) + 1, 0], &[1, 0]), heavy);
    assert_eq!(two(1).solve(&[(1 << 63) + 1, 1 << 63], &[1, 0]), heavy);
    for root in [256, 1 << 32, usize::MAX] {
        assert_eq!(
            two(1).evaluate(&[1, 0], &[0, 1], root, &[0, 0]).err(),
            Some(Refusal::TreeParents)
        );
        assert_eq!(
            two(1).is_optimal(&[1, 0], &[0, 1], root, &[0, 0]),
            Err(Refusal::TreeParents)
        );
    }
    for parent in [256, 65_536, u32::MAX] {
        assert_eq!(
            two(1).is_optimal(&[1, 0], &[0, 1], 0, &[0, parent]),
            Err(Refusal::TreeParents)
        );
    }
    for start in [2, 256, 256 + 1, 1 << 32, 1 << 63, usize::MAX] {
        assert_eq!(two(1).vertices_within(start, 1), Err(Refusal::StartVertex));
        assert_eq!(two(1).nearest_vertex(start, &[1, 0]), Err(Refusal::StartVertex));
    }
    for amounts in [[(1 << 32) + 1, 0], [(1 << 63) + 1, 1 << 63], [u64::MAX, 2]] {
        let heavy = Err(Refusal::TotalTooLarge);
        assert_eq!(two(1).nearest_vertex(0, &amounts), heavy);
    }
}

/// Nor do they in an image: what would be right if it were cut to its bytes is refused.
#[test]
fn numbers_do_not_wrap_in_an_image() {
    let two = || {
        Patch::new(2)
            .edge(0, 1, 65_535)
            .mu(&[u32::MAX.into(), 0])
            .tree(255, &[255, 0])
    };
    assert_eq!(read(&two().image().expect("all fits")), Ok(two()));
    for n in [256 + 2, 65_536 + 2, (1 << 32) + 2, usize::MAX] {
        let patch = Patch::new(n).edge(0, 1, 1).mu(&[1, 0]).nu(&[0, 1]);
        assert_eq!(patch.image(), Err(Refusal::VertexCount));
    }
    let crowded = (0..65_536 + 1).fold(Patch::new(2), |patch, _| patch.edge(0, 1, 1));
    assert_eq!(crowded.image(), Err(Refusal::TableSize));
    let too_large = Err(Refusal::SectionLength);
    for end in [256, 256 + 1, 65_536 + 1, u32::MAX] {
        assert_eq!(two().edge(0, end, 1).image(), too_large);
        assert_eq!(two().edge(end, end, 1).image(), too_large);
        assert_eq!(two().tree(0, &[0, end]).image(), too_large);
    }
    for length in [65_536, 65_536 + 7, u32::MAX] {
        assert_eq!(two().edge(0, 2, length).image(), too_large);
    }
    for amount in [1 << 32, (1 << 32) + 1, 1 << 63, u64::MAX] {
        assert_eq!(two().mu(&[amount, 0]).image(), too_large);
        assert_eq!(two().nu(&[0, amount]).image(), too_large);
    }
    for root in [256, 256 + 1, 1 << 32, usize::MAX] {
        assert_eq!(two().tree(root, &[0, 0]).image(), too_large);
    }
}

/// The image of a patch is what is to be written of it, or the refusal, whatever numbers it has. It reads as the
/// patch.
#[test]
fn images_of_patches() {
    let (seed, count) = (seed(), cases(1_000));
    let mut seen = [0; 14];
    for index in 0..count {
        let random = &mut Random::for_case(seed, index);
        let fault = random.pick(&UNWRITABLE);
        let Given { lists, tree, .. } = match random.below(3) {
            0 => accepted(random),
            _ => refused(random, &[fault]),
        };
        let edges = graph(random, &lists);
        let edges = edges.iter().map(|e| (e.a, e.b, e.length));
        let mut patch = Patch::new(lists.n).edges(edges).mu(&lists.mu).nu(&lists.nu);
        if tree {
            patch = patch.tree(lists.root, &lists.parents);
        }
        let [a, b, lengths] = columns(patch.graph());
        let lists = Lists {
            a,
            b,
            lengths,
            ..lists
        };
        let expected = write(&lists, tree, usize::MAX);
        let image = patch.image();
        let got = image.clone().map_err(Refusal::number);
        assert_eq!(got, expected, "seed {seed}, case {index}: {lists:?}");
        seen[got.err().unwrap_or(0) as usize] += 1;
        if let Ok(image) = image {
            assert_eq!(read(&image), Ok(patch), "seed {seed}, case {index}");
        }
    }
    println!("images of patches: seed {seed}, {count} cases, numbers {seen:?}");
    let own = (0..14).all(|k| (seen[k] > 0) == [0, 1, 2, 13].contains(&k));
    assert!(count < 500 || own, "{seen:?}");
}

/// An image written anew is what the call writes, into a new list and into one buffer again and again.
#[test]
fn images_anew() {
    let (seed, count) = (seed(), cases(3_000));
    let mut buffer = [7; 3_000];
    let (mut seen, mut short) = ([0; 14], 0);
    for index in 0..count {
        let random = &mut Random::for_case(seed, index);
        let image = match index % 3 {
            0 => random::valid_case(random).image,
            1 => random::damaged_case(random).image,
            _ => random::faulty_case(random, &[FAULTS[index as usize / 3 % FAULTS.len()]]).image,
        };
        let expected = anew(&image, usize::MAX);
        assert_eq!(
            rewrite(&image).map_err(Refusal::number),
            expected,
            "seed {seed}, case {index}"
        );
        let size = expected.map_or(50, |written| written.len());
        let fewer = random.index(size);
        let places = random.pick(&[3_000, size, size - 1, fewer]);
        let mut after = buffer;
        let length = rewrite_into(&image, &mut after[..places]);
        match anew(&image, places) {
            Ok(written) => {
                buffer[..written.len()].copy_from_slice(&written);
                assert_eq!(length, Ok(written.len()), "seed {seed}, case {index}");
            }
            Err(number) => {
                assert_eq!(length.map_err(Refusal::number), Err(number));
                seen[number as usize] += 1;
                short += u64::from(number == 2 && places < size);
            }
        }
        assert!(buffer == after, "seed {seed}, case {index}");
    }
    println!("images anew: seed {seed}, {count} cases, numbers {seen:?}, of short buffers {short}");
    let own = (0..14).all(|k| (seen[k] > 0) == [1, 2, 11, 12, 13].contains(&k));
    assert!(count < 1_000 || own && short > 0, "{seen:?}");
}

/// There is room for the largest image: 64 vertices, 512 edges and a tree.
#[test]
fn largest_image() {
    let edges = (0..64).flat_map(|a| (a + 1..64).map(move |b| (a, b, 65_535)));
    let patch = Patch::new(64).edges(edges.take(512)).tree(63, &[63; 64]);
    let image = patch.image().expect("all fits");
    assert_eq!((image.len(), image_size(64, 512, true)), (2_661, 2_661));
    let mut long = image.clone();
    long.resize(65_536, 7);
    assert_eq!(rewrite(&long), Ok(image));
    long.push(7);
    assert_eq!(rewrite(&long), Err(Refusal::ImageSize));
}

/// What an image holds comes back from it, and is run as it is over tables.
#[test]
fn images() {
    let seed = seed();
    let mut reused = (Patch::default(), Answer::default());
    for index in 0..cases(1_000) {
        let random = &mut Random::for_case(seed, index);
        let lists = Lists::of(&sound_problem(random));
        let triples = graph(random, &lists);
        let edges = triples.iter().map(|e| (e.a, e.b, e.length));
        let mut patch = Patch::new(lists.n).edges(edges).mu(&lists.mu).nu(&lists.nu);
        if random.chance(2) {
            patch = patch.tree(lists.root, &lists.parents);
        }
        let image = patch.image().expect("small numbers");
        assert_eq!(read(&image).as_ref(), Ok(&patch), "seed {seed}, case {index}");
        read_into(&image, &mut reused.0).expect("accepted");
        assert_eq!(reused.0, patch, "seed {seed}, case {index}");

        let answer = run(&image).expect("accepted");
        run_into(&image, &mut reused.1).expect("accepted");
        assert_eq!(reused.1, answer);
        let by_tables = patch.run().expect("accepted");
        assert_eq!(by_tables.cost, answer.cost, "seed {seed}, case {index}");
        if patch.given_tree().is_some() {
            assert_eq!(by_tables, answer, "seed {seed}, case {index}");
        }

        // A refusal leaves both as they were.
        assert_eq!(read_into(&image[..35], &mut reused.0), Err(Refusal::ImageSize));
        assert_eq!(run_into(&image[..35], &mut reused.1), Err(Refusal::ImageSize));
        assert_eq!(reused, (patch, answer));
    }
}

/// Tests a flow by all that it says: a tree's imbalances, the cost, and that nothing crosses an edge both ways.
fn check_flow(graph: &Graph, answer: &Answer, imbalance: &[i32], flow: &[i64]) -> Result<(), String> {
    let expected: Vec<i64> = imbalance.iter().map(|&x| x.into()).collect();
    same("flow", &flow, &&expected[..])?;
    let others = || (0..answer.vertices()).filter(|&x| x != answer.root);
    let length = |x: usize| {
        let pair = Edge::from((x as u32, answer.parents[x], 0));
        let edge = graph.iter().find(|e| (e.a, e.b) == (pair.a, pair.b));
        u64::from(edge.expect("an edge").length)
    };
    let cost = others().map(|x| length(x) * flow[x].unsigned_abs()).sum();
    same("cost", &answer.cost, &cost)?;
    let crossing = |x: usize| {
        let up = answer.parents[x] as usize;
        let crosses = |s: &[usize]| s == [x, up] || s == [up, x];
        let moves = answer
            .entries()
            .filter(|&(from, to, _)| answer.tree_path(from, to).windows(2).any(crosses));
        moves.map(|e| u64::from(e.2)).sum::<u64>()
    };
    for x in others() {
        same("crossing", &crossing(x), &flow[x].unsigned_abs())?;
    }
    Ok(())
}

#[test]
fn flow_is_the_imbalance() {
    let seed = seed();
    for index in 0..cases(500) {
        let random = &mut Random::for_case(seed, index);
        let lists = Lists::of(&sound_problem(random));
        let graph = graph(random, &lists);
        let Lists {
            mu,
            nu,
            root,
            parents,
            ..
        } = &lists;
        let given = graph.evaluate(mu, nu, *root, parents).expect("accepted");
        let best = graph.solve(mu, nu).expect("accepted");
        let best = graph.evaluate(mu, nu, 0, &best.parents).expect("accepted");
        for Evaluation { imbalance, answer } in [given, best] {
            let result = check_flow(&graph, &answer, &imbalance, &answer.flow());
            result.unwrap_or_else(|complaint| panic!("seed {seed}, case {index}: {complaint}"));
        }
    }
}

/// The test above can fail: wrong flows, and a plan that crosses an edge both ways, are caught.
#[test]
fn wrong_flows_are_caught() {
    let line = Graph::new(3).edge(0, 1, 10).edge(1, 2, 20);
    let right = line
        .evaluate(&[5, 0, 1], &[0, 4, 2], 1, &[1, 1, 1])
        .expect("accepted");
    let (imbalance, answer) = (&right.imbalance, &right.answer);
    assert_eq!(check_flow(&line, answer, imbalance, &answer.flow()), Ok(()));
    for wrong in [[-5, 0, 1], [5, 0, 0], [5, 1, -1]] {
        let complaint = check_flow(&line, answer, imbalance, &wrong).unwrap_err();
        assert!(complaint.starts_with("flow: "), "{complaint}");
    }
    let mut cheaper = answer.clone();
    cheaper.cost -= 1;
    assert!(check_flow(&line, &cheaper, imbalance, &answer.flow()).is_err());
    // Another plan of the same flow: 2 sends a grain to 1 and gets two from 0.
    let crossed = Record {
        cost: answer.cost,
        moves: 3,
        tree: reference::Tree {
            root: 1,
            parents: vec![1, 1, 1],
        },
        potential: vec![0; 3],
        plan: vec![0, 3, 2, 0, 0, 0, 0, 1, 0],
    };
    let crossed = Answer::from_record(3, &crossed.to_bytes());
    let complaint = check_flow(&line, &crossed, imbalance, &crossed.flow()).unwrap_err();
    assert!(complaint.starts_with("crossing: "), "{complaint}");
}

/// The methods of a tree are the calls', with none for 0, 64 and 0.
#[test]
fn trees() {
    let best = Graph::new(3)
        .edge(0, 1, 1)
        .edge(1, 2, 1)
        .solve(&[1, 0, 0], &[0, 0, 1])
        .expect("accepted");
    let tree = best.tree();
    assert_eq!(tree, Tree::new(3, 0, &[0, 0, 1]));
    assert_eq!([0, 1, 2].map(|v| tree.depth(v)), [Some(0), Some(1), Some(2)]);
    assert_eq!([0, 1, 2].map(|v| tree.parent(v)), [Some(0), Some(0), Some(1)]);
    assert_eq!([0, 1, 2].map(|v| tree.subtree(v)), [Some(7), Some(6), Some(4)]);
    let full = Tree::new(64, 63, &[63; 64]);
    assert_eq!(
        (full.depth(0), full.parent(0), full.subtree(63)),
        (Some(1), Some(63), Some(u64::MAX))
    );
    let none = |tree: Tree, v: usize| (tree.depth(v), tree.parent(v), tree.subtree(v)) == (None, None, None);
    assert!(none(tree, 3) && none(tree, usize::MAX));
    let mut cycle = tree;
    cycle.parents[1] = 2;
    assert!((0..4).all(|v| none(cycle, v)));
    let mut wide = full;
    wide.n = 65;
    assert!((0..66).all(|v| none(wide, v)));
}

/// A climb is the call's, with its number as a refusal; from all vertices it gathers the tree's words.
#[test]
fn climbs() {
    let best = Graph::new(4)
        .edges([(0, 1, 1), (1, 2, 1), (1, 3, 1)])
        .solve(&[1, 0, 0, 0], &[0, 0, 1, 0])
        .expect("accepted");
    let mut masks = [0; 5];
    for y in [3, 4, 0, 2, usize::MAX, 1] {
        let before = masks;
        assert_eq!(mark_ancestors(4, 0, &best.parents, y, &mut masks), Ok(()));
        assert_eq!(masks == before, y >= 4);
    }
    assert_eq!(masks, [0b1111, 0b1110, 0b100, 0b1000, 0]);
    assert!((0..4).all(|x| best.tree().subtree(x) == Some(masks[x])));

    let wrong: [(usize, usize, &[u32], usize, Refusal); 8] = [
        (0, 0, &[], 5, Refusal::VertexCount),
        (65, 0, &[0; 65], 65, Refusal::VertexCount),
        (256 + 4, 0, &[0, 0, 1, 1], 5, Refusal::VertexCount),
        (4, 0, &[0, 0, 1], 5, Refusal::TableSize),
        (4, 0, &[0, 0, 1, 1, 1], 5, Refusal::TableSize),
        (4, 0, &[0, 0, 1, 1], 3, Refusal::TableSize),
        (4, 1 << 32, &[0, 0, 1, 1], 5, Refusal::TreeParents),
        (4, 0, &[0, 2, 3, 1], 5, Refusal::TreeCycle),
    ];
    for (n, root, parents, places, refusal) in wrong {
        for y in [0, 3, 4, usize::MAX] {
            let mut words = vec![5; places];
            assert_eq!(mark_ancestors(n, root, parents, y, &mut words), Err(refusal));
            assert_eq!(words, vec![5; places]);
            let number = mover_mark_ancestors(n, root, parents, y, &mut words);
            assert_eq!(number, refusal.number());
        }
    }
}

/// Queries from a start are the calls', with the refusal for its number, and none for 64.
#[test]
fn queries() {
    let (seed, count) = (seed(), cases(2_000));
    let (mut seen, mut none) = ([[0; 18]; 2], 0);
    for index in 0..count {
        let random = &mut Random::for_case(seed, index);
        let fault = random.pick(&UNASKABLE);
        let Query { lists, start, reach } = match random.below(3) {
            0 => sound_query(random),
            _ => faulty_query(random, &[fault]),
        };
        let (n, graph) = (lists.n, graph(random, &lists));
        let [a, b, lengths] = columns(&graph);

        let mut mask = 9;
        let number = mover_vertices_within(n, &a, &b, &lengths, start, reach, &mut mask);
        let expected = Refusal::check(number).map(|_| mask);
        let got = graph.vertices_within(start, reach);
        assert_eq!(got, expected, "seed {seed}, case {index}");
        seen[0][number as usize] += 1;

        let mut vertex = 9;
        let number = mover_nearest_vertex(n, &a, &b, &lengths, start, &lists.mu, &mut vertex);
        let found = (vertex != 64).then_some(vertex as usize);
        let expected = Refusal::check(number).map(|_| found);
        let got = graph.nearest_vertex(start, &lists.mu);
        assert_eq!(got, expected, "seed {seed}, case {index}");
        seen[1][number as usize] += 1;
        none += u64::from(got == Ok(None));
    }
    println!("queries: seed {seed}, {count} cases, numbers {seen:?}, no vertex {none}");
    let own = [&[0, 1, 2, 3, 4, 5, 17][..], &[0, 1, 2, 3, 4, 5, 6, 17]];
    let came = seen
        .iter()
        .zip(own)
        .all(|(seen, own)| (0..18).all(|k| (seen[k] > 0) == own.contains(&k)));
    assert!(count < 1_000 || came && none > 0, "{seen:?}, {none}");
}

/// The last of 64 vertices is a vertex, and its bit the highest.
#[test]
fn queries_to_the_last_vertex() {
    let line = Graph::new(64).edges((1..64).map(|x| (x - 1, x, 65_535)));
    let farthest = 63 * 65_535;
    assert_eq!(line.vertices_within(0, farthest), Ok(u64::MAX));
    assert_eq!(line.vertices_within(0, farthest - 1), Ok(u64::MAX >> 1));
    assert_eq!(line.vertices_within(63, 0), Ok(1 << 63));
    let mut amounts = [0; 64];
    assert_eq!(line.nearest_vertex(0, &amounts), Ok(None));
    amounts[63] = 1;
    assert_eq!(line.nearest_vertex(0, &amounts), Ok(Some(63)));
    assert_eq!(line.nearest_vertex(0, &amounts[1..]), Err(Refusal::TableSize));
    assert_eq!(line.vertices_within(64, 0), Err(Refusal::StartVertex));
}

/// What the wrappers of pages give: a new page, the buffer with its result, the patch's page and that of the best tree.
#[derive(Clone, Debug, PartialEq)]
struct Pages {
    new: Result<String, Refusal>,
    into: Result<usize, Refusal>,
    buffer: Vec<u8>,
    of_patch: Result<String, Refusal>,
    of_best: Result<String, Refusal>,
}

/// With a buffer of so many bytes, all of them dots.
fn pages_of(patch: &Patch, lists: &Lists, buffer: usize) -> Pages {
    let Lists {
        mu,
        nu,
        root,
        parents,
        ..
    } = lists;
    let (graph, mut buffer) = (patch.graph(), vec![b'.'; buffer]);
    Pages {
        new: graph.page(mu, nu, *root, parents),
        into: graph.page_into(mu, nu, *root, parents, &mut buffer),
        buffer,
        of_patch: patch.clone().tree(*root, parents).page(),
        of_best: patch.page(),
    }
}

/// The bytes and the length that the call gives, in a buffer of so many dots.
fn called(lists: &Lists, buffer: usize) -> (u32, Vec<u8>, usize) {
    let (mut buffer, mut length) = (vec![b'.'; buffer], 9);
    let number = mover_write_page(
        lists.n,
        &lists.a,
        &lists.b,
        &lists.lengths,
        &lists.mu,
        &lists.nu,
        lists.root,
        &lists.parents,
        &mut buffer,
        &mut length,
    );
    (number, buffer, length)
}

/// Tests what the wrappers give against the call itself and the best answer.
fn agree_on_pages(graph: &Graph, lists: &Lists, pages: &Pages) -> Result<(), String> {
    let whole = page_size(lists.n.min(64));
    let of = |lists: &Lists| {
        let (number, bytes, length) = called(lists, whole);
        Refusal::check(number).map(|_| String::from_utf8(bytes[..length].to_vec()).expect("ASCII"))
    };
    let expected = of(lists);
    same("new", &pages.new, &expected)?;
    same("of the patch", &pages.of_patch, &expected)?;
    let (number, bytes, length) = called(lists, pages.buffer.len());
    same("into", &pages.into, &Refusal::check(number).map(|_| length))?;
    same("buffer", &pages.buffer, &bytes)?;
    let best = graph.solve(&lists.mu, &lists.nu).and_then(|best| {
        of(&Lists {
            root: 0,
            parents: best.parents,
            ..lists.clone()
        })
    });
    same("of the best tree", &pages.of_best, &best)
}

/// Pages are the call's, with the refusal for its number: new ones, into buffers of any length, of patches.
#[test]
fn pages() {
    let (seed, count) = (seed(), cases(2_000));
    let mut seen = [0; 11];
    for index in 0..count {
        let random = &mut Random::for_case(seed, index);
        let fault = random.pick(&UNPRINTABLE);
        let given = match random.below(3) {
            0 => printable(random),
            _ => unprintable(random, &[fault]),
        };
        let graph = graph(random, &given.lists);
        let [a, b, lengths] = columns(&graph);
        let lists = Lists {
            a,
            b,
            lengths,
            ..given.lists
        };
        let edges = graph.iter().map(|e| (e.a, e.b, e.length));
        let patch = Patch::new(lists.n).edges(edges).mu(&lists.mu).nu(&lists.nu);
        let pages = pages_of(&patch, &lists, given.buffer);
        let result = agree_on_pages(&graph, &lists, &pages);
        result.unwrap_or_else(|complaint| panic!("seed {seed}, case {index}: {complaint}"));
        let number = pages.into.map_or_else(Refusal::number, |_| 0);
        assert_eq!(number, page(&lists, given.buffer).err().unwrap_or(0));
        seen[number as usize] += 1;
    }
    println!("pages: seed {seed}, {count} cases, numbers {seen:?}");
    assert!(count < 1_000 || seen.iter().all(|&times| times > 0), "{seen:?}");
}

type SpoilPages = fn(&mut Pages);

/// The test above can fail: whatever is spoiled is missed, of what is accepted and of what is refused.
#[test]
fn wrong_pages_are_caught() {
    let edges = [(0, 1, 1), (0, 3, 1), (1, 2, 1), (2, 3, 1)];
    let graph = Graph::new(4).edges(edges);
    let [a, b, lengths] = columns(&graph);
    let accepted = Lists {
        n: 4,
        a,
        b,
        lengths,
        mu: vec![4, 0, 0, 0],
        nu: vec![0, 0, 0, 4],
        root: 0,
        parents: vec![0, 0, 1, 2],
    };
    let mut refused = accepted.clone();
    refused.mu[0] = 5;
    let spoils: [(&str, SpoilPages); 9] = [
        ("new", |p| p.new = Err(Refusal::TreeEdge)),
        ("new", |p| {
            p.new = p.new.clone().map_or(Ok(String::new()), |page| Ok(page + " "))
        }),
        ("of the patch", |p| p.of_patch = Ok(String::new())),
        ("of the patch", |p| p.of_patch = Err(Refusal::TableSize)),
        ("into", |p| p.into = Ok(0)),
        ("into", |p| p.into = Err(Refusal::TableSize)),
        ("buffer", |p| p.buffer[0] ^= 1),
        ("buffer", |p| p.buffer[399] ^= 1),
        ("of the best tree", |p| p.of_best = Ok(String::new())),
    ];
    for lists in [accepted, refused] {
        let patch = Patch::new(4).edges(edges).mu(&lists.mu).nu(&lists.nu);
        let right = pages_of(&patch, &lists, 400);
        assert_eq!(agree_on_pages(&graph, &lists, &right), Ok(()));
        for (name, spoil) in spoils {
            let mut pages = right.clone();
            spoil(&mut pages);
            let complaint = agree_on_pages(&graph, &lists, &pages).expect_err(name);
            assert!(complaint.starts_with(&format!("{name}: ")), "{name}: {complaint}");
        }
        if let Ok(page) = &right.new {
            // The best tree is not the given one.
            let mut pages = right.clone();
            pages.of_best = Ok(page.clone());
            let complaint = agree_on_pages(&graph, &lists, &pages).expect_err("the given tree");
            assert!(complaint.starts_with("of the best tree: "), "{complaint}");
        }
    }
}

/// A graph of other than 1 to 64 vertices is refused, however large: nothing wraps, and no buffer is made for it.
#[test]
fn pages_of_no_graph() {
    for n in [0, 65, 256 + 1, 1 << 32 | 1, 1 << 59, usize::MAX] {
        let refusal = Err(Refusal::VertexCount);
        assert_eq!(Graph::new(n).page(&[0], &[0], 0, &[0]), refusal, "{n}");
        assert_eq!(Patch::new(n).tree(0, &[0]).page(), refusal, "{n}");
        assert_eq!(Patch::new(n).page(), refusal, "{n}");
    }
}

fn bits(weights: &[f32]) -> Vec<u32> {
    weights.iter().map(|w| w.to_bits()).collect()
}

/// Amounts and their weights, now and then with one among them that is refused.
fn amounts_and_weights(random: &mut Random) -> (Vec<u64>, Vec<f32>) {
    let mut amounts: Vec<u64> = (0..random.index(100)).map(|_| random.below(16_777_217)).collect();
    let float = |&amount: &u64| f32::from_bits(weight(amount).expect("at most 16,777,216"));
    let mut weights: Vec<f32> = amounts.iter().map(float).collect();
    if random.chance(3) && !amounts.is_empty() {
        let at = random.index(amounts.len());
        amounts[at] = random.pick(&[16_777_217, 1 << 32, u64::MAX]);
        weights[at] = random.pick(&[f32::NAN, f32::INFINITY, -0.5, 1.5, 0.1, 1e-40]);
    }
    (amounts, weights)
}

/// Weights and amounts are turned as the calls turn them, into new lists and into lists of any length.
#[test]
fn weights_and_amounts() {
    let (seed, count) = (seed(), cases(2_000));
    let mut seen = [0; 17];
    for index in 0..count {
        let random = &mut Random::for_case(seed, index);
        let (amounts, weights) = amounts_and_weights(random);
        let length = amounts.len();

        let mut table = vec![7; length];
        let result = Refusal::check(mover_to_amounts(&weights, &mut table));
        assert_eq!(
            to_amounts(&weights),
            result.map(|_| table),
            "seed {seed}, case {index}"
        );
        let mut table = vec![7.0; length];
        let result = Refusal::check(mover_to_weights(&amounts, &mut table));
        let got = to_weights(&amounts).map(|list| bits(&list));
        assert_eq!(got, result.map(|_| bits(&table)), "seed {seed}, case {index}");

        let places = random.pick(&[length, length + 3, length.saturating_sub(1)]);
        let (mut table, mut lent) = (vec![7; places], vec![7; places]);
        let number = mover_to_amounts(&weights, &mut table);
        assert_eq!(to_amounts_into(&weights, &mut lent), Refusal::check(number));
        assert_eq!(lent, table, "seed {seed}, case {index}");
        seen[number as usize] += 1;
        let (mut table, mut lent) = (vec![7.0; places], vec![7.0; places]);
        let number = mover_to_weights(&amounts, &mut table);
        assert_eq!(to_weights_into(&amounts, &mut lent), Refusal::check(number));
        assert_eq!(bits(&lent), bits(&table), "seed {seed}, case {index}");
    }
    println!("weights and amounts: seed {seed}, {count} cases, numbers {seen:?}");
    assert!(
        count < 500 || [0, 2, 15, 16].iter().all(|&k| seen[k] > 0),
        "{seen:?}"
    );
}

/// What the call tells of a reel, into a tally that is longer.
fn told(reel: &[u8]) -> Result<Report, Refusal> {
    let (mut tally, mut accepted, mut sum, mut greatest, mut first) = ([9; 30], 9, 9, 9, 9);
    let number = mover_report(
        reel,
        &mut tally,
        &mut accepted,
        &mut sum,
        &mut greatest,
        &mut first,
    );
    Refusal::check(number)?;
    Ok(Report {
        accepted,
        tally: tally[..24].try_into().expect("24 places"),
        sum,
        greatest,
        first,
    })
}

/// Tests a report against its images, run one by one.
fn agree_on_a_report(report: &Report, images: &[Vec<u8>]) -> Result<(), String> {
    let results: Vec<_> = images.iter().map(|image| run(image)).collect();
    same("count", &(report.count() as usize), &images.len())?;
    let costs = || results.iter().flatten().map(|answer| answer.cost);
    same("accepted", &(report.accepted as usize), &costs().count())?;
    same("sum", &report.sum, &costs().sum())?;
    same("greatest", &report.greatest, &costs().max().unwrap_or(0))?;
    let with_greatest = |r: &Result<Answer, Refusal>| r.as_ref().is_ok_and(|a| a.cost == report.greatest);
    let first = results.iter().position(with_greatest);
    same("first", &report.first, &first.unwrap_or(images.len()))?;
    let refused: Vec<Refusal> = results.iter().filter_map(|r| r.as_ref().err().copied()).collect();
    same("refused", &(report.refused() as usize), &refused.len())?;
    let with = |refusal: Refusal| refused.iter().filter(|&&r| r == refusal).count() as u32;
    let all = (1..24).filter_map(Refusal::from_number);
    let expected: Vec<_> = all
        .map(|r| (r, with(r)))
        .filter(|&(_, images)| images > 0)
        .collect();
    same("refusals", &report.refusals().collect(), &expected)
}

/// A report is the call's, at once and by parts, and what its images give one by one.
#[test]
fn reports() {
    let (seed, count) = (seed(), cases(600));
    let random = &mut Random::new(seed);
    let pool = pool(random, 100);
    let (mut seen, mut refused) = ([0; 24], 0);
    for index in 0..count {
        let random = &mut Random::for_case(seed, index);
        let sequence = some_of(random, &pool, 15);
        let images: Vec<Vec<u8>> = sequence.images.iter().map(|(_, image)| image.clone()).collect();
        let mut reel = sequence.reel();
        let got = report(&reel).expect("in order");
        assert_eq!(told(&reel).as_ref(), Ok(&got), "seed {seed}, case {index}");
        let result = agree_on_a_report(&got, &images);
        result.unwrap_or_else(|complaint| panic!("seed {seed}, case {index}: {complaint}"));
        let packed = pack(&images).expect("few images");
        assert_eq!(report(&packed).as_ref(), Ok(&got), "seed {seed}, case {index}");
        let mut said = Vec::new();
        let parts = report_by_parts(&reel, &mut |done, count| said.push((done, count)));
        assert_eq!(parts.as_ref(), Ok(&got), "seed {seed}, case {index}");
        let at_once = (images.len(), images.len());
        assert_eq!(said, if images.is_empty() { vec![] } else { vec![at_once] });
        (0..24).for_each(|k| seen[k] += got.tally[k]);

        if misplace(random, &mut reel, MISPLACED[index as usize % MISPLACED.len()]) {
            let refusal = Err(Refusal::SequenceDirectory);
            let by_parts = report_by_parts(&reel, &mut |_, _| panic!("a part of a refused reel"));
            assert_eq!(
                [told(&reel), report(&reel), by_parts],
                [refusal.clone(), refusal.clone(), refusal]
            );
            refused += 1;
        }
    }
    println!("reports: seed {seed}, {count} cases, {refused} refused, numbers {seen:?}");
    let own = (0..24).all(|k| (seen[k] > 0) == (k < 14 && k != 4));
    assert!(count < 500 || own && refused > 300, "{seen:?}, {refused}");
}

type SpoilReport = fn(&mut Report);

/// The test above can fail: whatever is spoiled is missed.
#[test]
fn wrong_reports_are_caught() {
    let images = [of_size(100), vec![], transport(9, 10).image()];
    let right = report(&pack(&images).expect("few images")).expect("in order");
    assert_eq!(agree_on_a_report(&right, &images), Ok(()));
    let spoils: [(&str, SpoilReport); 7] = [
        ("count", |r| r.tally[23] += 1),
        ("accepted", |r| r.accepted += 1),
        ("sum", |r| r.sum += 1),
        ("greatest", |r| r.greatest += 1),
        ("first", |r| r.first = 0),
        ("refused", |r| (r.tally[0], r.tally[11]) = (3, 0)),
        ("refusals", |r| (r.tally[12], r.tally[11]) = (1, 0)),
    ];
    for (name, spoil) in spoils {
        let mut report = right.clone();
        spoil(&mut report);
        let complaint = agree_on_a_report(&report, &images).expect_err(name);
        assert!(complaint.starts_with(&format!("{name}: ")), "{name}: {complaint}");
    }
}

/// Parts end after 4,096 images and after 64 MiB; what is longer is a part by itself.
#[test]
fn parts_of_a_sequence() {
    let steps = |reel: &[u8]| {
        let mut said = Vec::new();
        let parts = report_by_parts(reel, &mut |done, _| said.push(done));
        assert_eq!(parts, report(reel));
        said
    };
    let image = transport(2, 2).image();
    let few = pack(vec![&image; 9_000]).expect("small images");
    assert_eq!(steps(&few), [4_096, 8_192, 9_000]);
    // 1,024 of these have 64 MiB; if the first has a byte more, there is room for one less.
    let large = of_size(65_536);
    assert_eq!(
        steps(&pack(vec![&large; 1_030]).expect("1,030 images")),
        [1_024, 1_030]
    );
    let larger = [&large[..], &[7]].concat();
    let mut images = vec![&larger];
    images.resize(1_030, &large);
    assert_eq!(steps(&pack(images).expect("1,030 images")), [1_023, 1_030]);
    let longest = vec![7; (64 << 20) + 1];
    let images = [&image, &image, &longest, &image];
    assert_eq!(steps(&pack(images).expect("4 images")), [2, 3, 4]);
}
