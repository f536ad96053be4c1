//! Costs against LEMON's network simplex, where it is installed.
//!
//! `MOVER_CASES` and `MOVER_SEED` are as in the differential tests.

#[cfg(not(lemon))]
#[test]
#[ignore = "LEMON is not installed (Debian: liblemon-dev)"]
fn costs_against_lemon() {}

#[cfg(lemon)]
mod installed {
    use lemon::least_cost;
    use reference::random::{self, Random};
    use reference::runs::{cases, seed};
    use weight_mover::{read, run};

    type Cost = fn(&[u8]) -> u64;

    /// Compares a cost with LEMON's on so many images.
    fn compare(name: &str, seed: u64, count: u64, cost: Cost) -> Result<(), String> {
        for index in 0..count {
            let random = &mut Random::for_case(seed, index);
            let mut problem = random::problem(random);
            problem.tree = None;
            let image = problem.image_with(random::layout(random));
            let (expected, got) = (least_cost(&image), cost(&image));
            if got != expected {
                return Err(format!(
                    "{name}: LEMON finds {expected}, but got {got}\nseed {seed}, case {index}: {problem:?}"
                ));
            }
        }
        println!("{name} against LEMON: seed {seed}, {count} cases");
        Ok(())
    }

    /// The costs that the library finds, by the image and by tables.
    #[test]
    fn costs_against_lemon() {
        let (seed, count) = (seed(), cases(10_000));
        let costs: [(&str, Cost); 2] = [
            ("mover_run", |image| run(image).expect("accepted").cost),
            ("mover_solve", |image| {
                let patch = read(image).expect("accepted");
                let (mu, nu) = patch.measures();
                patch.graph().solve(mu, nu).expect("accepted").cost
            }),
        ];
        for (name, cost) in costs {
            compare(name, seed, count, cost).unwrap_or_else(|complaint| panic!("{complaint}"));
        }
    }

    /// The test above can fail.
    #[test]
    fn wrong_costs_are_caught() {
        let wrong: [(&str, Cost); 2] = [
            ("one too high", |image| run(image).expect("accepted").cost + 1),
            ("of the path 0, 1, 2 and so on", |image| {
                let patch = read(image).expect("accepted");
                let (n, (mu, nu)) = (patch.graph().vertices(), patch.measures());
                let path: Vec<u32> = (0..n as u32).map(|x| x.saturating_sub(1)).collect();
                match patch.graph().evaluate(mu, nu, 0, &path) {
                    Ok(evaluation) => evaluation.answer.cost,
                    Err(_) => patch.graph().solve(mu, nu).expect("accepted").cost,
                }
            }),
        ];
        for (name, cost) in wrong {
            match compare(name, 1, 1_000, cost) {
                Ok(()) => panic!("\"{name}\" was not caught"),
                Err(complaint) => println!("wrong on purpose, {}", complaint.lines().next().unwrap_or("")),
            }
        }
    }
}
