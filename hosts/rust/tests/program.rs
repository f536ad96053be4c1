//! The program `mover`, which reads an image on standard input: its listings against the reference.
//!
//! It is looked for in `MOVER_PROGRAM`, or else where `rt run` in `crates/mover` puts it.

use reference::checks::accept;
use reference::flow::least_cost;
use reference::random::{self, Random, FAULTS};
use reference::tree::evaluate;
use std::io::Write;
use std::path::{Path, PathBuf};
use std::process::{Command, Stdio};

/// What the program is to print.
fn listing(image: &[u8]) -> String {
    let problem = match accept(image, usize::MAX) {
        Ok(problem) => problem,
        Err(number) => return format!("refused {number}\n"),
    };
    let Some(tree) = &problem.tree else {
        return format!("best {}\n", least_cost(&problem));
    };
    let (n, evaluation) = (problem.n, evaluate(&problem, tree));
    let mut lines = format!("cost {}\nmoves {}\n", evaluation.cost, evaluation.moves);
    for (at, amount) in evaluation
        .plan
        .iter()
        .enumerate()
        .filter(|(_, &amount)| amount > 0)
    {
        lines += &format!("{} {} {amount}\n", at / n, at % n);
    }
    lines
}

/// What a program prints for an image.
fn run(program: &Path, image: &[u8]) -> Result<String, String> {
    let mut command = Command::new(program);
    let piped = command.stdin(Stdio::piped()).stdout(Stdio::piped());
    let mut child = piped.spawn().map_err(|e| {
        let program = program.display();
        format!("{program} does not run ({e}): `rt run` in crates/mover makes it, or say in MOVER_PROGRAM where it is")
    })?;
    // A program that refuses a long image may stop reading it.
    let _ = child.stdin.take().expect("its input").write_all(image);
    let output = child.wait_with_output().map_err(|e| e.to_string())?;
    String::from_utf8(output.stdout).map_err(|e| e.to_string())
}

/// Compares a program's listings with what is to be printed.
fn compare(program: &Path, print: impl Fn(&Path, &[u8]) -> Result<String, String>) -> Result<(), String> {
    let random = &mut Random::new(8);
    for index in 0..600 {
        let case = match index % 3 {
            0 => random::valid_case(random),
            1 => random::damaged_case(random),
            _ => random::faulty_case(random, &[FAULTS[index / 3 % FAULTS.len()]]),
        };
        let (printed, expected) = (print(program, &case.image)?, listing(&case.image));
        if printed != expected {
            let image = case.image;
            return Err(format!(
                "expected {expected:?}, but got {printed:?}: image {image:02x?}"
            ));
        }
    }
    Ok(())
}

fn program() -> PathBuf {
    let usual = Path::new(env!("CARGO_MANIFEST_DIR")).join("../../crates/mover/out/mover");
    std::env::var_os("MOVER_PROGRAM").map_or(usual, PathBuf::from)
}

#[test]
fn listings() {
    compare(&program(), run).unwrap_or_else(|complaint| panic!("{complaint}"));
}

type Change = fn(String) -> String;

/// The test above can fail: a program that is missing, one that prints nothing, and wrong listings.
#[test]
fn wrong_programs_are_caught() {
    let missing = compare(Path::new("no/such/program"), run).unwrap_err();
    assert!(missing.contains("does not run"), "{missing}");
    assert!(compare(Path::new("/bin/true"), run).is_err());
    let wrong: [(&str, Change); 3] = [
        ("best for every image", |printed| printed.replace("cost", "best")),
        ("no last line", |mut printed| {
            let end = printed.trim_end().rfind('\n').map_or(0, |at| at + 1);
            printed.truncate(end);
            printed
        }),
        ("another number", |printed| {
            printed.replace("refused 1\n", "refused 2\n")
        }),
    ];
    for (name, change) in wrong {
        let print = |program: &Path, image: &[u8]| run(program, image).map(change);
        assert!(compare(&program(), print).is_err(), "\"{name}\" was not caught");
    }
}
