//! The bundled patches, and the two programs that read them.

use reference::checks::accept;
use reference::flow::least_cost;
use std::fs;
use std::path::{Path, PathBuf};
use std::process::{Command, Output};
use weight_mover::{text, Refusal};

fn bundled() -> Vec<PathBuf> {
    let directory = Path::new(env!("CARGO_MANIFEST_DIR")).join("../../patches");
    let entries = fs::read_dir(directory).expect("the bundled patches");
    let paths = entries.map(|entry| entry.expect("an entry").path());
    let patches: Vec<PathBuf> = paths
        .filter(|path| path.extension() == Some("patch".as_ref()))
        .collect();
    assert!(!patches.is_empty());
    patches
}

fn scratch(name: &str) -> PathBuf {
    Path::new(env!("CARGO_TARGET_TMPDIR")).join(name)
}

fn program(path: &str, arguments: &[&Path]) -> Output {
    let mut command = Command::new(path);
    command.args(arguments).output().expect("the program runs")
}

/// Every bundled patch is read and accepted, and has the cost that the reference finds.
#[test]
fn bundled_patches_are_sound() {
    for path in bundled() {
        let content = fs::read_to_string(&path).expect("a text");
        let patch = text::parse(&content)
            .unwrap_or_else(|e| panic!("{}: {e}", path.display()))
            .patch;
        let answer = patch.run().unwrap_or_else(|e| panic!("{}: {e}", path.display()));
        let image = patch.image().expect("small numbers");
        let problem = accept(&image, 100_000).expect("accepted");
        let expected = match &problem.tree {
            Some(tree) => reference::tree::evaluate(&problem, tree).cost,
            None => least_cost(&problem),
        };
        assert_eq!(answer.cost, expected, "{}", path.display());
    }
}

/// The converter writes the image of the patch; with `--best`, one with the best tree in it.
#[test]
fn converter() {
    for path in bundled() {
        let patch = text::parse(&fs::read_to_string(&path).expect("a text"))
            .expect("sound")
            .patch;
        let image = scratch("converted.image");
        let output = program(env!("CARGO_BIN_EXE_patch-image"), &[&path, &image]);
        assert!(output.status.success());
        let written = fs::read(&image).expect("an image");
        assert_eq!(written, patch.image().expect("small numbers"));

        let best = Path::new("--best");
        let output = program(env!("CARGO_BIN_EXE_patch-image"), &[best, &path, &image]);
        assert!(output.status.success());
        let problem = accept(&fs::read(&image).expect("an image"), 100_000).expect("accepted");
        let tree = problem.tree.as_ref().expect("a tree");
        let cost = reference::tree::evaluate(&problem, tree).cost;
        assert_eq!(cost, patch.run().expect("accepted").cost);
    }
}

/// Drawing gives a picture with all five frames, and marks the seams where there are any.
#[test]
fn drawing() {
    for path in bundled() {
        let picture = scratch("drawn.svg");
        let output = program(env!("CARGO_BIN_EXE_patch-draw"), &[&path, &picture]);
        assert!(output.status.success());
        let svg = fs::read_to_string(&picture).expect("a picture");
        assert!(svg.starts_with("<svg ") && svg.ends_with("</svg>\n"));
        assert!(["Before", "25 %", "50 %", "75 %", "After"]
            .iter()
            .all(|frame| svg.contains(frame)));
        assert!(!svg.contains("NaN") && !svg.contains("inf"));

        let content = fs::read_to_string(&path).expect("a text");
        let patch = text::parse(&content).expect("sound").patch;
        let welded = patch.graph().iter().any(|edge| edge.length == 0);
        assert_eq!(svg.contains("class=\"seam\""), welded, "{}", path.display());
    }
}

/// Bad text and refused patches end both programs with a message.
#[test]
fn complaints() {
    let cases = [
        (
            "vertices 2\nedge 0 one 3\n",
            "line 2: \"one\" is not a whole number",
        ),
        ("vertices 1\nmu 3\nnu 4\n", "refused 7: the two totals differ"),
        (
            "vertices 1\nmu 3\nweights after 0.1\n",
            "line 3: the weight 0.1 of vertex 0 is refused 16: a weight is no whole number of grains",
        ),
    ];
    for (content, message) in cases {
        let path = scratch("complaint.patch");
        fs::write(&path, content).expect("written");
        let output = program(env!("CARGO_BIN_EXE_patch-draw"), &[&path, &scratch("none.svg")]);
        assert_eq!(output.status.code(), Some(1));
        let said = String::from_utf8_lossy(&output.stderr).into_owned();
        assert!(said.trim_end().ends_with(message), "{said}");
    }
    let missing = scratch("not-there.patch");
    let output = program(
        env!("CARGO_BIN_EXE_patch-image"),
        &[&missing, &scratch("none.image")],
    );
    assert_eq!(output.status.code(), Some(1));
    assert_eq!(
        program(env!("CARGO_BIN_EXE_patch-image"), &[]).status.code(),
        Some(2)
    );
}

/// A text may have no vertices, or more of them or of edges than an image: the converter tells the refusal, and
/// writes nothing.
#[test]
fn texts_without_an_image() {
    let path = scratch("unwritable.patch");
    let image = scratch("unwritable.image");
    let _ = fs::remove_file(&image);
    let zeros = |n: usize| "0 ".repeat(n);
    let measures = |n: usize| format!("mu {}\nnu {}\n", zeros(n), zeros(n));
    let ends = (0..64).flat_map(|a| (a + 1..64).map(move |b| format!("edge {a} {b} 1\n")));
    let edges: String = ends.take(513).collect();
    let unwritable = [
        (0, String::new(), Refusal::VertexCount),
        (65, String::new(), Refusal::VertexCount),
        (64, edges, Refusal::TableSize),
    ];
    for (n, edges, refusal) in unwritable {
        let content = format!("vertices {n}\n{edges}{}", measures(n));
        fs::write(&path, content).expect("written");
        let output = program(env!("CARGO_BIN_EXE_patch-image"), &[&path, &image]);
        assert_eq!(output.status.code(), Some(1));
        let said = String::from_utf8_lossy(&output.stderr).into_owned();
        assert_eq!(said, format!("{}: {refusal}\n", path.display()));
        assert!(!image.exists());
    }
}
