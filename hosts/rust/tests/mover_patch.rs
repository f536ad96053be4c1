//! The command `mover-patch`, on bundled patches and others, and the script that builds it.

mod command;

use command::{ended, folder, said, scratch, written, Ended, Script};
use reference::checks::accept;
use reference::flow::least_cost;
use reference::page::print;
use reference::tree::tree_cost;
use std::ffi::OsStr;
use std::fs;
use std::path::{Path, PathBuf};
use std::process::Command;
use weight_mover::{text, Refusal};

fn run<A: AsRef<OsStr>>(arguments: impl IntoIterator<Item = A>) -> Ended {
    ended(Command::new(env!("CARGO_BIN_EXE_mover-patch")).args(arguments))
}

fn page(file: &Path) -> Ended {
    run([Path::new("page"), file])
}

fn bundled(name: &str) -> PathBuf {
    Path::new(env!("CARGO_MANIFEST_DIR"))
        .join("../../patches")
        .join(name)
}

const CASE_A: &str = "\
03                                                                            0          0     \n\
\u{20}02                                                                           3          1     \n\
\u{20} 01                                                                          3          4     \n\
\u{20}  00                                                                         5          6     \n";

/// A tree that is given, with its root.
#[test]
fn page_of_a_given_tree() {
    assert_eq!(page(&bundled("case-a.patch")), said(CASE_A));
}

/// Without a tree it is the best one, with root 0; these patches have no other. Either way round.
#[test]
fn page_of_the_best_tree() {
    let edges = "vertices 4\nedge 0 2 10\nedge 1 2 65535\nedge 0 3 7\n";
    let patch = format!("{edges}mu 0 16777215 1 0\nnu 16777216 0 0 0\n");
    let expected = "\
00                                                                            0          0     \n\
\u{20}02                                                                    16777216         10     \n\
\u{20} 01                                                                   16777215      65545     \n\
\u{20}03                                                                           0          0     \n";
    assert_eq!(page(&written("best.patch", patch)), said(expected));
    let patch = format!("{edges}mu 16777216 0 0 0\nnu 0 16777215 1 0\n");
    let expected = "\
00                                                                            0          0     \n\
\u{20}02                                                                   -16777216        -10     \n\
\u{20} 01                                                                  -16777215     -65545     \n\
\u{20}03                                                                           0          0     \n";
    assert_eq!(page(&written("turned.patch", patch)), said(expected));
}

/// Every bundled patch: the page of its tree, or of a best one with root 0, as the reference prints it.
#[test]
fn bundled_patches() {
    let mut best = 0;
    for entry in fs::read_dir(bundled("")).expect("the bundled patches") {
        let path = entry.expect("an entry").path();
        let patch = text::parse(&fs::read_to_string(&path).expect("a text"))
            .expect("sound")
            .patch;
        let answer = patch.run().expect("accepted");
        let image = patch.clone().tree(answer.root, &answer.parents).image();
        let problem = accept(&image.expect("small numbers"), 100_000).expect("accepted");
        let tree = problem.tree.as_ref().expect("a tree");
        if patch.given_tree().is_none() {
            assert_eq!((tree.root, tree_cost(&problem, tree)), (0, least_cost(&problem)));
            best += 1;
        }
        assert_eq!(page(&path), said(&print(&problem, tree)), "{}", path.display());
    }
    assert!(best > 0);
}

/// What the library refuses ends with 1, with a tree and without.
#[test]
fn refused_patches() {
    let refused = |content: &str, refusal: Refusal| {
        let file = written("refused.patch", content);
        let complaint = format!("{}: {refusal}\n", file.display());
        assert_eq!(page(&file), (1, String::new(), complaint), "{content}");
    };
    refused("vertices 0\nmu\nnu\n", Refusal::VertexCount);
    let zeros = " 0".repeat(65);
    refused(
        &format!("vertices 65\nmu{zeros}\nnu{zeros}\n"),
        Refusal::VertexCount,
    );
    let measures = [
        ("mu 1 0\nnu 0 1\n", Refusal::NotConnected),
        ("edge 0 1 9\nmu 16777217 0\nnu 0 1\n", Refusal::TotalTooLarge),
        ("edge 0 1 9\nmu 2 0\nnu 0 1\n", Refusal::TotalsDiffer),
    ];
    for (content, refusal) in measures {
        refused(&format!("vertices 2\n{content}"), refusal);
        refused(&format!("vertices 2\n{content}root 1\nparents 1 1\n"), refusal);
    }
    let trees = [
        ("root 1\nparents 1 1 2\n", Refusal::TreeParents),
        ("root 0\nparents 0 0 0\n", Refusal::TreeEdge),
        ("root 0\nparents 0 2 1\n", Refusal::TreeCycle),
    ];
    for (tree, refusal) in trees {
        let line = "vertices 3\nedge 0 1 1\nedge 1 2 1\nmu 1 0 0\nnu 0 0 1\n";
        refused(&format!("{line}{tree}"), refusal);
    }
}

/// A text that is wrong ends with 2 and the line, and so does a file that cannot be read.
#[test]
fn bad_texts_and_files() {
    let cases = [
        (
            "vertices 2\nedge 0 one 3\n",
            ", line 2: \"one\" is not a whole number\n",
        ),
        (
            "vertices 2\nedge 0 1 65536\n",
            ", line 2: 65536 is too large: at most 65535 can be written here\n",
        ),
        (
            "vertices 1\nmu 3\nweights after 0.1\n",
            ", line 3: the weight 0.1 of vertex 0 is refused 16: a weight is no whole number of grains\n",
        ),
    ];
    for (content, complaint) in cases {
        let file = written("bad.patch", content);
        let complaint = format!("{}{complaint}", file.display());
        assert_eq!(page(&file), (2, String::new(), complaint));
    }
    let binary = written("binary.patch", [0xff, 0xfe]);
    for file in [binary, scratch("not-there.patch"), folder("no-patch")] {
        let (status, output, complaint) = page(&file);
        assert_eq!((status, &output[..]), (2, ""));
        let start = format!("{}: ", file.display());
        assert!(
            complaint.starts_with(&start) && complaint.ends_with('\n'),
            "{complaint}"
        );
    }
}

#[test]
fn usage() {
    let file = bundled("case-a.patch");
    let file = file.to_str().expect("a name");
    let wrong: [&[&str]; 10] = [
        &[],
        &["page"],
        &["page", file, file],
        &["page", "--best"],
        &["page", "--help"],
        &["--help", file],
        &["pages", file],
        &["-x"],
        &[file],
        &[file, "page"],
    ];
    let (status, usage, complaint) = run(["--help"]);
    assert_eq!((status, &complaint[..]), (0, ""));
    assert!(usage.starts_with("usage: mover-patch page PATCH "), "{usage}");
    assert_eq!(run(["-h"]), said(&usage));
    for arguments in wrong {
        let expected = (2, String::new(), usage.clone());
        assert_eq!(run(arguments), expected, "{arguments:?}");
    }
}

/// Where nothing can be printed, it is told.
#[cfg(target_os = "linux")]
#[test]
fn full_output() {
    let full = fs::OpenOptions::new().write(true).open("/dev/full");
    let mut command = Command::new(env!("CARGO_BIN_EXE_mover-patch"));
    command.arg("page").arg(bundled("case-a.patch"));
    let (status, _, complaint) = ended(command.stdout(full.expect("a device")));
    assert_eq!(status, 2);
    assert!(complaint.starts_with("standard output: "), "{complaint}");
}

/// The script at the top builds the library and the command, but just once, and then is the command.
#[test]
fn script_builds_once() {
    let built = env!("CARGO_BIN_EXE_mover-patch");
    let content = fs::read_to_string(bundled("case-a.patch")).expect("a text");
    let script = Script::new("mover-patch", built, "a b.patch", &content);

    let (status, output, usage) = script.run("", &[]);
    assert_eq!((status, &output[..]), (2, ""));
    assert_eq!(script.run("", &["--help"]), said(&usage));
    assert!(usage.contains("./mover-patch page MY.patch"), "{usage}");
    assert!(
        usage.ends_with("remove hosts/rust/target/release/mover-patch.\n"),
        "{usage}"
    );
    assert_eq!(script.calls(), "");

    let page = ["page", "a b.patch"];
    let (status, output, complaint) = script.run("no such compiler", &page);
    assert_eq!((status, &output[..]), (2, ""));
    assert!(
        complaint.ends_with(" ... failed\nno such compiler\n"),
        "{complaint}"
    );
    assert_eq!(script.calls(), script.building());

    let (status, output, told) = script.run("", &page);
    assert_eq!((status, &output[..]), (0, CASE_A));
    assert!(told.lines().all(|line| line.ends_with(" ... done")), "{told}");
    assert_eq!(script.calls(), script.building());

    assert_eq!(script.run("not again", &page), said(CASE_A));
    assert_eq!(script.run("", &["page", "x"]).0, 2);
    assert_eq!(script.run("", &["x"]).0, 2);
    assert_eq!(script.calls(), "");
}
