//! What the tests of the commands share.

use std::fs;
use std::path::{Path, PathBuf};
use std::process::Command;

/// What a run ends with: its exit status, standard output and standard error.
pub type Ended = (i32, String, String);

pub fn ended(command: &mut Command) -> Ended {
    let output = command.output().expect("the program runs");
    let text = |bytes: Vec<u8>| String::from_utf8(bytes).expect("a text");
    let status = output.status.code().expect("an exit status");
    (status, text(output.stdout), text(output.stderr))
}

/// An exit status, and what is printed with it on standard output alone.
pub fn said(text: &str) -> Ended {
    (0, text.into(), String::new())
}

pub fn scratch(name: &str) -> PathBuf {
    Path::new(env!("CARGO_TARGET_TMPDIR")).join(name)
}

/// A folder with nothing in it.
pub fn folder(name: &str) -> PathBuf {
    let folder = scratch(name);
    let _ = fs::remove_dir_all(&folder);
    fs::create_dir(&folder).expect("a new folder");
    folder
}

pub fn written(name: &str, bytes: impl AsRef<[u8]>) -> PathBuf {
    let file = scratch(name);
    fs::write(&file, bytes).expect("written");
    file
}

/// Programs in the place of `rt` and `cargo`: they write down how they are called. `rt` builds an empty archive, `cargo`
/// the command, unless it is to fail or does not find that archive. The shell writes them, so that no test has them open.
const TOOLS: &str = r#"
mkdir -p tools
cat >tools/rt <<'END'
#!/bin/sh
echo "rt $* in ${PWD##*/}" >>"$CALLS"
mkdir -p out
touch out/libhost_calls.a
END
cat >tools/cargo <<'END'
#!/bin/sh
echo "cargo $*" >>"$CALLS"
[ -z "$FAILS" ] || { echo "$FAILS"; exit 1; }
[ -f target/staticlib/libhost_calls.a ] || exit 1
mkdir -p hosts/rust/target/release
cp "$BUILT" "hosts/rust/target/release/$COMMAND"
END
chmod +x tools/rt tools/cargo
"#;

/// The script of a command in a folder of its own, with these tools and a folder of files.
pub struct Script {
    command: &'static str,
    /// The program that is built.
    built: &'static str,
    top: PathBuf,
}

impl Script {
    /// With one file in the folder `files`.
    pub fn new(command: &'static str, built: &'static str, file: &str, content: &str) -> Script {
        let top = folder(&format!("{command} top"));
        for folder in ["files", "hosts", "crates/host_calls"] {
            fs::create_dir_all(top.join(folder)).expect("a folder");
        }
        let repository = Path::new(env!("CARGO_MANIFEST_DIR")).join("../..");
        for script in [command, "hosts/archives"] {
            fs::copy(repository.join(script), top.join(script)).expect("the script");
        }
        fs::write(top.join("files").join(file), content).expect("written");
        let mut shell = Command::new("sh");
        assert_eq!(ended(shell.args(["-c", TOOLS]).current_dir(&top)), said(""));
        Script { command, built, top }
    }

    /// Runs it from the folder of files. Building fails with a text, unless that is empty.
    pub fn run(&self, fails: &str, arguments: &[&str]) -> Ended {
        let mut command = Command::new("sh");
        command.arg(format!("../{}", self.command)).args(arguments);
        command.current_dir(self.top.join("files"));
        let tools = self.top.join("tools");
        command.env("PATH", format!("{}:/usr/bin:/bin", tools.display()));
        command.env("CALLS", self.top.join("calls"));
        command.env("BUILT", self.built).env("COMMAND", self.command);
        ended(command.env("FAILS", fails).env_remove("MOVER_LIB_DIR"))
    }

    /// How the tools were called since this was asked.
    pub fn calls(&self) -> String {
        let path = self.top.join("calls");
        let calls = fs::read_to_string(&path).unwrap_or_default();
        let _ = fs::remove_file(path);
        calls
    }

    /// How they are called to build the library and the command.
    pub fn building(&self) -> String {
        format!(
            "rt lib in host_calls\n\
             cargo build --offline --release --quiet --bin {} --manifest-path hosts/rust/Cargo.toml\n",
            self.command
        )
    }
}
