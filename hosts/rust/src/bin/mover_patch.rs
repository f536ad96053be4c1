//! What a rigger asks of a patch that is written as text.
//!
//! Usage: `mover-patch page PATCH`
//!
//! Each word of the command is an arm of `main`. The exit status is 0, or 1 if the library refuses the patch, or 2 for
//! anything else: bad usage, a text that is wrong, a file that cannot be read.

use std::ffi::OsString;
use std::io::{stdout, Write};
use std::path::Path;
use std::process::ExitCode;
use std::{env, fs};
use weight_mover::{text, Patch, Refusal};

const USAGE: &str = "\
usage: mover-patch page PATCH  prints the tree of a patch, or else the best one: a line for each vertex,
                               indented by its depth, with its imbalance and its potential
";

/// Why there is no answer.
enum Failure {
    Refused(String),
    Other(String),
}

fn main() -> ExitCode {
    let arguments: Vec<OsString> = env::args_os().skip(1).collect();
    let (word, files) = match arguments.split_first() {
        Some((word, files)) => (word.to_str(), files),
        None => (None, &[][..]),
    };
    let is_option = |file: &OsString| file.as_encoded_bytes().starts_with(b"-");
    let answer = match (word, files) {
        (_, files) if files.iter().any(is_option) => Err(Failure::Other(USAGE.into())),
        (Some("-h" | "--help"), []) => Ok(USAGE.into()),
        (Some("page"), [patch]) => page(patch.as_ref()),
        _ => Err(Failure::Other(USAGE.into())),
    };
    match answer.and_then(print) {
        Ok(()) => ExitCode::SUCCESS,
        Err(Failure::Refused(message)) => {
            eprint!("{message}");
            ExitCode::from(1)
        }
        Err(Failure::Other(message)) => {
            eprint!("{message}");
            ExitCode::from(2)
        }
    }
}

fn print(answer: String) -> Result<(), Failure> {
    let written = stdout().write_all(answer.as_bytes());
    written.map_err(|e| Failure::Other(format!("standard output: {e}\n")))
}

fn refused(file: &Path, refusal: Refusal) -> Failure {
    Failure::Refused(format!("{}: {refusal}\n", file.display()))
}

/// The patch that a file tells of.
fn read(file: &Path) -> Result<Patch, Failure> {
    let complaint = |text: String| Failure::Other(format!("{}{text}\n", file.display()));
    let content = fs::read_to_string(file).map_err(|e| complaint(format!(": {e}")))?;
    let drawing = text::parse(&content).map_err(|e| complaint(format!(", {e}")))?;
    Ok(drawing.patch)
}

fn page(file: &Path) -> Result<String, Failure> {
    read(file)?.page().map_err(|refusal| refused(file, refusal))
}
