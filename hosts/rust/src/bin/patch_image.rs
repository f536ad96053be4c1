//! Turns the text of a patch into the image that the library and the program `mover` read.
//!
//! Usage: `patch-image [--best] PATCH IMAGE`
//!
//! With `--best` the image gets the tree of the best answer, so that the program lists the plan.

use std::process::ExitCode;
use std::{env, fs};

fn main() -> ExitCode {
    let arguments: Vec<String> = env::args().skip(1).collect();
    let words: Vec<&str> = arguments.iter().map(String::as_str).collect();
    let result = match words.as_slice() {
        ["--best", source, image] => convert(source, image, true),
        [source, image] => convert(source, image, false),
        _ => {
            eprintln!("usage: patch-image [--best] PATCH IMAGE");
            return ExitCode::from(2);
        }
    };
    match result {
        Ok(()) => ExitCode::SUCCESS,
        Err(message) => {
            eprintln!("{message}");
            ExitCode::FAILURE
        }
    }
}

fn convert(source: &str, image: &str, best: bool) -> Result<(), String> {
    let text = fs::read_to_string(source).map_err(|e| format!("{source}: {e}"))?;
    let drawing = weight_mover::text::parse(&text).map_err(|e| format!("{source}, {e}"))?;
    let mut patch = drawing.patch;
    if best {
        let answer = patch.run().map_err(|e| format!("{source}: {e}"))?;
        patch = patch.tree(answer.root, &answer.parents);
    }
    let bytes = patch.image().map_err(|e| format!("{source}: {e}"))?;
    fs::write(image, bytes).map_err(|e| format!("{image}: {e}"))
}
