//! Draws a patch, the moves of its plan and some frames in between, as an SVG picture.
//!
//! Usage: `patch-draw PATCH PICTURE`
//!
//! The library evaluates the tree of the patch, or finds the best one; what is drawn is its record.

mod layout;
mod picture;

use std::process::ExitCode;
use std::{env, fs};
use weight_mover::text;

fn main() -> ExitCode {
    let arguments: Vec<String> = env::args().skip(1).collect();
    let [source, target] = arguments.as_slice() else {
        eprintln!("usage: patch-draw PATCH PICTURE");
        return ExitCode::from(2);
    };
    match draw(source, target) {
        Ok(()) => ExitCode::SUCCESS,
        Err(message) => {
            eprintln!("{message}");
            ExitCode::FAILURE
        }
    }
}

fn draw(source: &str, target: &str) -> Result<(), String> {
    let content = fs::read_to_string(source).map_err(|e| format!("{source}: {e}"))?;
    let drawing = text::parse(&content).map_err(|e| format!("{source}, {e}"))?;
    let answer = drawing.patch.run().map_err(|e| format!("{source}: {e}"))?;
    let svg = picture::svg(&drawing, &answer);
    fs::write(target, svg).map_err(|e| format!("{target}: {e}"))
}
