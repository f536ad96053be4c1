//! The report on an image sequence, as text or as CSV; and sequences out of the images and patches of a folder.
//!
//! Usage: `mover-reel FILE`, `mover-reel --csv FILE`, `mover-reel --pack FOLDER FILE`
//!
//! Long sequences are reported on by parts, with a line on standard error after each of them.

use std::ffi::{OsStr, OsString};
use std::io::{stdout, Write};
use std::path::{Path, PathBuf};
use std::process::ExitCode;
use std::{env, fs};
use weight_mover::{pack, report_by_parts, text, Report};

const USAGE: &str = "\
usage: mover-reel FILE                the report on the images of a reel, as text
       mover-reel --csv FILE          the same as CSV
       mover-reel --pack FOLDER FILE  packs the images (*.image) and patches (*.patch) of a folder into a reel
";

/// Above so many images the parts that are done are told.
const SHORT: usize = 4_096;

fn main() -> ExitCode {
    let arguments: Vec<OsString> = env::args_os().skip(1).collect();
    let is_option = |word: &OsString| word.as_encoded_bytes().starts_with(b"-");
    let result = match arguments.as_slice() {
        [help] if help == "-h" || help == "--help" => Ok(USAGE.into()),
        [file] if !is_option(file) => report(file.as_ref()).map(|report| as_text(&report)),
        [csv, file] if csv == "--csv" => report(file.as_ref()).map(|report| as_csv(&report)),
        [pack, folder, file] if pack == "--pack" => pack_folder(folder.as_ref(), file.as_ref()),
        _ => {
            eprint!("{USAGE}");
            return ExitCode::from(2);
        }
    };
    match result.and_then(print) {
        Ok(()) => ExitCode::SUCCESS,
        Err(message) => {
            eprintln!("{message}");
            ExitCode::FAILURE
        }
    }
}

fn print(answer: String) -> Result<(), String> {
    let written = stdout().write_all(answer.as_bytes());
    written.map_err(|e| format!("standard output: {e}"))
}

/// A complaint about a file.
fn about(path: &Path, complaint: impl std::fmt::Display) -> String {
    format!("{}: {complaint}", path.display())
}

fn report(file: &Path) -> Result<Report, String> {
    let reel = fs::read(file).map_err(|e| about(file, e))?;
    let report = report_by_parts(&reel, &mut |done, count| {
        if count > SHORT {
            eprintln!("{done} of {count} images");
        }
    });
    report.map_err(|refusal| about(file, refusal))
}

/// What is remarked of the first image, and of the number of images in its place.
const FIRST: &str = "with the greatest cost, counted from 0";
const NONE: &str = "no image was accepted: their number";

/// A line of the report: what it tells, its value, and a remark.
type Line = [String; 3];

fn line(item: &str, value: impl ToString, remark: &str) -> Line {
    [item.into(), value.to_string(), remark.into()]
}

fn lines(report: &Report) -> Vec<Line> {
    let mut lines = vec![
        line("images", report.count(), ""),
        line("accepted", report.accepted, ""),
        line("refused", report.refused(), ""),
    ];
    for (refusal, images) in report.refusals() {
        let item = format!("refused {}", refusal.number());
        lines.push(line(&item, images, refusal.meaning()));
    }
    lines.push(line("sum of costs", report.sum, ""));
    lines.push(line("greatest cost", report.greatest, ""));
    let remark = if report.accepted == 0 { NONE } else { FIRST };
    lines.push(line("first image", report.first, remark));
    lines
}

/// In columns, the values to the right.
fn as_text(report: &Report) -> String {
    let lines = lines(report);
    let width = |column: usize| lines.iter().map(|line| line[column].len()).max().unwrap_or(0);
    let (items, values) = (width(0), width(1));
    let row = |[item, value, remark]: &Line| {
        let row = format!("{item:items$}  {value:>values$}  {remark}");
        row.trim_end().to_owned() + "\n"
    };
    lines.iter().map(row).collect()
}

/// Under a line with the names of the columns.
fn as_csv(report: &Report) -> String {
    let field = |text: &String| match text.contains([',', '"']) {
        true => format!("\"{}\"", text.replace('"', "\"\"")),
        false => text.clone(),
    };
    let row = |line: Line| line.each_ref().map(field).join(",") + "\n";
    let head = line("item", "value", "remark");
    std::iter::once(head).chain(lines(report)).map(row).collect()
}

/// Packs the images and patches of a folder, by rising file name, and lists them.
fn pack_folder(folder: &Path, file: &Path) -> Result<String, String> {
    let paths = images_and_patches(folder)?;
    let images = paths.iter().map(|path| image(path));
    let images = images.collect::<Result<Vec<_>, String>>()?;
    let reel = pack(&images).map_err(|e| about(folder, e))?;
    fs::write(file, reel).map_err(|e| about(file, e))?;
    if images.is_empty() {
        eprintln!("{}", about(folder, "there is no image and no patch in it"));
    }
    let names = paths.iter().filter_map(|path| path.file_name());
    let width = paths.len().saturating_sub(1).to_string().len();
    let row = |(index, name): (usize, &OsStr)| format!("{index:>width$}  {}\n", name.to_string_lossy());
    Ok(names.enumerate().map(row).collect())
}

/// The files of a folder that end so, by rising name.
fn images_and_patches(folder: &Path) -> Result<Vec<PathBuf>, String> {
    let entries = fs::read_dir(folder).map_err(|e| about(folder, e))?;
    let paths = entries.map(|entry| entry.map(|entry| entry.path()));
    let mut paths: Vec<PathBuf> = paths.collect::<Result<_, _>>().map_err(|e| about(folder, e))?;
    let is_wanted = |path: &Path| has_ending(path, "image") || has_ending(path, "patch");
    paths.retain(|path| is_wanted(path) && !path.is_dir());
    paths.sort();
    Ok(paths)
}

fn has_ending(path: &Path, ending: &str) -> bool {
    path.extension().is_some_and(|own| own == ending)
}

/// The bytes of an image, or those that a patch is converted to.
fn image(path: &Path) -> Result<Vec<u8>, String> {
    if has_ending(path, "image") {
        return fs::read(path).map_err(|e| about(path, e));
    }
    let content = fs::read_to_string(path).map_err(|e| about(path, e))?;
    let drawing = text::parse(&content).map_err(|e| format!("{}, {e}", path.display()))?;
    drawing.patch.image().map_err(|refusal| about(path, refusal))
}
