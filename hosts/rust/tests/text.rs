//! The text of a patch under random damage: it is read or refused with its line, and what is read comes back.
//!
//! `MOVER_CASES` and `MOVER_SEED` are as in the differential tests.

use reference::random::{self, Random};
use reference::runs::{cases, images, seed};
use reference::weights::weight;
use reference::Problem;
use std::fs;
use std::path::Path;
use weight_mover::text::{parse, Drawing, Error};
use weight_mover::{read, Patch, Refusal};

/// How a drawing is read and written: as it should be, or wrong on purpose.
#[derive(Clone, Copy)]
struct Format {
    parse: Parse,
    write: Write,
}

type Parse = fn(&str) -> Result<Drawing, Error>;
type Write = fn(&Drawing) -> String;

const FORMAT: Format = Format {
    parse,
    write: Drawing::to_string,
};

/// Reads a text. What is accepted must come back from its own text and from its image, which is refused for its
/// counts alone. Says whether it was.
fn try_text(format: Format, text: &str) -> Result<bool, String> {
    let drawing = match (format.parse)(text) {
        Ok(drawing) => drawing,
        Err(error) => {
            let lines = text.lines().count().max(1);
            return match (1..=lines).contains(&error.line) && !error.message.is_empty() {
                true => Ok(false),
                false => Err(format!("{error:?} of {lines} lines")),
            };
        }
    };
    let written = (format.write)(&drawing);
    match (format.parse)(&written) {
        Ok(again) if again == drawing => {}
        other => {
            return Err(format!(
                "{drawing:?} is written {written:?}, which is read {other:?}"
            ))
        }
    }
    let patch = drawing.patch;
    let (n, m) = (patch.graph().vertices(), patch.graph().iter().len());
    let image = patch.image();
    let expected = match (n, m) {
        (0 | 65.., _) => Err(Refusal::VertexCount),
        (_, 513..) => Err(Refusal::TableSize),
        _ => Ok(patch),
    };
    match image.and_then(|image| read(&image)) {
        got if got == expected => Ok(true),
        got => Err(format!("the image of {expected:?} is read {got:?}")),
    }
}

/// The weight of an amount, written so that it is read as the same float.
fn decimal(random: &mut Random, amount: u64) -> String {
    let weight = f32::from_bits(weight(amount).expect("at most 16,777,216"));
    match random.below(4) {
        0 => format!("{weight}"),
        1 => format!("{weight:e}"),
        // Nine digits tell every float from its neighbours, and twenty-four places are all that there are.
        2 => format!("{weight:.8e}"),
        _ => format!("{weight:.24}"),
    }
}

/// Two lines of a measure, in grains or by weights.
fn measure(random: &mut Random, words: [&str; 2], amounts: &[u64]) -> String {
    let weighed = random.chance(2);
    let word = words[usize::from(weighed)];
    let numbers: Vec<String> = amounts
        .iter()
        .map(|&amount| match weighed {
            true => decimal(random, amount),
            false => amount.to_string(),
        })
        .collect();
    let (first, second) = numbers.split_at(random.index(numbers.len()));
    format!("{word} {}\n{word} {}", first.join(" "), second.join(" "))
}

/// The text of a problem, its lines in some order, with a title and places or without.
fn text_of(random: &mut Random, problem: &Problem) -> String {
    let mut lines: Vec<String> = problem
        .edges
        .iter()
        .map(|e| match random.chance(2) {
            true => format!("edge {} {} {}", e.a, e.b, e.length),
            false => format!("edge\t{}  {} 0{} # an edge", e.b, e.a, e.length),
        })
        .collect();
    lines.push(measure(random, ["mu", "weights before"], &problem.mu));
    lines.push(measure(random, ["nu", "weights after"], &problem.nu));
    if let Some(tree) = &problem.tree {
        let parents: Vec<String> = tree.parents.iter().map(usize::to_string).collect();
        lines.push(format!("root {}\nparents {}", tree.root, parents.join(" ")));
    }
    if random.chance(2) {
        lines.push("title A \u{2192} B & \u{e9}".into());
    }
    if random.chance(2) {
        let place = |x: usize| format!("at {x} {}.5 -1e{}", x, x % 40);
        lines.extend((0..problem.n).map(place));
    }
    random.shuffle(&mut lines);
    let end = random.pick(&["\n", "\r\n", "\n\n"]);
    format!("vertices {}\n{}{end}", problem.n, lines.join(end))
}

/// Words that a damaged text may get.
const WORDS: [&str; 38] = [
    "title",
    "vertices",
    "edge",
    "mu",
    "nu",
    "root",
    "parents",
    "at",
    "weights",
    "before",
    "after",
    "0",
    "1",
    "2",
    "63",
    "64",
    "65",
    "255",
    "256",
    "65535",
    "65536",
    "4294967295",
    "4294967296",
    "18446744073709551616",
    "-1",
    "1.5",
    "0.5",
    "0.1",
    "-0",
    "1e-45",
    "5.9604645e-8",
    "1e400",
    "inf",
    "nan",
    "#",
    "\u{a0}",
    "\u{2028}",
    "\0",
];

/// Damages a text in one way.
fn damage(random: &mut Random, text: &str) -> String {
    let mut lines: Vec<String> = text.lines().map(String::from).collect();
    let at = random.index(lines.len().max(1));
    match random.below(8) {
        // A line goes, comes twice, or comes elsewhere.
        0 if !lines.is_empty() => drop(lines.remove(at)),
        1 if !lines.is_empty() => lines.insert(at, lines[at].clone()),
        2 if !lines.is_empty() => {
            let line = lines.remove(at);
            lines.insert(random.index(lines.len() + 1), line);
        }
        // A word goes, changes or comes.
        kind @ 3..=5 if !lines.is_empty() => {
            let mut words: Vec<&str> = lines[at].split(' ').collect();
            let word = random.index(words.len());
            match kind {
                3 => drop(words.remove(word)),
                4 => words[word] = random.pick(&WORDS),
                _ => words.insert(word, random.pick(&WORDS)),
            }
            lines[at] = words.join(" ");
        }
        // A character changes.
        6 => {
            let mut characters: Vec<char> = text.chars().collect();
            if !characters.is_empty() {
                let at = random.index(characters.len());
                let wild = char::from_u32(random.below(0x11_0000) as u32).unwrap_or('\u{fffd}');
                characters[at] = match random.chance(2) {
                    true => random.pick(&['\n', ' ', '#', '0', '9', '-', '\r', '\t']),
                    false => wild,
                };
            }
            return characters.into_iter().collect();
        }
        // It ends early.
        _ => {
            let characters = text.chars().count();
            return text.chars().take(random.index(characters + 1)).collect();
        }
    }
    lines.join("\n")
}

fn bundled() -> Vec<String> {
    let directory = Path::new(env!("CARGO_MANIFEST_DIR")).join("../../patches");
    let entries = fs::read_dir(directory).expect("the bundled patches");
    let texts = entries.map(|entry| fs::read_to_string(entry.expect("an entry").path()).expect("a text"));
    texts.collect()
}

/// Runs many texts, damaged some times each; says how many were accepted and how many not.
fn run(format: Format, seed: u64, count: u64) -> Result<[u64; 2], String> {
    let bundled = bundled();
    let mut tally = [0; 2];
    for index in 0..count {
        let random = &mut Random::for_case(seed, index);
        let mut text = match random.below(4) {
            0 => bundled[random.index(bundled.len())].clone(),
            _ => {
                let problem = random::problem(random);
                text_of(random, &problem)
            }
        };
        for _ in 0..random.below(4) {
            text = damage(random, &text);
        }
        match try_text(format, &text) {
            Ok(accepted) => tally[usize::from(accepted)] += 1,
            Err(complaint) => return Err(format!("seed {seed}, case {index}: {complaint}\ntext {text:?}")),
        }
    }
    Ok(tally)
}

#[test]
fn damaged_texts() {
    let (seed, count) = (seed(), images());
    match run(FORMAT, seed, count) {
        Ok([refused, accepted]) => {
            println!("damaged texts: seed {seed}, {count} cases: accepted {accepted}, refused {refused}");
            assert!(count < 200 || refused > 0 && accepted > count / 10);
        }
        Err(complaint) => panic!("{complaint}"),
    }
}

/// Reads texts without damage, each as the problem that it was made of. Says how many measures were weights.
fn read_whole(parse: Parse, seed: u64, count: u64) -> Result<usize, String> {
    let mut weighed = 0;
    for index in 0..count {
        let random = &mut Random::for_case(seed, index);
        let problem = random::problem(random);
        let text = text_of(random, &problem);
        let edges = problem
            .edges
            .iter()
            .map(|e| (e.a as u32, e.b as u32, e.length as u32));
        let mut expected = Patch::new(problem.n).edges(edges);
        expected = expected.mu(&problem.mu).nu(&problem.nu);
        if let Some(tree) = &problem.tree {
            let parents: Vec<u32> = tree.parents.iter().map(|&p| p as u32).collect();
            expected = expected.tree(tree.root, &parents);
        }
        match parse(&text) {
            Ok(drawing) if drawing.patch == expected => {}
            got => return Err(format!("seed {seed}, case {index}: {got:?}\ntext {text:?}")),
        }
        weighed += text.matches("weights").count() / 2;
    }
    Ok(weighed)
}

#[test]
fn whole_texts() {
    let (seed, count) = (seed(), cases(5_000));
    match read_whole(parse, seed, count) {
        Ok(weighed) => println!("whole texts: seed {seed}, {count} cases, {weighed} measures by weights"),
        Err(complaint) => panic!("{complaint}"),
    }
}

/// The test above can fail: measures that are read otherwise are caught.
#[test]
fn wrong_measures_are_caught() {
    let wrong: [(&str, Parse); 3] = [
        ("weights exchanged", |text| {
            let text = text.replace("weights before", "weights ?");
            let text = text.replace("weights after", "weights before");
            parse(&text.replace("weights ?", "weights after"))
        }),
        ("weights taken for grains", |text| {
            let text = text.replace("weights before", "mu");
            parse(&text.replace("weights after", "nu"))
        }),
        ("half the grains", |text| {
            let mut drawing = parse(text)?;
            let (mu, _) = drawing.patch.measures();
            let halves: Vec<u64> = mu.iter().map(|x| x / 2).collect();
            drawing.patch = drawing.patch.clone().mu(&halves);
            Ok(drawing)
        }),
    ];
    assert!(read_whole(parse, 1, 200).is_ok_and(|weighed| weighed > 50));
    for (name, parse) in wrong {
        let complaint = read_whole(parse, 1, 200).expect_err(name);
        let brief: String = complaint.chars().take(80).collect();
        println!("wrong on purpose, {name}: {brief}");
    }
}

/// Bytes without meaning are refused, or read and written.
#[test]
fn arbitrary_texts() {
    let random = &mut Random::new(seed());
    for _ in 0..images() {
        let length = random.index(60);
        let text: String = match random.chance(2) {
            true => (0..length)
                .map(|_| random.pick(&WORDS))
                .collect::<Vec<_>>()
                .join(" "),
            false => (0..length)
                .map(|_| random.pick(&['v', 'e', 'm', 'u', '0', '1', ' ', '\n', '#']))
                .collect(),
        };
        let text = format!("vertices {}\n{text}", random.below(3));
        try_text(FORMAT, &text).unwrap_or_else(|complaint| panic!("{complaint}\ntext {text:?}"));
    }
}

/// The tests above can fail: readers and writers that lose or change something are caught.
#[test]
fn wrong_formats_are_caught() {
    let writers: [(&str, Write); 7] = [
        ("no title", |drawing| without(&drawing.to_string(), "title")),
        ("no tree", |drawing| {
            without(&without(&drawing.to_string(), "root"), "parents")
        }),
        ("no places", |drawing| without(&drawing.to_string(), "at")),
        ("one edge less", |drawing| {
            drawing.to_string().replacen("\nedge", "\n# ", 1)
        }),
        ("measures exchanged", |drawing| {
            let text = drawing.to_string().replace("\nmu", "\n?");
            text.replace("\nnu", "\nmu").replace("\n?", "\nnu")
        }),
        ("lengths in other units", |drawing| {
            let text = drawing.to_string();
            let lines = text.lines().map(|line| match line.starts_with("edge") {
                true => format!("{line}0\n"),
                false => format!("{line}\n"),
            });
            lines.collect()
        }),
        ("nothing", |_| String::new()),
    ];
    let parsers: [(&str, Parse); 3] = [
        ("lines counted from 0", |text| {
            parse(text).map_err(|e| Error {
                line: e.line - 1,
                ..e
            })
        }),
        ("no message", |text| {
            parse(text).map_err(|e| Error {
                message: String::new(),
                ..e
            })
        }),
        ("amounts that no image can hold", |text| {
            let mut drawing = parse(text)?;
            let (_, nu) = drawing.patch.measures();
            let wide: Vec<u64> = nu.iter().map(|x| x | 1 << 32).collect();
            drawing.patch = drawing.patch.clone().nu(&wide);
            Ok(drawing)
        }),
    ];
    let writers = writers.map(|(name, write)| (name, Format { write, ..FORMAT }));
    let parsers = parsers.map(|(name, parse)| (name, Format { parse, ..FORMAT }));
    for (name, format) in writers.into_iter().chain(parsers) {
        let complaint = run(format, 1, 2_000).expect_err(name);
        let brief: String = complaint.chars().take(80).collect();
        println!("wrong on purpose, {name}: {brief}");
    }
}

fn without(text: &str, word: &str) -> String {
    let lines: Vec<&str> = text.lines().filter(|line| !line.starts_with(word)).collect();
    lines.join("\n")
}

/// Drawings made by hand come back too.
#[test]
fn places_and_titles_come_back() {
    let patch = Patch::new(1).mu(&[4]).nu(&[4]).tree(0, &[0]);
    let drawing = Drawing {
        patch,
        title: "One".into(),
        places: vec![(0.1, -1e300)],
    };
    assert_eq!(parse(&drawing.to_string()), Ok(drawing));
    let empty = Drawing {
        patch: Patch::new(0),
        title: String::new(),
        places: Vec::new(),
    };
    assert_eq!(parse(&empty.to_string()), Ok(empty));
}
