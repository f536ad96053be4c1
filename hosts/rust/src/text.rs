//! A patch as readable text.
//!
//! Each line is a word and its numbers; `#` starts a comment. Lists may go on over several lines that
//! begin with the same word.
//!
//! ```text
//! title    A line of four vertices    # optional, for drawings
//! vertices 4
//! edge     0 1  2                     # two ends and a length, in hundredths of a millimetre
//! edge     1 2  3
//! edge     2 3  1
//! mu       5 0 1 0                    # before: one amount for each vertex
//! nu       0 2 1 3                    # after
//! root     3                          # optional: a tree to be evaluated,
//! parents  1 2 3 3                    # its root and each vertex's parent
//! at       0  0 0.5                   # optional: where to draw vertex 0, x to the right and y down
//! ```
//!
//! In place of `mu`, of `nu` or of both there may be weights from 0 to 1, as paint tools hold them:
//!
//! ```text
//! weights before 0.5 0.25 0 0.25
//! weights after  0 0 0.75 0.25
//! ```
//!
//! They may go on over several lines too. A decimal stands for the 32-bit float nearest to it, and
//! [`to_amounts`] makes an amount of that: 1 is 16,777,216 grains, the greatest total of a measure. What is
//! no whole number of grains, 0.1 say, is an error.
//!
//! [`parse`] reads it, and a [`Drawing`] is written as such a text by its `Display`, with `mu` and `nu`.
//!
//! Reading tests the text alone: what is written wrong is told with its line, and so is a weight that the
//! library refuses. Whether the patch is sound, connected and of equal totals say, is the library's to tell.

use crate::{to_amounts, Edge, Patch};
use std::fmt;

/// What a text says: a patch, and how to draw it.
#[derive(Clone, Debug, PartialEq)]
pub struct Drawing {
    /// The patch with its measures, and the tree if one is given.
    pub patch: Patch,
    /// The title, empty if there is none.
    pub title: String,
    /// A place for each vertex, x to the right and y down; empty if none is given.
    pub places: Vec<(f64, f64)>,
}

impl fmt::Display for Drawing {
    /// Writes the text: what [`parse`] gave is read back from it as it was. The measures are written in grains.
    ///
    /// A title of more than one line, or with a `#`, would not be; nor would numbers that no text can have,
    /// or a tree or measures of the wrong length.
    fn fmt(&self, f: &mut fmt::Formatter) -> fmt::Result {
        let Drawing { patch, title, places } = self;
        if !title.is_empty() {
            writeln!(f, "title {title}")?;
        }
        writeln!(f, "vertices {}", patch.graph().vertices())?;
        for Edge { a, b, length } in patch.graph().iter() {
            writeln!(f, "edge {a} {b} {length}")?;
        }
        let (mu, nu) = patch.measures();
        line(f, "mu", mu)?;
        line(f, "nu", nu)?;
        if let Some((root, parents)) = patch.given_tree() {
            writeln!(f, "root {root}")?;
            line(f, "parents", parents)?;
        }
        for (x, (right, down)) in places.iter().enumerate() {
            writeln!(f, "at {x} {right} {down}")?;
        }
        Ok(())
    }
}

fn line<T: fmt::Display>(f: &mut fmt::Formatter, word: &str, numbers: &[T]) -> fmt::Result {
    write!(f, "{word}")?;
    numbers.iter().try_for_each(|number| write!(f, " {number}"))?;
    writeln!(f)
}

/// What is wrong with a text, and where.
#[derive(Clone, Debug, PartialEq, Eq)]
pub struct Error {
    /// The line, counted from 1.
    pub line: usize,
    /// What is wrong there.
    pub message: String,
}

impl fmt::Display for Error {
    fn fmt(&self, f: &mut fmt::Formatter) -> fmt::Result {
        write!(f, "line {}: {}", self.line, self.message)
    }
}

impl std::error::Error for Error {}

/// A list that may take several lines, and the last line that added to it.
#[derive(Default)]
struct List<T> {
    items: Vec<T>,
    line: usize,
}

/// What the lines of a measure begin with, before and after, if it is given in grains.
const AMOUNTS: [&str; 2] = ["mu", "nu"];

/// The same if it is given by weights.
const WEIGHTS: [&str; 2] = ["weights before", "weights after"];

/// A measure, and what all its lines begin with.
#[derive(Default)]
struct Measure {
    amounts: List<u64>,
    given: Option<&'static str>,
}

/// Everything read so far.
#[derive(Default)]
struct Reader {
    title: String,
    vertices: Option<u32>,
    edges: Vec<(u32, u32, u32, usize)>,
    /// Before and after.
    measures: [Measure; 2],
    root: Option<(u32, usize)>,
    parents: List<u32>,
    places: List<Option<(f64, f64)>>,
}

/// Reads a patch from text.
pub fn parse(text: &str) -> Result<Drawing, Error> {
    let mut reader = Reader::default();
    let mut last = 1;
    for (index, line) in text.lines().enumerate() {
        last = index + 1;
        let content = line.split('#').next().unwrap_or("").trim();
        let (word, rest) = match content.split_once(char::is_whitespace) {
            Some((word, rest)) => (word, rest.trim()),
            None => (content, ""),
        };
        if !word.is_empty() {
            reader
                .line(last, word, rest)
                .map_err(|message| Error { line: last, message })?;
        }
    }
    reader.finish(last)
}

impl Reader {
    fn line(&mut self, line: usize, word: &str, rest: &str) -> Result<(), String> {
        let words: Vec<&str> = rest.split_whitespace().collect();
        match word {
            "title" => self.title = rest.into(),
            "vertices" => self.set_vertices(&words)?,
            "edge" => self.add_edge(line, &words)?,
            "mu" => self.add_amounts(line, 0, &words)?,
            "nu" => self.add_amounts(line, 1, &words)?,
            "weights" => self.add_weights(line, &words)?,
            "root" => self.set_root(line, &words)?,
            "parents" => self.add_parents(line, &words)?,
            "at" => self.set_place(line, &words)?,
            _ => {
                return Err(format!(
                    "\"{word}\" is none of title, vertices, edge, mu, nu, weights, root, parents, at"
                ))
            }
        }
        Ok(())
    }

    fn set_vertices(&mut self, words: &[&str]) -> Result<(), String> {
        let [n] = exactly(words, "vertices wants one number")?;
        if self.vertices.is_some() {
            return Err("the number of vertices is given a second time".into());
        }
        self.vertices = Some(number(n, 255)?);
        Ok(())
    }

    fn add_edge(&mut self, line: usize, words: &[&str]) -> Result<(), String> {
        let [a, b, length] = exactly(words, "edge wants two ends and a length")?;
        let (a, b) = (self.vertex(a)?, self.vertex(b)?);
        let length = number(length, 65_535)?;
        if a == b {
            return Err(format!("the edge joins vertex {a} to itself"));
        }
        let same = |&&(x, y, ..): &&(u32, u32, u32, usize)| (x, y) == (a, b) || (x, y) == (b, a);
        if let Some((.., first)) = self.edges.iter().find(same) {
            return Err(format!(
                "there is an edge between {a} and {b} in line {first} already"
            ));
        }
        self.edges.push((a, b, length, line));
        Ok(())
    }

    fn add_amounts(&mut self, line: usize, which: usize, words: &[&str]) -> Result<(), String> {
        let n = self.count()?;
        let list = self.measures[which].given_by(AMOUNTS[which])?;
        list.admit(words.len(), n, line, AMOUNTS[which])?;
        for amount in words {
            list.items.push(number(amount, u32::MAX)?.into());
        }
        Ok(())
    }

    /// The library makes amounts of the weights of a line. Of those that it refuses the first is told.
    fn add_weights(&mut self, line: usize, words: &[&str]) -> Result<(), String> {
        let n = self.count()?;
        let (which, words) = match words.split_first() {
            Some((&"before", rest)) => (0, rest),
            Some((&"after", rest)) => (1, rest),
            Some((other, _)) => return Err(format!("weights are before or after, not \"{other}\"")),
            None => return Err("weights wants before or after, and then the weights".into()),
        };
        let list = self.measures[which].given_by(WEIGHTS[which])?;
        list.admit(words.len(), n, line, WEIGHTS[which])?;
        let weights = words.iter().map(|word| float(word));
        let weights = weights.collect::<Result<Vec<f32>, String>>()?;
        let amounts = to_amounts(&weights).map_err(|refusal| {
            let refused = |&weight: &f32| to_amounts(&[weight]) == Err(refusal);
            let at = weights.iter().position(refused).unwrap_or(0);
            let vertex = list.items.len() + at;
            format!("the weight {} of vertex {vertex} is {refusal}", words[at])
        })?;
        list.items.extend(amounts);
        Ok(())
    }

    fn set_root(&mut self, line: usize, words: &[&str]) -> Result<(), String> {
        let [root] = exactly(words, "root wants one vertex")?;
        if self.root.is_some() {
            return Err("the root is given a second time".into());
        }
        self.root = Some((self.vertex(root)?, line));
        Ok(())
    }

    fn add_parents(&mut self, line: usize, words: &[&str]) -> Result<(), String> {
        let n = self.count()?;
        self.parents.admit(words.len(), n, line, "parents")?;
        for parent in words {
            let parent = self.vertex(parent)?;
            self.parents.items.push(parent);
        }
        Ok(())
    }

    fn set_place(&mut self, line: usize, words: &[&str]) -> Result<(), String> {
        let n = self.count()?;
        let [x, right, down] = exactly(words, "at wants a vertex and two coordinates")?;
        let x = self.vertex(x)?;
        self.places.items.resize(n as usize, None);
        self.places.items[x as usize] = Some((coordinate(right)?, coordinate(down)?));
        self.places.line = line;
        Ok(())
    }

    /// The number of vertices, which other lines need.
    fn count(&self) -> Result<u32, String> {
        let missing = "the number of vertices must come first";
        self.vertices.ok_or_else(|| missing.into())
    }

    fn vertex(&self, word: &str) -> Result<u32, String> {
        let n = self.count()?;
        let vertex = number(word, u32::MAX)?;
        if vertex < n {
            Ok(vertex)
        } else {
            Err(format!(
                "there is no vertex {vertex}: they go from 0 to n - 1, and n is {n}"
            ))
        }
    }

    fn finish(self, last: usize) -> Result<Drawing, Error> {
        let Some(vertices) = self.vertices else {
            return error(last, "the number of vertices is missing".into());
        };
        let n = vertices as usize;
        for (measure, usual) in self.measures.iter().zip(AMOUNTS) {
            measure.check_length(n, last, usual)?;
        }
        let tree = self.tree(n)?;
        if let Some(missing) = self.places.items.iter().position(Option::is_none) {
            let message = format!("some vertices have a place, but vertex {missing} has none");
            return error(self.places.line, message);
        }
        let edges = self.edges.iter().map(|&(a, b, length, _)| (a, b, length));
        let [mu, nu] = &self.measures;
        let patch = Patch::new(n).edges(edges);
        let patch = patch.mu(&mu.amounts.items).nu(&nu.amounts.items);
        Ok(Drawing {
            patch: match tree {
                Some(root) => patch.tree(root, &self.parents.items),
                None => patch,
            },
            title: self.title,
            places: self.places.items.into_iter().flatten().collect(),
        })
    }

    /// The root, if there is a tree; all its parents are there.
    fn tree(&self, n: usize) -> Result<Option<usize>, Error> {
        match (self.root, self.parents.line) {
            (None, 0) => Ok(None),
            (None, line) => error(line, "there are parents, but no root".into()),
            (Some((root, line)), _) => {
                let got = self.parents.items.len();
                if got < n {
                    let line = line.max(self.parents.line);
                    return error(line, format!("the tree has {got} parents for {n} vertices"));
                }
                Ok(Some(root as usize))
            }
        }
    }
}

fn error<T>(line: usize, message: String) -> Result<T, Error> {
    Err(Error { line, message })
}

impl Measure {
    /// Its list, for a line that begins so.
    fn given_by(&mut self, words: &'static str) -> Result<&mut List<u64>, String> {
        let first = *self.given.get_or_insert(words);
        if first != words {
            let line = self.amounts.line;
            return Err(format!("this measure is given by {first} in line {line} already"));
        }
        Ok(&mut self.amounts)
    }

    /// Tests that there is an amount for each vertex.
    fn check_length(&self, n: usize, last: usize, usual: &str) -> Result<(), Error> {
        let List { items, line } = &self.amounts;
        if items.len() < n {
            let line = if *line == 0 { last } else { *line };
            let (word, got) = (self.given.unwrap_or(usual), items.len());
            return error(line, format!("{word} has {got} numbers for {n} vertices"));
        }
        Ok(())
    }
}

impl<T> List<T> {
    /// Makes ready for so many more numbers, which a line adds.
    fn admit(&mut self, more: usize, n: u32, line: usize, word: &str) -> Result<(), String> {
        self.line = line;
        if self.items.len() + more > n as usize {
            return Err(format!("{word} has more than {n} numbers, one for each vertex"));
        }
        Ok(())
    }
}

fn exactly<'a, const N: usize>(words: &[&'a str], wanted: &str) -> Result<[&'a str; N], String> {
    let got = words.len();
    <[&str; N]>::try_from(words).map_err(|_| format!("{wanted}, but {got} are given"))
}

fn number(word: &str, most: u32) -> Result<u32, String> {
    let digits = !word.is_empty() && word.bytes().all(|b| b.is_ascii_digit());
    if !digits {
        return Err(format!("\"{word}\" is not a whole number"));
    }
    match word.parse() {
        Ok(value) if value <= most => Ok(value),
        _ => Err(format!("{word} is too large: at most {most} can be written here")),
    }
}

/// The 32-bit float nearest to a decimal. It may be no weight: the library refuses that.
fn float(word: &str) -> Result<f32, String> {
    word.parse().map_err(|_| format!("\"{word}\" is not a number"))
}

fn coordinate(word: &str) -> Result<f64, String> {
    match word.parse::<f64>() {
        Ok(value) if value.is_finite() => Ok(value),
        _ => Err(format!("\"{word}\" is not a coordinate")),
    }
}

#[cfg(test)]
mod tests {
    use super::parse;
    use crate::{Edge, Patch};

    #[test]
    fn a_whole_patch() {
        let text = "# a line\ntitle  Two words # not this\nvertices 3\nedge 1 0 7\nedge 1 2 4\n\
                    mu 1 2\nmu 3\nnu 3 2 1\nroot 2\nparents 1 2 2\nat 0 0 0\nat 1 1.5 0\nat 2 2 -1\n";
        let drawing = parse(text).unwrap();
        let patch = Patch::new(3).edge(1, 0, 7).edge(1, 2, 4);
        let patch = patch.mu(&[1, 2, 3]).nu(&[3, 2, 1]).tree(2, &[1, 2, 2]);
        assert_eq!(drawing.patch, patch);
        let edges: Vec<Edge> = drawing.patch.graph().iter().collect();
        assert_eq!(edges, [(0, 1, 7), (1, 2, 4)].map(Edge::from));
        assert_eq!(drawing.title, "Two words");
        assert_eq!(drawing.places, [(0.0, 0.0), (1.5, 0.0), (2.0, -1.0)]);
    }

    #[test]
    fn errors_name_their_line() {
        let cases = [
            ("", "line 1: the number of vertices is missing"),
            ("\n\nvertces 3", "line 3: \"vertces\" is none of title, vertices"),
            ("vertices", "line 1: vertices wants one number, but 0 are given"),
            ("vertices x", "line 1: \"x\" is not a whole number"),
            ("vertices -1", "line 1: \"-1\" is not a whole number"),
            ("vertices 256", "line 1: 256 is too large"),
            (
                "vertices 2\nvertices 2",
                "line 2: the number of vertices is given a second time",
            ),
            (
                "edge 0 1 1\nvertices 2",
                "line 1: the number of vertices must come first",
            ),
            (
                "vertices 2\nedge 0 1",
                "line 2: edge wants two ends and a length, but 2 are given",
            ),
            ("vertices 2\nedge 0 2 1", "line 2: there is no vertex 2"),
            (
                "vertices 2\nedge 1 1 1",
                "line 2: the edge joins vertex 1 to itself",
            ),
            ("vertices 2\nedge 0 1 65536", "line 2: 65536 is too large"),
            (
                "vertices 2\nedge 0 1 1\n\nedge 1 0 2",
                "line 4: there is an edge between 1 and 0 in line 2",
            ),
            ("vertices 2\nmu 1 2 3", "line 2: mu has more than 2 numbers"),
            (
                "vertices 2\nmu 1 2\nnu 3\n# end",
                "line 3: nu has 1 numbers for 2 vertices",
            ),
            ("vertices 1\nmu 4294967296", "line 2: 4294967296 is too large"),
            (
                "vertices 1\nmu 1\nnu 1\nroot 0",
                "line 4: the tree has 0 parents for 1 vertices",
            ),
            (
                "vertices 1\nmu 1\nnu 1\nparents 0",
                "line 4: there are parents, but no root",
            ),
            ("vertices 1\nroot 1", "line 2: there is no vertex 1"),
            (
                "vertices 2\nmu 1 2\nnu 1 2\nat 1 0 0",
                "line 4: some vertices have a place, but vertex 0",
            ),
            ("vertices 1\nat 0 0 far", "line 2: \"far\" is not a coordinate"),
            ("vertices 1\nat 0 0 inf", "line 2: \"inf\" is not a coordinate"),
        ];
        for (text, expected) in cases {
            let error = parse(text).unwrap_err().to_string();
            assert!(error.starts_with(expected), "{text:?} gives {error:?}");
        }
    }

    #[test]
    fn weights() {
        let text = "vertices 4\nweights after 5.9604645e-8 0 0.99999994 -0\nweights before .5 +0.25\n\
                    weights before 1. # one\nweights before 1.25e-1\n";
        let drawing = parse(text).unwrap();
        let (before, after) = (
            [8_388_608, 4_194_304, 16_777_216, 2_097_152],
            [1, 0, 16_777_215, 0],
        );
        assert_eq!(drawing.patch, Patch::new(4).mu(&before).nu(&after));
        let written = "vertices 4\nmu 8388608 4194304 16777216 2097152\nnu 1 0 16777215 0\n";
        assert_eq!(drawing.to_string(), written);
        // One measure may be given in grains, the other by weights.
        let mixed = parse("vertices 1\nmu 3\nweights after 1").unwrap();
        assert_eq!(mixed.patch, Patch::new(1).mu(&[3]).nu(&[16_777_216]));
        let none = parse("vertices 0\nweights before\nweights after").unwrap();
        assert_eq!(none.patch, Patch::new(0));
    }

    #[test]
    fn errors_of_weights() {
        let cases = [
            ("weights", "weights wants before or after"),
            ("weights 0.5 0.5", "weights are before or after, not \"0.5\""),
            (
                "weights before 0.5 0 0.1 0",
                "weights before has more than 3 numbers",
            ),
            (
                "weights before 0.5 0",
                "weights before has 2 numbers for 3 vertices",
            ),
            ("weights before 0 0.5 abc", "\"abc\" is not a number"),
            ("weights before 0 0x1", "\"0x1\" is not a number"),
            ("weights before 0 0,5", "\"0,5\" is not a number"),
            (
                "weights after 0.5 0.10 0",
                "the weight 0.10 of vertex 1 is refused 16: a weight is no whole number of grains",
            ),
            (
                "weights after 0.1 0 1.5",
                "the weight 1.5 of vertex 2 is refused 15: a weight is below 0, above 1 or no number",
            ),
            (
                "weights after 0 1e-45",
                "the weight 1e-45 of vertex 1 is refused 16",
            ),
            (
                "weights after -1e-45",
                "the weight -1e-45 of vertex 0 is refused 15",
            ),
            ("weights after 0 NaN", "the weight NaN of vertex 1 is refused 15"),
            ("weights after -inf", "the weight -inf of vertex 0 is refused 15"),
            ("weights after 1e99", "the weight 1e99 of vertex 0 is refused 15"),
        ];
        for (line, expected) in cases {
            let error = parse(&format!("vertices 3\n\n{line}")).unwrap_err();
            assert_eq!(error.line, 3);
            assert!(error.message.starts_with(expected), "{line:?} gives {error:?}");
        }
        let cases = [
            (
                "weights before 1",
                "line 1: the number of vertices must come first",
            ),
            (
                "vertices 1\nmu 1\n\nweights before 1",
                "line 4: this measure is given by mu in line 2 already",
            ),
            (
                "vertices 2\nweights after 1\nweights after 0\nnu 1 0",
                "line 4: this measure is given by weights after in line 3 already",
            ),
            (
                "vertices 3\nweights before 0.5\nweights before 0 2 # here\nweights before 0",
                "line 3: the weight 2 of vertex 2 is refused 15",
            ),
        ];
        for (text, expected) in cases {
            let error = parse(text).unwrap_err().to_string();
            assert!(error.starts_with(expected), "{text:?} gives {error:?}");
        }
    }
}
