use crate::calls::{mover_read, mover_rewrite, mover_write_image};
use crate::lend::{lend, settle};
use crate::{image_size, Answer, Graph, Refusal, MAX_EDGES, MAX_VERTICES};

/// A graph with two measures and, if wanted, a spanning tree to be evaluated: what an image holds.
///
/// Nothing is tested while it is built: the library refuses what is not sound when it is called. Edges may be
/// added in any order and with their ends either way; the same pair twice is refused.
#[derive(Clone, Debug, Default, PartialEq, Eq)]
pub struct Patch {
    graph: Graph,
    mu: Vec<u64>,
    nu: Vec<u64>,
    root: Option<usize>,
    /// Empty where there is no root.
    parents: Vec<u32>,
}

impl Patch {
    /// A graph of so many vertices without edges, and two measures of 0 everywhere.
    pub fn new(vertices: usize) -> Patch {
        // No text has more vertices, and no call looks at a measure if there are more than 64.
        let zeros = vec![0; vertices.min(255)];
        Patch {
            graph: Graph::new(vertices),
            mu: zeros.clone(),
            nu: zeros,
            ..Patch::default()
        }
    }

    /// Adds an edge between two vertices. Lengths count hundredths of a millimetre.
    pub fn edge(mut self, x: u32, y: u32, length: u32) -> Patch {
        self.graph = self.graph.edge(x, y, length);
        self
    }

    /// Adds several edges.
    pub fn edges(mut self, edges: impl IntoIterator<Item = (u32, u32, u32)>) -> Patch {
        self.graph = self.graph.edges(edges);
        self
    }

    /// Sets the measure before, one amount for each vertex.
    pub fn mu(mut self, amounts: &[u64]) -> Patch {
        self.mu = amounts.to_vec();
        self
    }

    /// Sets the measure after, one amount for each vertex.
    pub fn nu(mut self, amounts: &[u64]) -> Patch {
        self.nu = amounts.to_vec();
        self
    }

    /// Asks for this tree to be evaluated instead of the best one to be found. The root is its own parent.
    pub fn tree(mut self, root: usize, parents: &[u32]) -> Patch {
        self.root = Some(root);
        self.parents = parents.to_vec();
        self
    }

    /// The graph, to make other calls with it.
    pub fn graph(&self) -> &Graph {
        &self.graph
    }

    /// The two measures, `mu` and `nu`.
    pub fn measures(&self) -> (&[u64], &[u64]) {
        (&self.mu, &self.nu)
    }

    /// The root and the parents of the tree that is to be evaluated.
    pub fn given_tree(&self) -> Option<(usize, &[u32])> {
        self.root.map(|root| (root, &self.parents[..]))
    }

    /// Evaluates the tree if there is one, otherwise finds the best answer.
    ///
    /// ```
    /// use weight_mover::{Patch, Refusal};
    ///
    /// let ring = Patch::new(4).edges([(0, 1, 1), (1, 2, 1), (2, 3, 1), (0, 3, 1)]);
    /// let ring = ring.mu(&[4, 0, 0, 0]).nu(&[0, 0, 0, 4]);
    /// assert_eq!(ring.run()?.cost, 4);
    /// assert_eq!(ring.clone().tree(0, &[0, 0, 1, 2]).run()?.cost, 12);
    /// assert_eq!(ring.edge(0, 2, 65_536).run(), Err(Refusal::EdgeLength));
    /// # Ok::<(), Refusal>(())
    /// ```
    pub fn run(&self) -> Result<Answer, Refusal> {
        match self.given_tree() {
            Some((root, parents)) => {
                let evaluation = self.graph.evaluate(&self.mu, &self.nu, root, parents)?;
                Ok(evaluation.answer)
            }
            None => self.graph.solve(&self.mu, &self.nu),
        }
    }

    /// The page of the tree or, if there is none, of the best one, whose root is 0.
    ///
    /// The potential is the tree's, as [`Graph::evaluate`] gives it: it is flat where nothing is carried, and there
    /// the potential of a best answer may be another one.
    ///
    /// ```
    /// use weight_mover::{Patch, Refusal};
    ///
    /// let ring = Patch::new(4).edges([(0, 1, 1), (1, 2, 1), (2, 3, 1), (0, 3, 1)]);
    /// let ring = ring.mu(&[4, 0, 0, 0]).nu(&[0, 0, 0, 4]);
    /// let has = |page: &str, line: [&str; 3]| page.lines().any(|other| other.split_whitespace().eq(line));
    /// assert!(has(&ring.clone().tree(0, &[0, 0, 1, 2]).page()?, ["03", "-4", "-3"]));
    /// assert!(has(&ring.page()?, ["03", "-4", "-1"]));
    /// assert_eq!(ring.mu(&[5, 0, 0, 0]).page(), Err(Refusal::TotalsDiffer));
    /// # Ok::<(), Refusal>(())
    /// ```
    pub fn page(&self) -> Result<String, Refusal> {
        let (mu, nu) = self.measures();
        match self.given_tree() {
            Some((root, parents)) => self.graph.page(mu, nu, root, parents),
            None => {
                let best = self.graph.solve(mu, nu)?;
                self.graph.page(mu, nu, best.root, &best.parents)
            }
        }
    }

    /// The image that the library reads: sections back to back from byte 36, the tree's at the end, empty if
    /// there is none. Two patches have equal images exactly if they are equal.
    ///
    /// The library writes it, and examines no more than it must. It refuses by 1 and 2, and then by 13 what an
    /// image has no bytes for: an end, root or parent above 255, a length above 65,535 or an amount above
    /// 4,294,967,295.
    ///
    /// ```
    /// use weight_mover::{Patch, Refusal};
    ///
    /// let patch = Patch::new(2).edge(0, 1, 7).mu(&[3, 1]).nu(&[0, 4]);
    /// assert_eq!(patch.image()?.len(), 36 + 4 + 8 + 8);
    /// assert_eq!(patch.clone().mu(&[3]).image(), Err(Refusal::TableSize));
    /// assert_eq!(patch.edge(0, 256, 1).image(), Err(Refusal::SectionLength));
    /// # Ok::<(), Refusal>(())
    /// ```
    pub fn image(&self) -> Result<Vec<u8>, Refusal> {
        let graph = &self.graph;
        let (mut image, mut length) = ([0; LARGEST], 0);
        Refusal::check(mover_write_image(
            graph.vertices,
            &graph.a,
            &graph.b,
            &graph.lengths,
            &self.mu,
            &self.nu,
            self.root.is_some(),
            self.root.unwrap_or(0),
            &self.parents,
            &mut image,
            &mut length,
        ))?;
        Ok(image[..length].to_vec())
    }
}

/// Bytes of the largest image that is written.
const LARGEST: usize = image_size(MAX_VERTICES, MAX_EDGES, true);

/// Reads an image and judges nothing but its form.
///
/// ```
/// use weight_mover::{read, Patch, Refusal};
///
/// // Totals that differ are no matter of form.
/// let patch = Patch::new(2).edge(0, 1, 7).mu(&[3, 1]).nu(&[0, 5]).tree(1, &[1, 1]);
/// let image = patch.image()?;
/// assert_eq!(read(&image)?, patch);
/// assert_eq!(read(&image[..50]), Err(Refusal::SectionPlace));
/// # Ok::<(), Refusal>(())
/// ```
pub fn read(image: &[u8]) -> Result<Patch, Refusal> {
    let mut patch = Patch::default();
    read_into(image, &mut patch)?;
    Ok(patch)
}

/// Reads an image into a patch that is there. After a refusal it is as it was.
///
/// ```
/// use weight_mover::{read_into, Patch};
///
/// let patch = Patch::new(2).edge(0, 1, 7).mu(&[3, 1]).nu(&[0, 4]);
/// let mut other = Patch::new(9);
/// read_into(&patch.image()?, &mut other)?;
/// assert_eq!(other, patch);
/// # Ok::<(), weight_mover::Refusal>(())
/// ```
pub fn read_into(image: &[u8], patch: &mut Patch) -> Result<(), Refusal> {
    let Patch {
        graph,
        mu,
        nu,
        parents,
        ..
    } = patch;
    let Graph { a, b, lengths, .. } = graph;
    let edges_before = [&mut *a, &mut *b, &mut *lengths].map(|list| lend(list, MAX_EDGES));
    let measures_before = [&mut *mu, &mut *nu].map(|list| lend(list, MAX_VERTICES));
    let parents_before = lend(parents, MAX_VERTICES);
    let (mut n, mut m, mut root, mut tree) = (0, 0, 0, 0);
    let result = Refusal::check(mover_read(
        image, a, b, lengths, mu, nu, parents, &mut n, &mut m, &mut root, &mut tree,
    ));
    let filled = |places: usize| result.is_ok().then_some(places);
    for (list, before) in [a, b, lengths].into_iter().zip(edges_before) {
        settle(list, before, filled(m));
    }
    for (list, before) in [mu, nu].into_iter().zip(measures_before) {
        settle(list, before, filled(n));
    }
    settle(parents, parents_before, filled(if tree == 1 { n } else { 0 }));
    result?;
    graph.vertices = n;
    patch.root = (tree == 1).then_some(root);
    Ok(())
}

/// Writes an image anew, as [`Patch::image`] writes it: gaps and a tail are gone, and it reads as before.
///
/// Images that hold equal patches become equal bytes. What is written is never longer than the image, and
/// writing it anew changes no byte.
///
/// ```
/// use weight_mover::{rewrite, Patch, Refusal};
///
/// let image = Patch::new(2).edge(0, 1, 7).mu(&[3, 1]).nu(&[0, 4]).image()?;
/// let mut longer = image.clone();
/// longer.extend([5; 100]);
/// assert_eq!(rewrite(&longer)?, image);
/// assert_eq!(rewrite(&image)?, image);
/// assert_eq!(rewrite(&image[..50]), Err(Refusal::SectionPlace));
/// # Ok::<(), Refusal>(())
/// ```
pub fn rewrite(image: &[u8]) -> Result<Vec<u8>, Refusal> {
    let mut written = [0; LARGEST];
    let length = rewrite_into(image, &mut written)?;
    Ok(written[..length].to_vec())
}

/// The same into a buffer that is there, and may be longer: returns how many bytes were written, and the others
/// stay as they were. A buffer as long as the image is long enough. After a refusal all bytes are as they were.
///
/// ```
/// use weight_mover::{rewrite_into, Patch, Refusal};
///
/// let image = Patch::new(1).mu(&[3]).nu(&[3]).image()?;
/// let mut buffer = [7; 50];
/// assert_eq!(rewrite_into(&image, &mut buffer)?, 44);
/// assert_eq!((&buffer[..44], &buffer[44..]), (&image[..], &[7; 6][..]));
/// assert_eq!(rewrite_into(&image, &mut buffer[..43]), Err(Refusal::TableSize));
/// # Ok::<(), Refusal>(())
/// ```
pub fn rewrite_into(image: &[u8], buffer: &mut [u8]) -> Result<usize, Refusal> {
    let mut length = 0;
    Refusal::check(mover_rewrite(image, buffer, &mut length))?;
    Ok(length)
}
