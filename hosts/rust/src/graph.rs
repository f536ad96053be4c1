use crate::calls::{
    mover_distances, mover_distances_of_records, mover_evaluate, mover_is_optimal, mover_nearest_vertex,
    mover_solve, mover_vertices_within, mover_write_page,
};
use crate::lend::{lend, settle};
use crate::{page_size, Answer, Evaluation, Refusal, MAX_VERTICES};

/// An edge: two ends, `a < b`, and a length in hundredths of a millimetre.
#[derive(Clone, Copy, Debug, Default, PartialEq, Eq, Hash)]
#[repr(C)]
pub struct Edge {
    /// The lower end.
    pub a: u32,
    /// The upper end.
    pub b: u32,
    /// The length, 0 to 65,535; 0 where the ends are welded.
    pub length: u32,
}

impl From<(u32, u32, u32)> for Edge {
    /// The edge between two vertices, which may come in either order.
    fn from((x, y, length): (u32, u32, u32)) -> Edge {
        Edge {
            a: x.min(y),
            b: x.max(y),
            length,
        }
    }
}

/// A graph of vertices 0 to n − 1 with a length on each edge.
///
/// Nothing is tested while it is built: any numbers can be held, and the library refuses what is not sound
/// when it is called. Edges may be added in any order and with their ends either way; the same pair twice is
/// refused.
///
/// Every call that fills tables comes twice: one makes its answer, the other, with `_into`, fills one that is
/// there already, without allocating if it was as large before. After a refusal that one is as it was.
///
/// ```
/// use weight_mover::{Answer, Graph};
///
/// let graph = Graph::new(3).edge(0, 1, 5).edge(0, 2, 1).edge(1, 2, 1);
/// let before = [3, 0, 0];
/// let mut answer = Answer::default();
/// for after in [[0, 3, 0], [1, 1, 1], [3, 0, 0]] {
///     graph.solve_into(&before, &after, &mut answer)?;
///     println!("{} for {after:?}", answer.cost);
/// }
/// # assert_eq!(answer.cost, 0);
/// # Ok::<(), weight_mover::Refusal>(())
/// ```
#[derive(Clone, Debug, Default, PartialEq, Eq)]
pub struct Graph {
    pub(crate) vertices: usize,
    pub(crate) a: Vec<u32>,
    pub(crate) b: Vec<u32>,
    pub(crate) lengths: Vec<u32>,
}

impl Graph {
    /// A graph of so many vertices without edges.
    pub fn new(vertices: usize) -> Graph {
        Graph {
            vertices,
            ..Graph::default()
        }
    }

    /// Adds an edge between two vertices.
    pub fn edge(mut self, x: u32, y: u32, length: u32) -> Graph {
        self.add(Edge::from((x, y, length)));
        self
    }

    /// Adds several edges.
    pub fn edges(mut self, edges: impl IntoIterator<Item = (u32, u32, u32)>) -> Graph {
        edges.into_iter().for_each(|edge| self.add(edge.into()));
        self
    }

    /// Puts an edge in its place: the lists rise by (a, b).
    fn add(&mut self, Edge { a, b, length }: Edge) {
        let first = self.a.partition_point(|&other| other < a);
        let same = self.a[first..].partition_point(|&other| other == a);
        let at = first + self.b[first..first + same].partition_point(|&other| other <= b);
        self.a.insert(at, a);
        self.b.insert(at, b);
        self.lengths.insert(at, length);
    }

    /// The number of vertices.
    pub fn vertices(&self) -> usize {
        self.vertices
    }

    /// The edges in the order in which the library gets them.
    pub fn iter(&self) -> impl ExactSizeIterator<Item = Edge> + '_ {
        let edge = |at| Edge {
            a: self.a[at],
            b: self.b[at],
            length: self.lengths[at],
        };
        (0..self.a.len()).map(edge)
    }

    /// All distances.
    ///
    /// ```
    /// use weight_mover::Graph;
    ///
    /// let distances = Graph::new(3).edge(0, 1, 5).edge(0, 2, 1).edge(1, 2, 1).distances()?;
    /// assert_eq!(distances.between(0, 1), 2);
    /// # Ok::<(), weight_mover::Refusal>(())
    /// ```
    pub fn distances(&self) -> Result<Distances, Refusal> {
        let mut distances = Distances::default();
        self.distances_into(&mut distances)?;
        Ok(distances)
    }

    /// All distances, into a table that is there.
    ///
    /// ```
    /// use weight_mover::{Distances, Graph, Refusal};
    ///
    /// let mut distances = Distances::default();
    /// Graph::new(2).edge(0, 1, 7).distances_into(&mut distances)?;
    /// assert_eq!(distances.row(0), [0, 7]);
    /// let lone = Graph::new(3).edge(0, 1, 1).distances_into(&mut distances);
    /// assert_eq!(lone, Err(Refusal::NotConnected));
    /// assert_eq!(distances.row(0), [0, 7]);
    /// # Ok::<(), weight_mover::Refusal>(())
    /// ```
    pub fn distances_into(&self, distances: &mut Distances) -> Result<(), Refusal> {
        distances.fill(self.vertices, |out| {
            mover_distances(self.vertices, &self.a, &self.b, &self.lengths, out)
        })
    }

    /// The best answer: a spanning tree whose plan is cheapest, with the potential that shows it.
    ///
    /// `mu` is the measure before and `nu` the one after, an amount for each vertex.
    ///
    /// ```
    /// use weight_mover::Graph;
    ///
    /// let answer = Graph::new(2).edge(0, 1, 7).solve(&[3, 1], &[0, 4])?;
    /// assert_eq!((answer.cost, answer.moves, answer.amount(0, 1)), (21, 1, 3));
    /// # Ok::<(), weight_mover::Refusal>(())
    /// ```
    pub fn solve(&self, mu: &[u64], nu: &[u64]) -> Result<Answer, Refusal> {
        let mut answer = Answer::default();
        self.solve_into(mu, nu, &mut answer)?;
        Ok(answer)
    }

    /// The best answer, into one that is there.
    ///
    /// ```
    /// use weight_mover::{Answer, Graph};
    ///
    /// let mut answer = Answer::default();
    /// Graph::new(2).edge(0, 1, 7).solve_into(&[3, 1], &[0, 4], &mut answer)?;
    /// assert_eq!(answer.parents, [0, 0]);
    /// # Ok::<(), weight_mover::Refusal>(())
    /// ```
    pub fn solve_into(&self, mu: &[u64], nu: &[u64], answer: &mut Answer) -> Result<(), Refusal> {
        let n = self.vertices;
        let (mut cost, mut moves) = (0, 0);
        let lent = answer.lend(n);
        let before = lend(&mut answer.parents, n.min(MAX_VERTICES));
        let result = Refusal::check(mover_solve(
            n,
            &self.a,
            &self.b,
            &self.lengths,
            mu,
            nu,
            &mut answer.parents,
            &mut answer.potential,
            &mut answer.plan,
            &mut cost,
            &mut moves,
        ));
        let filled = result.is_ok().then_some(n);
        settle(&mut answer.parents, before, filled);
        answer.settle(lent, filled);
        result?;
        (answer.cost, answer.moves, answer.root) = (cost, moves, 0);
        Ok(())
    }

    /// Evaluates a spanning tree: the root is its own parent, every other vertex shares an edge with its own.
    ///
    /// ```
    /// use weight_mover::Graph;
    ///
    /// let evaluation = Graph::new(2).edge(0, 1, 7).evaluate(&[3, 1], &[0, 4], 1, &[1, 1])?;
    /// assert_eq!(evaluation.imbalance, [3, 0]);
    /// assert_eq!(evaluation.answer.potential, [7, 0]);
    /// # Ok::<(), weight_mover::Refusal>(())
    /// ```
    pub fn evaluate(
        &self,
        mu: &[u64],
        nu: &[u64],
        root: usize,
        parents: &[u32],
    ) -> Result<Evaluation, Refusal> {
        let mut evaluation = Evaluation::default();
        self.evaluate_into(mu, nu, root, parents, &mut evaluation)?;
        Ok(evaluation)
    }

    /// Evaluates a spanning tree, into an evaluation that is there.
    ///
    /// ```
    /// use weight_mover::{Evaluation, Graph, Refusal};
    ///
    /// let (graph, mut evaluation) = (Graph::new(2).edge(0, 1, 7), Evaluation::default());
    /// graph.evaluate_into(&[3, 1], &[0, 4], 0, &[0, 0], &mut evaluation)?;
    /// assert_eq!(evaluation.imbalance, [0, -3]);
    /// let refused = graph.evaluate_into(&[3, 1], &[0, 4], 2, &[0, 0], &mut evaluation);
    /// assert_eq!(refused, Err(Refusal::TreeParents));
    /// # Ok::<(), Refusal>(())
    /// ```
    pub fn evaluate_into(
        &self,
        mu: &[u64],
        nu: &[u64],
        root: usize,
        parents: &[u32],
        evaluation: &mut Evaluation,
    ) -> Result<(), Refusal> {
        let n = self.vertices;
        let (mut cost, mut moves) = (0, 0);
        let Evaluation { imbalance, answer } = evaluation;
        let lent = answer.lend(n);
        let before = lend(imbalance, n.min(MAX_VERTICES));
        let result = Refusal::check(mover_evaluate(
            n,
            &self.a,
            &self.b,
            &self.lengths,
            mu,
            nu,
            root,
            parents,
            imbalance,
            &mut answer.potential,
            &mut answer.plan,
            &mut cost,
            &mut moves,
        ));
        let filled = result.is_ok().then_some(n);
        settle(imbalance, before, filled);
        answer.settle(lent, filled);
        result?;
        (answer.cost, answer.moves, answer.root) = (cost, moves, root);
        answer.parents.clear();
        answer.parents.extend(parents);
        Ok(())
    }

    /// Whether no spanning tree of the graph costs less than this one.
    ///
    /// ```
    /// use weight_mover::Graph;
    ///
    /// let ring = Graph::new(4).edges([(0, 1, 1), (1, 2, 1), (2, 3, 1), (0, 3, 1)]);
    /// let (mu, nu) = ([4, 0, 0, 0], [0, 0, 0, 4]);
    /// assert!(!ring.is_optimal(&mu, &nu, 0, &[0, 0, 1, 2])?);
    /// assert!(ring.is_optimal(&mu, &nu, 0, &[0, 0, 1, 0])?);
    /// # Ok::<(), weight_mover::Refusal>(())
    /// ```
    pub fn is_optimal(&self, mu: &[u64], nu: &[u64], root: usize, parents: &[u32]) -> Result<bool, Refusal> {
        let mut optimal = 0;
        Refusal::check(mover_is_optimal(
            self.vertices,
            &self.a,
            &self.b,
            &self.lengths,
            mu,
            nu,
            root,
            parents,
            &mut optimal,
        ))?;
        Ok(optimal == 1)
    }

    /// A spanning tree as a page of text: a line for each vertex, indented by its depth, with its imbalance and its
    /// potential, as [`evaluate`](Graph::evaluate) gives them. A vertex is followed by its children by rising
    /// number, each with its whole subtree; [`mover_write_page`] says what the columns are.
    ///
    /// ```
    /// use weight_mover::Graph;
    ///
    /// // 2 is below 0, and 0 and 1 are below 3.
    /// let graph = Graph::new(4).edges([(0, 2, 5), (0, 3, 1), (1, 3, 4)]);
    /// let page = graph.page(&[0, 0, 9, 0], &[2, 4, 0, 3], 3, &[3, 3, 0, 3])?;
    /// let lines: Vec<Vec<&str>> = page.lines().map(|line| line.split_whitespace().collect()).collect();
    /// assert_eq!(lines, [["03", "0", "0"], ["00", "7", "1"], ["02", "9", "6"], ["01", "-4", "-4"]]);
    /// assert!(page.lines().all(|line| line.len() == 95));
    /// # Ok::<(), weight_mover::Refusal>(())
    /// ```
    pub fn page(&self, mu: &[u64], nu: &[u64], root: usize, parents: &[u32]) -> Result<String, Refusal> {
        let mut page = vec![0; page_size(self.vertices.min(MAX_VERTICES))];
        self.page_into(mu, nu, root, parents, &mut page)?;
        Ok(String::from_utf8(page).expect("ASCII"))
    }

    /// The same into a buffer that is there, and may be longer: returns how many bytes were written,
    /// [`page_size`], and the others stay as they were. After a refusal all bytes are as they were.
    ///
    /// ```
    /// use weight_mover::{Graph, Refusal};
    ///
    /// let (graph, mut buffer) = (Graph::new(1), [b'.'; 100]);
    /// assert_eq!(graph.page_into(&[3], &[3], 0, &[0], &mut buffer)?, 96);
    /// assert_eq!((&buffer[..4], &buffer[90..]), (&b"00  "[..], &b"     \n...."[..]));
    /// let short = graph.page_into(&[3], &[3], 0, &[0], &mut buffer[..95]);
    /// assert_eq!(short, Err(Refusal::TableSize));
    /// # Ok::<(), Refusal>(())
    /// ```
    pub fn page_into(
        &self,
        mu: &[u64],
        nu: &[u64],
        root: usize,
        parents: &[u32],
        buffer: &mut [u8],
    ) -> Result<usize, Refusal> {
        let mut length = 0;
        Refusal::check(mover_write_page(
            self.vertices,
            &self.a,
            &self.b,
            &self.lengths,
            mu,
            nu,
            root,
            parents,
            buffer,
            &mut length,
        ))?;
        Ok(length)
    }

    /// The vertices at most `reach` away from a start, which is one of them, bit v for vertex v.
    ///
    /// Distances are least lengths over all paths, so that a brush goes on over a seam.
    ///
    /// ```
    /// use weight_mover::{Graph, Refusal};
    ///
    /// // A triangle whose long edge is longer than the way round; 3 is welded to 1.
    /// let graph = Graph::new(4).edges([(0, 1, 5), (0, 2, 1), (1, 2, 1), (1, 3, 0)]);
    /// assert_eq!(graph.vertices_within(0, 1)?, 0b0101);
    /// assert_eq!(graph.vertices_within(0, 2)?, 0b1111);
    /// assert_eq!(graph.vertices_within(1, 0)?, 0b1010);
    /// assert_eq!(graph.vertices_within(4, 0), Err(Refusal::StartVertex));
    /// # Ok::<(), Refusal>(())
    /// ```
    pub fn vertices_within(&self, start: usize, reach: u32) -> Result<u64, Refusal> {
        let mut mask = 0;
        Refusal::check(mover_vertices_within(
            self.vertices,
            &self.a,
            &self.b,
            &self.lengths,
            start,
            reach,
            &mut mask,
        ))?;
        Ok(mask)
    }

    /// The vertex nearest to a start among those with a positive amount, the lowest of those that are equally
    /// near. The start itself counts; none if no amount is positive.
    ///
    /// `amounts` is one measure, an amount for each vertex.
    ///
    /// ```
    /// use weight_mover::{Graph, Refusal};
    ///
    /// // A triangle whose long edge is longer than the way round; 3 is welded to 1.
    /// let graph = Graph::new(4).edges([(0, 1, 5), (0, 2, 1), (1, 2, 1), (1, 3, 0)]);
    /// assert_eq!(graph.nearest_vertex(0, &[0, 7, 0, 7])?, Some(1));
    /// assert_eq!(graph.nearest_vertex(0, &[0, 7, 7, 7])?, Some(2));
    /// assert_eq!(graph.nearest_vertex(0, &[0; 4])?, None);
    /// assert_eq!(graph.nearest_vertex(4, &[0; 4]), Err(Refusal::StartVertex));
    /// # Ok::<(), Refusal>(())
    /// ```
    pub fn nearest_vertex(&self, start: usize, amounts: &[u64]) -> Result<Option<usize>, Refusal> {
        let mut vertex = 0;
        Refusal::check(mover_nearest_vertex(
            self.vertices,
            &self.a,
            &self.b,
            &self.lengths,
            start,
            amounts,
            &mut vertex,
        ))?;
        // 64, which is no vertex, stands for none.
        Ok(Some(vertex as usize).filter(|&vertex| vertex < MAX_VERTICES))
    }
}

/// The distances between all vertices of a graph.
#[derive(Clone, Debug, Default, PartialEq, Eq)]
pub struct Distances {
    vertices: usize,
    table: Vec<u32>,
}

impl Distances {
    fn fill(&mut self, n: usize, call: impl FnOnce(&mut [u32]) -> u32) -> Result<(), Refusal> {
        let places = n.min(MAX_VERTICES).pow(2);
        let before = lend(&mut self.table, places);
        let result = Refusal::check(call(&mut self.table));
        settle(&mut self.table, before, result.is_ok().then_some(places));
        result?;
        self.vertices = n;
        Ok(())
    }

    /// The number of vertices.
    pub fn vertices(&self) -> usize {
        self.vertices
    }

    /// The least length over all paths from one vertex to another.
    ///
    /// # Panics
    ///
    /// If one of the two is no vertex.
    pub fn between(&self, from: usize, to: usize) -> u32 {
        self.row(from)[to]
    }

    /// The distances from one vertex.
    ///
    /// # Panics
    ///
    /// If it is no vertex.
    pub fn row(&self, from: usize) -> &[u32] {
        assert!(from < self.vertices, "no such vertex");
        &self.table[from * self.vertices..][..self.vertices]
    }

    /// All of them, n × n, row after row.
    pub fn table(&self) -> &[u32] {
        &self.table
    }
}

/// All distances, from records that stand in the order which the library asks for: rising by (a, b).
///
/// ```
/// use weight_mover::{distances_of_records, Edge};
///
/// let distances = distances_of_records(2, &[Edge { a: 0, b: 1, length: 7 }])?;
/// assert_eq!(distances.between(1, 0), 7);
/// # Ok::<(), weight_mover::Refusal>(())
/// ```
pub fn distances_of_records(n: usize, edges: &[Edge]) -> Result<Distances, Refusal> {
    let mut distances = Distances::default();
    distances_of_records_into(n, edges, &mut distances)?;
    Ok(distances)
}

/// All distances from records, into a table that is there.
///
/// ```
/// use weight_mover::{distances_of_records_into, Distances, Edge};
///
/// let mut distances = Distances::default();
/// distances_of_records_into(2, &[Edge { a: 0, b: 1, length: 7 }], &mut distances)?;
/// assert_eq!(distances.table(), [0, 7, 7, 0]);
/// # Ok::<(), weight_mover::Refusal>(())
/// ```
pub fn distances_of_records_into(n: usize, edges: &[Edge], distances: &mut Distances) -> Result<(), Refusal> {
    distances.fill(n, |out| mover_distances_of_records(n, edges, out))
}
