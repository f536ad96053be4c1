use crate::calls::mover_run;
use crate::lend::{lend, settle};
use crate::{record_size, Refusal, Tree, MAX_VERTICES};

/// A spanning tree with its cost, plan and potential.
///
/// `Answer::default()` is an empty one, of no vertices, to be filled by a call.
#[derive(Clone, Debug, Default, PartialEq, Eq)]
pub struct Answer {
    /// The cost: the sum over the tree's edges of length × imbalance without its sign.
    pub cost: u64,
    /// The number of positive entries of the plan off its diagonal.
    pub moves: u32,
    /// The tree's root; 0 in a best answer.
    pub root: usize,
    /// Each vertex's parent; the root is its own.
    pub parents: Vec<u32>,
    /// The potential at each vertex.
    ///
    /// In a best answer it proves that nothing is cheaper: it changes along no edge by more than the
    /// edge's length, and the sum of potential × (mu − nu) is the cost.
    pub potential: Vec<i32>,
    pub(crate) plan: Vec<u32>,
}

impl Answer {
    /// Reads the record that [`mover_run`] filled for `n` vertices, at the start of `record`.
    ///
    /// # Panics
    ///
    /// If `record` is shorter than [`record_size`].
    pub fn from_record(n: usize, record: &[u8]) -> Answer {
        let mut answer = Answer::default();
        answer.take(n, record);
        answer
    }

    fn take(&mut self, n: usize, record: &[u8]) {
        let (head, rest) = record[..record_size(n)].split_at(13);
        let (parents, rest) = rest.split_at(n);
        let (potential, plan) = rest.split_at(4 * n);
        let word = |b: &[u8]| [b[0], b[1], b[2], b[3]];
        let low = u32::from_le_bytes(word(head));
        let high = u32::from_le_bytes(word(&head[4..]));
        self.cost = u64::from(low) | u64::from(high) << 32;
        self.moves = u32::from_le_bytes(word(&head[8..]));
        self.root = head[12].into();
        refill(&mut self.parents, parents.iter().map(|&p| p.into()));
        refill(
            &mut self.potential,
            potential.chunks(4).map(|b| i32::from_le_bytes(word(b))),
        );
        refill(
            &mut self.plan,
            plan.chunks(4).map(|b| u32::from_le_bytes(word(b))),
        );
    }

    /// Lends the tables that both answers over tables fill.
    pub(crate) fn lend(&mut self, n: usize) -> [usize; 2] {
        let n = n.min(MAX_VERTICES);
        [lend(&mut self.potential, n), lend(&mut self.plan, n * n)]
    }

    pub(crate) fn settle(&mut self, [potential, plan]: [usize; 2], filled: Option<usize>) {
        settle(&mut self.potential, potential, filled);
        settle(&mut self.plan, plan, filled.map(|n| n * n));
    }

    /// The number of vertices.
    pub fn vertices(&self) -> usize {
        self.parents.len()
    }

    /// How much the plan takes from one vertex to another; what stays is on the diagonal.
    ///
    /// # Panics
    ///
    /// If one of the two is no vertex.
    pub fn amount(&self, from: usize, to: usize) -> u32 {
        let n = self.vertices();
        assert!(from < n && to < n, "no such vertex");
        self.plan[from * n + to]
    }

    /// The whole plan, n × n amounts: row from, column to.
    pub fn plan(&self) -> &[u32] {
        &self.plan
    }

    /// The positive entries of the plan by row, then column, as (from, to, amount).
    pub fn entries(&self) -> impl Iterator<Item = (usize, usize, u32)> + '_ {
        let n = self.vertices();
        let placed = self.plan.iter().enumerate();
        let positive = placed.filter(|(_, &amount)| amount > 0);
        positive.map(move |(at, &amount)| (at / n, at % n, amount))
    }

    /// The tree by value.
    pub fn tree(&self) -> Tree {
        Tree::new(self.vertices(), self.root, &self.parents)
    }

    /// The vertices from one up to the root, both included.
    fn climb(&self, from: usize) -> impl Iterator<Item = usize> + '_ {
        let above = |&x: &usize| (x != self.root).then(|| self.parents[x] as usize);
        // No chain has more vertices than there are.
        std::iter::successors(Some(from), above).take(self.vertices())
    }

    /// The path in the tree from one vertex to another, both included.
    ///
    /// # Panics
    ///
    /// If one of the two is no vertex.
    pub fn tree_path(&self, from: usize, to: usize) -> Vec<usize> {
        let n = self.vertices();
        assert!(from < n && to < n, "no such vertex");
        let mut up: Vec<usize> = self.climb(from).collect();
        let mut down: Vec<usize> = self.climb(to).collect();
        // Above the place where the two chains meet they are the same: keep the lowest common vertex once.
        while up.len() > 1 && down.len() > 1 && up[up.len() - 2] == down[down.len() - 2] {
            up.pop();
            down.pop();
        }
        down.pop();
        up.extend(down.into_iter().rev());
        up
    }

    /// The flow on each edge of the tree: what goes up from each vertex to its parent when the plan is
    /// carried out along the tree, less than 0 where it comes down. The root, which has no such edge, has 0.
    ///
    /// It is the imbalance of the vertices below, and the cost is the sum of length × flow without its sign.
    ///
    /// ```
    /// use weight_mover::Graph;
    ///
    /// let line = Graph::new(3).edge(0, 1, 10).edge(1, 2, 20);
    /// let answer = line.solve(&[5, 0, 1], &[0, 4, 2])?;
    /// assert_eq!(answer.parents, [0, 0, 1]);
    /// assert_eq!(answer.flow(), [0, -5, -1]);
    /// assert_eq!(answer.cost, 5 * 10 + 1 * 20);
    /// # Ok::<(), weight_mover::Refusal>(())
    /// ```
    pub fn flow(&self) -> Vec<i64> {
        let mut flow = vec![0; self.vertices()];
        for (from, to, amount) in self.entries() {
            // Where both climb one edge, nothing is carried along it.
            self.climb(from).for_each(|x| flow[x] += i64::from(amount));
            self.climb(to).for_each(|x| flow[x] -= i64::from(amount));
        }
        flow
    }
}

fn refill<T>(list: &mut Vec<T>, items: impl Iterator<Item = T>) {
    list.clear();
    list.extend(items);
}

/// What evaluating a tree gives.
#[derive(Clone, Debug, Default, PartialEq, Eq)]
pub struct Evaluation {
    /// The imbalance of each vertex: mu − nu, summed over the vertices below it.
    pub imbalance: Vec<i32>,
    /// The tree with its cost, plan and potential.
    ///
    /// The potential is the sum of the lengths up to the root, each with the sign of the imbalance below it:
    /// an edge that carries nothing is flat.
    pub answer: Answer,
}

/// Evaluates the tree of an image, or finds the best answer for one without a tree.
///
/// ```
/// use weight_mover::{run, Patch, Refusal};
///
/// let patch = Patch::new(2).edge(0, 1, 7).mu(&[3, 1]).nu(&[0, 4]);
/// let image = patch.image()?;
/// assert_eq!(run(&image)?.cost, 21);
/// assert_eq!(run(&image[..35]), Err(Refusal::ImageSize));
/// # Ok::<(), Refusal>(())
/// ```
pub fn run(image: &[u8]) -> Result<Answer, Refusal> {
    let mut answer = Answer::default();
    run_into(image, &mut answer)?;
    Ok(answer)
}

/// Runs an image into an answer that is there. After a refusal it is as it was.
///
/// The record stands on the stack, 17 KB of it.
///
/// ```
/// use weight_mover::{run_into, Answer, Patch};
///
/// let patch = Patch::new(2).edge(0, 1, 7).mu(&[3, 1]).nu(&[0, 4]).tree(1, &[1, 1]);
/// let mut answer = Answer::default();
/// run_into(&patch.image()?, &mut answer)?;
/// assert_eq!((answer.root, answer.flow()), (1, vec![3, 0]));
/// # Ok::<(), weight_mover::Refusal>(())
/// ```
pub fn run_into(image: &[u8], answer: &mut Answer) -> Result<(), Refusal> {
    let mut record = [0; record_size(MAX_VERTICES)];
    Refusal::check(mover_run(image, &mut record))?;
    answer.take(image[0].into(), &record);
    Ok(())
}

#[cfg(test)]
mod tests {
    use super::Answer;

    /// 0 has children 1 and 2, 1 has children 3 and 4.
    fn answer(plan: &[(usize, usize, u32)]) -> Answer {
        let mut answer = Answer {
            parents: vec![0, 0, 0, 1, 1],
            potential: vec![0; 5],
            plan: vec![0; 25],
            ..Answer::default()
        };
        for &(from, to, amount) in plan {
            answer.plan[5 * from + to] = amount;
        }
        answer
    }

    #[test]
    fn paths_in_a_tree() {
        let answer = answer(&[]);
        assert_eq!(answer.tree_path(3, 2), [3, 1, 0, 2]);
        assert_eq!(answer.tree_path(3, 4), [3, 1, 4]);
        assert_eq!(answer.tree_path(3, 1), [3, 1]);
        assert_eq!(answer.tree_path(0, 4), [0, 1, 4]);
        assert_eq!(answer.tree_path(2, 2), [2]);
        assert_eq!(answer.tree_path(0, 0), [0]);
    }

    #[test]
    fn flow_on_a_tree() {
        assert_eq!(answer(&[(3, 2, 7)]).flow(), [0, 7, -7, 7, 0]);
        assert_eq!(answer(&[(3, 4, 5), (4, 0, 2)]).flow(), [0, 2, 0, 5, -3]);
        assert_eq!(answer(&[(1, 1, 9), (0, 0, 1)]).flow(), [0; 5]);
        let most = u32::MAX;
        assert_eq!(
            answer(&[(2, 3, most), (2, 4, most)]).flow()[2],
            2 * i64::from(most)
        );
    }
}
