//! The host record, and the test whether a call of the library answered rightly.

use crate::checks::{accept, check_tree, record_size};
use crate::flow::{distances, least_cost};
use crate::problem::{Problem, Tree};
use crate::tree::{evaluate, moves, Evaluation};

/// A record taken apart.
#[derive(Clone, Debug, PartialEq, Eq)]
pub struct Record {
    pub cost: u64,
    pub moves: u32,
    pub tree: Tree,
    pub potential: Vec<i64>,
    pub plan: Vec<u64>,
}

impl Record {
    /// The record that evaluating a tree gives.
    pub fn of_evaluation(tree: &Tree, evaluation: &Evaluation) -> Record {
        Record {
            cost: evaluation.cost,
            moves: evaluation.moves,
            tree: tree.clone(),
            potential: evaluation.potential.clone(),
            plan: evaluation.plan.clone(),
        }
    }

    /// The record's bytes.
    pub fn to_bytes(&self) -> Vec<u8> {
        let mut bytes = Vec::new();
        bytes.extend(self.cost.to_le_bytes());
        bytes.extend(self.moves.to_le_bytes());
        bytes.push(self.tree.root as u8);
        bytes.extend(self.tree.parents.iter().map(|&p| p as u8));
        bytes.extend(self.potential.iter().flat_map(|&u| (u as i32).to_le_bytes()));
        bytes.extend(self.plan.iter().flat_map(|&x| (x as u32).to_le_bytes()));
        bytes
    }

    /// The record for n vertices at the start of a buffer.
    pub fn from_bytes(n: usize, bytes: &[u8]) -> Record {
        let word = |b: &[u8]| u32::from_le_bytes([b[0], b[1], b[2], b[3]]);
        let (potential, plan) = (13 + n, 13 + 5 * n);
        Record {
            cost: word(bytes) as u64 | (word(&bytes[4..]) as u64) << 32,
            moves: word(&bytes[8..]),
            tree: Tree {
                root: bytes[12] as usize,
                parents: bytes[13..potential].iter().map(|&p| p as usize).collect(),
            },
            potential: bytes[potential..plan]
                .chunks(4)
                .map(|b| word(b) as i32 as i64)
                .collect(),
            plan: bytes[plan..record_size(n)]
                .chunks(4)
                .map(|b| word(b) as u64)
                .collect(),
        }
    }
}

/// What a right call did.
#[derive(Clone, Copy, Debug, PartialEq, Eq)]
pub enum Outcome {
    Refused(u32),
    Evaluated,
    Solved,
}

/// Tests one call: the image, the buffer before it and after it, and the number returned.
///
/// A refusal must be the right one and leave the buffer alone. A given tree settles every byte of the
/// record. A best answer is tested sentence by sentence. Bytes past the record must be as they were.
pub fn judge(image: &[u8], before: &[u8], after: &[u8], number: u32) -> Result<Outcome, String> {
    let problem = match accept(image, before.len()) {
        Err(expected) => {
            ensure(number == expected, || {
                format!("refused {expected}, but got {number}")
            })?;
            ensure(before == after, || "a refusal changed the buffer".into())?;
            return Ok(Outcome::Refused(number));
        }
        Ok(problem) => problem,
    };
    ensure(number == 0, || format!("accepted, but got {number}"))?;
    let size = record_size(problem.n);
    ensure(before[size..] == after[size..], || {
        "bytes past the record changed".into()
    })?;
    match &problem.tree {
        Some(tree) => {
            let expected = Record::of_evaluation(tree, &evaluate(&problem, tree));
            ensure(after[..size] == expected.to_bytes(), || {
                let got = Record::from_bytes(problem.n, after);
                format!("evaluation: expected {expected:?}, but got {got:?}")
            })?;
            Ok(Outcome::Evaluated)
        }
        None => {
            judge_best(&problem, &Record::from_bytes(problem.n, after))?;
            Ok(Outcome::Solved)
        }
    }
}

/// Tests a best answer by every sentence that is asked of it.
pub fn judge_best(problem: &Problem, record: &Record) -> Result<(), String> {
    let n = problem.n;
    let optimum = least_cost(problem);
    let plan = &record.plan;
    ensure(record.cost == optimum, || {
        format!("cost {}, but the optimum is {optimum}", record.cost)
    })?;

    for i in 0..n {
        let row: u64 = (0..n).map(|j| plan[i * n + j]).sum();
        let column: u64 = (0..n).map(|j| plan[j * n + i]).sum();
        ensure(row == problem.mu[i], || format!("row {i} adds up to {row}"))?;
        ensure(column == problem.nu[i], || {
            format!("column {i} adds up to {column}")
        })?;
    }
    let plan_cost: u64 = distances(problem).iter().zip(plan).map(|(d, x)| d * x).sum();
    ensure(plan_cost == optimum, || {
        format!("the plan costs {plan_cost} by distance")
    })?;
    let count = moves(n, plan);
    ensure(record.moves == count, || {
        format!("moves {}, not {count}", record.moves)
    })?;

    ensure(record.tree.root == 0, || "the root is not 0".into())?;
    let hung = Problem {
        tree: Some(record.tree.clone()),
        ..problem.clone()
    };
    check_tree(&hung).map_err(|k| format!("no spanning tree: refused {k}"))?;
    let evaluation = evaluate(problem, &record.tree);
    ensure(evaluation.cost == record.cost, || {
        format!("the tree costs {}, not {}", evaluation.cost, record.cost)
    })?;
    ensure(evaluation.plan == *plan, || {
        "the plan is not its tree's by the rule".into()
    })?;

    let u = &record.potential;
    ensure(u[0] == 0, || format!("potential {} at vertex 0", u[0]))?;
    for e in &problem.edges {
        ensure(u[e.a].abs_diff(u[e.b]) <= e.length, || {
            format!("the potential changes by more than the length of {e:?}")
        })?;
    }
    let weight: i64 = (0..n).map(|y| u[y] * problem.difference(y)).sum();
    ensure(weight == record.cost as i64, || {
        format!("the potential weighs the difference to {weight}")
    })
}

fn ensure(condition: bool, complaint: impl FnOnce() -> String) -> Result<(), String> {
    if condition {
        Ok(())
    } else {
        Err(complaint())
    }
}
