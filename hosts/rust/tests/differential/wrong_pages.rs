//! Printers of pages that are wrong on purpose: the tests of them can fail.

use crate::pages::{any_case, branches, judge, reads_back, try_case, Job};
use crate::{brief, pass};
use reference::checks::check_chains;
use reference::page::{line, page, preorder, LINE};
use reference::random::Random;
use reference::random_pages::{printable, Given};
use reference::tree::{evaluate, Evaluation};
use reference::{Lists, Problem, Tree};

type Wrong = fn(&mut Job) -> u32;

/// The lists that a job was lent.
fn lists(job: &Job) -> Lists {
    let [a, b, lengths] = job.edges.each_ref().map(|list| list.before().to_vec());
    let [mu, nu] = job.measures.each_ref().map(|list| list.before().to_vec());
    Lists {
        n: job.n,
        a,
        b,
        lengths,
        mu,
        nu,
        root: job.root,
        parents: job.parents.before().to_vec(),
    }
}

/// What there is to print.
struct Accepted {
    problem: Problem,
    tree: Tree,
    figures: Evaluation,
}

impl Accepted {
    fn of(lists: &Lists) -> Accepted {
        let problem = lists.accept_judge().expect("accepted");
        let tree = problem.tree.clone().expect("a tree");
        Accepted {
            figures: evaluate(&problem, &tree),
            problem,
            tree,
        }
    }

    /// The vertices that this one is the parent of, by rising number.
    fn children(&self, x: usize) -> Vec<usize> {
        let others = (0..self.problem.n).filter(|&y| y != self.tree.root);
        others.filter(|&y| self.tree.parents[y] == x).collect()
    }

    /// A vertex, which is so deep, with all below it.
    fn subtree(&self, x: usize, depth: usize, order: &mut Vec<(usize, usize)>, falling: bool) {
        order.push((x, depth));
        let mut children = self.children(x);
        if falling {
            children.reverse();
        }
        children
            .into_iter()
            .for_each(|y| self.subtree(y, depth + 1, order, falling));
    }

    /// The potential with another sign than 0 for an imbalance of 0.
    fn sloped(&self, slope: i64) -> Vec<i64> {
        let Accepted {
            problem,
            tree,
            figures,
        } = self;
        let mut potential = vec![0; problem.n];
        for x in (0..problem.n).filter(|&x| x != tree.root) {
            let sign = match figures.imbalance[x].signum() {
                0 => slope,
                sign => sign,
            };
            let length = problem.length(x, tree.parents[x]).expect("an edge") as i64;
            let below = (0..problem.n).filter(|&y| tree.is_below(y, x));
            below.for_each(|y| potential[y] += sign * length);
        }
        potential
    }
}

/// The lines of these vertices at these depths.
fn in_order(accepted: &Accepted, order: &[(usize, usize)]) -> String {
    let Evaluation {
        imbalance, potential, ..
    } = &accepted.figures;
    let line = |&(x, depth): &(usize, usize)| line(x, depth, imbalance[x], potential[x]);
    order.iter().map(line).collect()
}

/// What is printed in another order: each vertex and its depth.
type Order = fn(&Accepted, &mut Vec<(usize, usize)>);

/// Given the right order.
const ORDERS: [(&str, Order); 16] = [
    ("the last two lines exchanged", |_, order| {
        let n = order.len();
        order.swap(n - 1, n.saturating_sub(2))
    }),
    ("children by falling number", |accepted, order| {
        order.clear();
        accepted.subtree(accepted.tree.root, 0, order, true)
    }),
    ("all children before grandchildren", |_, order| {
        order.sort_by_key(|&(_, depth)| depth)
    }),
    ("children before their parent", |accepted, order| {
        order.clear();
        accepted.subtree(accepted.tree.root, 0, order, true);
        order.reverse()
    }),
    ("by rising number", |_, order| order.sort()),
    ("children by the size of their subtrees", |accepted, order| {
        fn put(accepted: &Accepted, x: usize, depth: usize, order: &mut Vec<(usize, usize)>) {
            order.push((x, depth));
            let mut children = accepted.children(x);
            let size = |x: usize| (0..accepted.problem.n).filter(move |&y| accepted.tree.is_below(y, x));
            children.sort_by_key(|&y| size(y).count());
            children
                .into_iter()
                .for_each(|y| put(accepted, y, depth + 1, order));
        }
        order.clear();
        put(accepted, accepted.tree.root, 0, order)
    }),
    ("one too deep", |_, order| {
        order.iter_mut().for_each(|(_, depth)| *depth += 1)
    }),
    ("one too deep below the root", |_, order| {
        order.iter_mut().skip(1).for_each(|(_, depth)| *depth += 1)
    }),
    ("the last one too deep", |_, order| {
        order.iter_mut().rev().take(1).for_each(|(_, depth)| *depth += 1)
    }),
    ("children as deep as the root", |_, order| {
        order
            .iter_mut()
            .for_each(|(_, depth)| *depth = depth.saturating_sub(1))
    }),
    ("two spaces for each edge", |_, order| {
        order
            .iter_mut()
            .for_each(|(_, depth)| *depth = (2 * *depth).min(66))
    }),
    ("a line twice", |_, order| {
        let n = order.len();
        order[n - 1] = order[n.saturating_sub(2)]
    }),
    ("the root below itself", |_, order| {
        let root = order[0].0;
        order.insert(1, (root, 1));
        order.pop();
    }),
    ("only the first child", |accepted, order| {
        let is_first = |x: usize| {
            let parent = accepted.tree.parents[x];
            x == accepted.tree.root || accepted.children(parent)[0] == x
        };
        order.retain(|&(x, _)| is_first(x))
    }),
    ("the last vertex left out", |_, order| {
        order.pop();
    }),
    ("leaves left out", |accepted, order| {
        order.retain(|&(x, _)| x == accepted.tree.root || !accepted.children(x).is_empty())
    }),
];

/// A line of its own: vertex, depth, imbalance and potential.
type Line = fn(usize, usize, i64, i64) -> String;

fn name(x: usize, depth: usize) -> String {
    format!("{:depth$}{x:02}", "")
}

/// A number in eleven columns, its minus in the first of them.
fn minus_first(number: i64) -> String {
    match number < 0 {
        true => format!("-{:10}", -number),
        false => format!("{number:11}"),
    }
}

const LINES: [(&str, Line); 26] = [
    ("minus in the field's first column", |x, depth, xi, u| {
        format!(
            "{:68}{}{}     \n",
            name(x, depth),
            minus_first(xi),
            minus_first(u)
        )
    }),
    ("potential before imbalance", |x, depth, xi, u| {
        line(x, depth, u, xi)
    }),
    ("67 columns before the imbalance", |x, depth, xi, u| {
        format!("{:67}{xi:11}{u:11}      \n", name(x, depth))
    }),
    ("67 columns, and lines of 95 bytes", |x, depth, xi, u| {
        format!("{:67}{xi:11}{u:11}     \n", name(x, depth))
    }),
    ("69 columns before the imbalance", |x, depth, xi, u| {
        format!("{:69}{xi:11}{u:11}    \n", name(x, depth))
    }),
    ("ten columns for the imbalance", |x, depth, xi, u| {
        format!("{:68}{xi:10}{u:12}     \n", name(x, depth))
    }),
    ("figures to the left", |x, depth, xi, u| {
        format!("{:68}{xi:<11}{u:<11}     \n", name(x, depth))
    }),
    ("the number to the right", |x, depth, xi, u| {
        format!("{:>68}{xi:11}{u:11}     \n", name(x, depth))
    }),
    ("one digit where one is enough", |x, depth, xi, u| {
        format!("{:68}{xi:11}{u:11}     \n", format!("{:depth$}{x}", ""))
    }),
    ("a space for the first digit 0", |x, depth, xi, u| {
        format!("{:68}{xi:11}{u:11}     \n", format!("{:depth$}{x:2}", ""))
    }),
    ("digits exchanged", |x, depth, xi, u| {
        line(x % 10 * 10 + x / 10, depth, xi, u)
    }),
    ("vertices from 1", |x, depth, xi, u| line(x + 1, depth, xi, u)),
    ("dots for the depth", |x, depth, xi, u| {
        format!("{:68}{xi:11}{u:11}     \n", format!("{:.<depth$}{x:02}", ""))
    }),
    ("a plus before the potential", |x, depth, xi, u| {
        format!("{:68}{xi:11}{u:+11}     \n", name(x, depth))
    }),
    ("-0 for 0", |x, depth, xi, u| {
        line(x, depth, xi, u).replace(" 0     \n", "-0     \n")
    }),
    ("nothing for 0", |x, depth, xi, u| {
        line(x, depth, xi, u).replace(" 0     \n", "      \n")
    }),
    ("figures filled with 0", |x, depth, xi, u| {
        format!("{:68}{xi:011}{u:011}     \n", name(x, depth))
    }),
    ("the imbalance without its sign", |x, depth, xi, u| {
        line(x, depth, xi.abs(), u)
    }),
    ("the imbalance turned round", |x, depth, xi, u| {
        line(x, depth, -xi, u)
    }),
    ("the potential without its sign", |x, depth, xi, u| {
        line(x, depth, xi, u.abs())
    }),
    ("the potential turned round", |x, depth, xi, u| {
        line(x, depth, xi, -u)
    }),
    ("at most seven digits", |x, depth, xi, u| {
        line(x, depth, xi % 10_000_000, u)
    }),
    ("a carriage return", |x, depth, xi, u| {
        line(x, depth, xi, u).replace(" \n", "\r\n")
    }),
    ("no newline", |x, depth, xi, u| {
        line(x, depth, xi, u).replace('\n', " ")
    }),
    ("an end of a string", |x, depth, xi, u| {
        line(x, depth, xi, u).replace('\n', "\0")
    }),
    ("a tab before the figures", |x, depth, xi, u| {
        line(x, depth, xi, u).replacen("    ", "\t   ", 1)
    }),
];

/// Other figures: imbalance and potential of each vertex.
type Figures = fn(&Accepted, &mut Evaluation);

const FIGURES: [(&str, Figures); 7] = [
    ("imbalance of one vertex", |accepted, figures| {
        figures.imbalance = (0..accepted.problem.n)
            .map(|x| accepted.problem.difference(x))
            .collect()
    }),
    ("the parent's imbalance", |accepted, figures| {
        let right = &accepted.figures.imbalance;
        figures.imbalance = accepted.tree.parents.iter().map(|&p| right[p]).collect()
    }),
    ("rising where nothing moves", |accepted, figures| {
        figures.potential = accepted.sloped(1)
    }),
    ("falling where nothing moves", |accepted, figures| {
        figures.potential = accepted.sloped(-1)
    }),
    ("the parent's potential", |accepted, figures| {
        let right = &accepted.figures.potential;
        figures.potential = accepted.tree.parents.iter().map(|&p| right[p]).collect()
    }),
    ("potential from vertex 0 on", |accepted, figures| {
        let first = accepted.figures.potential[0];
        figures.potential.iter_mut().for_each(|u| *u -= first)
    }),
    ("16 bits of the potential", |_, figures| {
        figures.potential.iter_mut().for_each(|u| *u %= 65_536)
    }),
];

/// A printer of what is accepted.
type Print = Box<dyn Fn(&Accepted) -> String>;

/// All printers that are wrong.
fn wrong_printers() -> Vec<(&'static str, Print)> {
    let orders = ORDERS.into_iter().map(|(name, change)| {
        let print: Print = Box::new(move |accepted| {
            let mut order = preorder(&accepted.tree);
            change(accepted, &mut order);
            in_order(accepted, &order)
        });
        (name, print)
    });
    let lines = LINES.into_iter().map(|(name, line)| {
        let print: Print = Box::new(move |Accepted { tree, figures, .. }| {
            let order = preorder(tree).into_iter();
            order
                .map(|(x, depth)| line(x, depth, figures.imbalance[x], figures.potential[x]))
                .collect()
        });
        (name, print)
    });
    let figures = FIGURES.into_iter().map(|(name, change)| {
        let print: Print = Box::new(move |accepted| {
            let mut figures = accepted.figures.clone();
            change(accepted, &mut figures);
            let order = preorder(&accepted.tree).into_iter();
            order
                .map(|(x, depth)| line(x, depth, figures.imbalance[x], figures.potential[x]))
                .collect()
        });
        (name, print)
    });
    orders.chain(lines).chain(figures).collect()
}

/// The library, but what it accepts is printed so, as far as there is room for it. What is not filled stays.
fn printing(job: &mut Job, print: &Print) -> u32 {
    let number = job.make();
    if number == 0 {
        let page = print(&Accepted::of(&lists(job)));
        let mut content = job.buffer.before().to_vec();
        let places = content[..LINE * job.n].iter_mut();
        places.zip(page.bytes()).for_each(|(place, byte)| *place = byte);
        job.buffer.content_mut().copy_from_slice(&content);
    }
    number
}

/// Every wrong printer is caught, and so it is without the reference.
#[test]
fn wrong_printers_are_caught() {
    let count = 300;
    let right: Print = Box::new(|accepted| in_order(accepted, &preorder(&accepted.tree)));
    let caught = |print: &Print| {
        let is_caught = |index: u64| {
            let random = &mut Random::for_case(1, index);
            let given = printable(random);
            let page = print(&Accepted::of(&given.lists));
            let judged = try_case(&|job| printing(job, print), random, &given);
            [
                judged.is_err(),
                reads_back(&given.lists, page.as_bytes()).is_err(),
            ]
        };
        let all: Vec<[bool; 2]> = (0..count).map(is_caught).collect();
        [0, 1].map(|way| all.iter().filter(|caught| caught[way]).count())
    };
    assert_eq!(caught(&right), [0, 0]);
    for (name, print) in wrong_printers() {
        let [judged, read] = caught(&print);
        println!("wrong on purpose, page, {name}: caught {judged} of {count}, by reading {read}");
        assert!(
            judged > 0 && read > 0,
            "\"{name}\" was never caught: {judged}, {read}"
        );
    }
}

/// The library, but what it accepts is refused so if it is of this kind.
fn refusing(job: &mut Job, refusal: u32, is_refused: impl FnOnce(&Job) -> bool) -> u32 {
    let number = job.make();
    if number == 0 && is_refused(job) {
        let before = job.buffer.before().to_vec();
        job.buffer.content_mut().copy_from_slice(&before);
        *job.length.one() = 0;
        return refusal;
    }
    number
}

/// The library, but another number for this one if it is of this kind.
fn instead(job: &mut Job, number: u32, other: u32, is_other: impl FnOnce(&Job) -> bool) -> u32 {
    match job.make() {
        got if got == number && is_other(job) => other,
        got => got,
    }
}

/// The number for the lists of a job with room for every page, after this change.
fn number_after(job: &Job, change: impl FnOnce(&mut Lists)) -> u32 {
    let mut lists = lists(job);
    change(&mut lists);
    page(&lists, usize::MAX).err().unwrap_or(0)
}

fn has_cycle(job: &Job) -> bool {
    let parents = job.parents.content().iter().map(|&p| p as usize).collect();
    let tree = Tree {
        root: job.root,
        parents,
    };
    check_chains(job.n, &tree).is_err()
}

/// Other numbers.
const OTHER_NUMBERS: [(&str, Wrong); 17] = [
    ("accepts everything", |job| {
        job.make();
        0
    }),
    ("2 for everybody", |_| 2),
    ("a short buffer before 1", |job| {
        instead(job, 1, 2, |job| job.buffer.content().len() < LINE)
    }),
    ("a short buffer after all else", |job| match job.make() {
        2 => match number_after(job, |_| {}) {
            0 => 2,
            other => other,
        },
        number => number,
    }),
    ("parents of any number", |job| match job.make() {
        2 if job.buffer.content().len() >= LINE * job.n => {
            let n = job.n;
            match number_after(job, |lists| lists.parents.resize(n, 0)) {
                0 => 2,
                other => other,
            }
        }
        number => number,
    }),
    ("lengths before the order of edges", |job| {
        instead(job, 3, 4, |job| {
            job.edges[2].content().iter().any(|&l| l > 65_535)
        })
    }),
    ("totals before the edges", |job| {
        instead(job, 5, 6, |job| {
            let total = |list: &[u64]| list.iter().map(|&x| u128::from(x)).sum::<u128>();
            job.measures.iter().any(|list| total(list.content()) > 1 << 24)
        })
    }),
    ("7 before 6", |job| instead(job, 6, 7, |_| true)),
    ("the tree before the totals", |job| match job.make() {
        number @ 6..=7 => {
            let n = job.n;
            let tree = number_after(job, |lists| (lists.mu, lists.nu) = (vec![0; n], vec![0; n]));
            tree.max(number)
        }
        number => number,
    }),
    ("10 before 9", |job| instead(job, 9, 10, has_cycle)),
    ("9 for 10", |job| instead(job, 10, 9, |_| true)),
    ("a buffer that just fits is refused", |job| {
        refusing(job, 2, |job| job.page().len() == job.buffer.content().len())
    }),
    ("a longer buffer is refused", |job| {
        refusing(job, 2, |job| job.page().len() < job.buffer.content().len())
    }),
    ("64 vertices are refused", |job| {
        refusing(job, 1, |job| job.n == 64)
    }),
    ("one vertex is refused", |job| refusing(job, 1, |job| job.n == 1)),
    ("another root than 0 is refused", |job| {
        refusing(job, 8, |job| job.root > 0)
    }),
    ("a length of 0 is refused", |job| {
        refusing(job, 4, |job| job.edges[2].content().contains(&0))
    }),
];

/// The library, and then something else where it printed.
fn after(job: &mut Job, change: impl FnOnce(&mut Job, usize)) -> u32 {
    let number = job.make();
    if number == 0 {
        let length = job.length.content()[0];
        change(job, length);
    }
    number
}

/// The library, and then something else where it refused.
fn after_refusal(job: &mut Job, change: impl FnOnce(&mut Job)) -> u32 {
    let number = job.make();
    if number > 0 {
        change(job);
    }
    number
}

/// Other results, and other bytes round the page.
const OTHER_RESULTS: [(&str, Wrong); 13] = [
    ("the rest is cleared", |job| {
        after(job, |job, length| job.buffer.content_mut()[length..].fill(0))
    }),
    ("the rest is spaces", |job| {
        after(job, |job, length| job.buffer.content_mut()[length..].fill(b' '))
    }),
    ("the page ends as a string does", |job| {
        after(job, |job, length| {
            let past = job.buffer.content_mut().get_mut(length);
            past.into_iter().for_each(|byte| *byte = 0)
        })
    }),
    ("the last newline is not written", |job| {
        after(job, |job, length| {
            let before = job.buffer.before()[length - 1];
            job.buffer.content_mut()[length - 1] = before
        })
    }),
    ("the last newline is not counted", |job| {
        after(job, |job, length| *job.length.one() = length - 1)
    }),
    ("one byte more is told", |job| {
        after(job, |job, length| *job.length.one() = length + 1)
    }),
    ("lines are told", |job| {
        after(job, |job, length| *job.length.one() = length / LINE)
    }),
    ("the buffer's length is told", |job| {
        after(job, |job, _| *job.length.one() = job.buffer.content().len())
    }),
    ("no length is told", |job| {
        after(job, |job, _| *job.length.one() = job.length.before()[0])
    }),
    ("a refusal tells the length", |job| {
        after_refusal(job, |job| *job.length.one() = LINE)
    }),
    ("a refused buffer is cleared", |job| {
        after_refusal(job, |job| job.buffer.content_mut().fill(b' '))
    }),
    ("a refused buffer has its first byte", |job| {
        after_refusal(job, |job| {
            let first = job.buffer.content_mut().first_mut();
            first.into_iter().for_each(|byte| *byte = b'0')
        })
    }),
    ("a list is changed", |job| {
        let number = job.make();
        job.parents.content_mut().iter_mut().for_each(|p| *p ^= 1);
        number
    }),
];

#[test]
fn wrong_page_calls_are_caught() {
    let (seed, count) = (1, 2_000);
    let run = |make: &dyn Fn(&mut Job) -> u32| {
        (0..count).try_for_each(|index| {
            let random = &mut Random::for_case(seed, index);
            let given = any_case(random, index);
            try_case(make, random, &given).map(drop)
        })
    };
    pass(run(&Job::make));
    for (name, wrong) in OTHER_NUMBERS.iter().chain(&OTHER_RESULTS) {
        match run(wrong) {
            Ok(()) => panic!("\"{name}\" was not caught: seed {seed}"),
            Err(complaint) => println!("wrong on purpose, page, {name}: {}", brief(&complaint)),
        }
    }
}

/// A job with guard places, and the call made: every second seed gives one.
fn guarded(given: &Given) -> (Job, u32) {
    let mut seeds = 0..;
    let seed = seeds.find(|&s| !Random::new(s).chance(2)).expect("a seed");
    let mut job = Job::new(&mut Random::new(seed), given);
    let number = job.make();
    (job, number)
}

/// A tree with branches and bytes to spare, printed or refused by 7.
fn printed_and_refused() -> [Given; 2] {
    let mut printed = Given::fitted(branches());
    printed.buffer += 5;
    let mut refused = printed.clone();
    refused.lists.mu[0] += 1;
    [printed, refused]
}

/// Every single byte of a buffer is looked at: of the page, past it, and of one that was refused. Reading the page
/// notices each of its bytes too.
#[test]
fn wrong_page_bytes_are_noticed() {
    for given in printed_and_refused() {
        let (mut job, number) = guarded(&given);
        assert_eq!(judge(&given, &job, number), Ok(()));
        for at in 0..given.buffer {
            let right = job.buffer.content()[at];
            for other in (0..=255).filter(|&other| other != right) {
                job.buffer.content_mut()[at] = other;
                let complaint = judge(&given, &job, number).expect_err("a wrong byte");
                let expected = match (number, at) {
                    (0, 0..480) => format!("line {}: ", at / LINE),
                    (0, _) => "bytes past what is written were changed".into(),
                    _ => "a refusal changed the buffer".into(),
                };
                assert!(complaint.starts_with(&expected), "{at}: {complaint}");
                if number == 0 && at < 480 {
                    assert!(reads_back(&given.lists, job.page()).is_err(), "{at}, {other}");
                }
            }
            job.buffer.content_mut()[at] = right;
        }
    }
}

/// Every other number and length is noticed, and so is what changes lists or guard places.
#[test]
fn wrong_page_results_are_noticed() {
    for given in printed_and_refused() {
        let (mut job, number) = guarded(&given);
        for other in (0..20).filter(|&other| other != number) {
            let complaint = judge(&given, &job, other).expect_err("a wrong number");
            assert!(complaint.contains(&format!("but got {other}")), "{complaint}");
        }
        let length = job.length.content()[0];
        for other in (0..=given.buffer).filter(|&other| other != length) {
            *job.length.one() = other;
            let complaint = judge(&given, &job, number).expect_err("a wrong length");
            assert!(complaint.contains(&format!("length {other}")), "{complaint}");
        }
        for (list, at) in (0..6).flat_map(|list| (0..5).map(move |at| (list, at))) {
            let (mut job, number) = guarded(&given);
            match list {
                0..=2 => job.edges[list].content_mut()[at] ^= 1,
                3..=4 => job.measures[list - 3].content_mut()[at] ^= 1,
                _ => job.parents.content_mut()[at] ^= 1,
            }
            assert_eq!(judge(&given, &job, number), Err("a list was changed".into()));
        }
        for (of_buffer, after) in [(true, true), (true, false), (false, true), (false, false)] {
            let (mut job, number) = guarded(&given);
            match of_buffer {
                true => job.buffer.break_guard(&mut Random::new(2), after),
                false => job.length.break_guard(&mut Random::new(2), after),
            }
            let complaint = judge(&given, &job, number).expect_err("a broken guard");
            assert!(complaint.starts_with("places round"), "{complaint}");
        }
    }
}
