"""What the tests hold the library to: definitions written out, images, reels and
pages built byte for byte, and random patches."""

import random
import struct
from fractions import Fraction
from functools import lru_cache
from typing import Any, Dict, List, NamedTuple, Optional, Sequence, Set, Tuple

from weight_mover import Answer, Edge, Entry, Report


class Problem(NamedTuple):
    """A patch with its paintings."""

    edges: List[Edge]
    mu: List[int]
    nu: List[int]

    @property
    def n(self) -> int:
        return len(self.mu)

    @property
    def difference(self) -> List[int]:
        return [before - after for before, after in zip(self.mu, self.nu)]

    def pairs(self) -> Dict[Tuple[int, int], int]:
        """The length of each edge, by its ends both ways."""
        return {pair: c for a, b, c in self.edges for pair in ((a, b), (b, a))}


# ---- The definitions, written out


class Weighed(NamedTuple):
    """What weighing a tree gives."""

    imbalance: List[int]
    potential: List[int]
    cost: int
    table: List[List[int]]


def chain(parents: List[int], y: int) -> List[int]:
    """The vertices met going from y up, the root last."""
    met = [y]
    while parents[met[-1]] != met[-1]:
        met.append(parents[met[-1]])
        if len(met) > len(parents):
            raise ValueError("a chain misses the root")
    return met


def weigh(problem: Problem, parents: List[int]) -> Weighed:
    """Imbalance, potential, cost and plan of a tree."""
    n, lengths = problem.n, problem.pairs()
    chains = [chain(parents, y) for y in range(n)]
    below: List[List[int]] = [[] for _ in range(n)]
    for y, met in enumerate(chains):
        for x in met:
            below[x].append(y)
    difference = problem.difference
    imbalance = [sum(difference[y] for y in below[x]) for x in range(n)]
    up = [0 if parents[x] == x else lengths[x, parents[x]] for x in range(n)]
    sign = [(z > 0) - (z < 0) for z in imbalance]
    slope = [sign[x] * up[x] for x in range(n)]
    return Weighed(
        imbalance,
        [sum(slope[x] for x in chains[y]) for y in range(n)],
        sum(up[x] * abs(imbalance[x]) for x in range(n)),
        plan_of(problem, [len(met) for met in chains], below),
    )


def plan_of(
    problem: Problem, depths: List[int], below: List[List[int]]
) -> List[List[int]]:
    """The plan by the rule: deepest vertices first, then the lowest numbers."""
    n, residue = problem.n, problem.difference
    table = [[0] * n for _ in range(n)]
    for x in range(n):
        table[x][x] = min(problem.mu[x], problem.nu[x])
    for x in sorted(range(n), key=lambda x: (-depths[x], x)):
        while True:
            giver = next((y for y in below[x] if residue[y] > 0), None)
            taker = next((y for y in below[x] if residue[y] < 0), None)
            if giver is None or taker is None:
                break
            amount = min(residue[giver], -residue[taker])
            table[giver][taker] += amount
            residue[giver] -= amount
            residue[taker] += amount
    return table


def entries(table: List[List[int]]) -> List[Entry]:
    places = [(i, j) for i in range(len(table)) for j in range(len(table))]
    return [(i, j, table[i][j]) for i, j in places if table[i][j] > 0]


def moves(table: List[List[int]]) -> int:
    return sum(1 for i, j, _ in entries(table) if i != j)


def is_tree(problem: Problem, root: int, parents: List[int]) -> bool:
    """Whether it is a spanning tree of the patch."""
    n, lengths = problem.n, problem.pairs()
    if len(parents) != n or parents[root] != root:
        return False
    if any((x, parents[x]) not in lengths for x in range(n) if x != root):
        return False
    try:
        return all(chain(parents, y)[-1] == root for y in range(n))
    except ValueError:
        return False


def tree_figures(root: int, parents: List[int]) -> List[Entry]:
    """Depth, parent and word of each vertex, or 0, 64, 0 if it is no tree."""
    n = len(parents)
    none = n * [(0, 64, 0)]
    if root >= n or parents[root] != root or max(parents) >= n:
        return none
    try:
        chains = [chain(parents, y) for y in range(n)]
    except ValueError:
        return none
    if any(met[-1] != root for met in chains):
        return none
    words = [sum(1 << y for y in range(n) if x in chains[y]) for x in range(n)]
    return [(len(chains[x]) - 1, parents[x], words[x]) for x in range(n)]


def marked(parents: List[int], y: int, words: List[int]) -> List[int]:
    """The words with y's bit set in that of each vertex of its chain."""
    met = chain(parents, y)
    return [word | 1 << y if x in met else word for x, word in enumerate(words)]


def lengths_from(edges: List[Edge], start: int) -> Dict[int, int]:
    """The least length of a path from a vertex to each one that it reaches: paths get
    one edge more, in both directions, until no length falls."""
    least, fell = {start: 0}, True
    while fell:
        fell = False
        for a, b, length in edges:
            for x, y in ((a, b), (b, a)):
                if x in least and (y not in least or least[x] + length < least[y]):
                    least[y], fell = least[x] + length, True
    return least


def failing(
    n: int, edges: List[Edge], start: int, painting: Optional[List[int]] = None
) -> List[int]:
    """The checks of a query from a start vertex that fail, in their order; without a
    painting 6 is none of them. The edges as they stand."""
    ends = [(a, b) for a, b, _ in edges]
    fails = {
        1: not 1 <= n <= 64,
        2: len(edges) > 512 or painting is not None and len(painting) != n,
        3: not all(a < b < n for a, b in ends) or ends != sorted(set(ends)),
        4: any(length > 65_535 for _, _, length in edges),
        5: len(lengths_from(edges, 0)) < n,
        6: sum(painting or []) > 2**24,
        17: start >= n,
    }
    return [number for number, failed in fails.items() if failed]


def within(n: int, edges: List[Edge], start: int, reach: int) -> Tuple[int, List[int]]:
    """The number that refuses the query, 0 if none does, and the vertices whose
    distance from the start is at most the reach."""
    numbers = failing(n, edges, start)
    if numbers:
        return numbers[0], []
    apart = lengths_from(edges, start)
    return 0, [x for x in range(n) if apart[x] <= reach]


def nearest(
    n: int, edges: List[Edge], start: int, painting: List[int]
) -> Tuple[int, Any]:
    """The number that refuses the query, 0 if none does, and the nearest vertex with a
    positive amount, of equally near ones the lowest, or None."""
    numbers = failing(n, edges, start, painting)
    if numbers:
        return numbers[0], []
    apart = lengths_from(edges, start)
    positive = [x for x in range(n) if painting[x] > 0]
    return 0, min(positive, key=lambda x: (apart[x], x), default=None)


def in_grains(weights: List[Any]) -> Tuple[int, List[int]]:
    """The number that refuses the weights, 0 if none does, and their amounts."""
    if not all(0 <= weight <= 1 for weight in weights):  # no number fails this too
        return 15, []
    amounts = [Fraction(weight) * 2**24 for weight in weights]
    if any(amount.denominator > 1 for amount in amounts):
        return 16, []
    return 0, [int(amount) for amount in amounts]


def as_weights(amounts: List[int]) -> Tuple[int, List[Fraction]]:
    """The number that refuses the amounts, 0 if none does, and their weights."""
    if any(amount > 2**24 for amount in amounts):
        return 15, []
    return 0, [Fraction(amount, 2**24) for amount in amounts]


def least_cost(problem: Problem) -> int:
    """What the cheapest plan costs. Grains go from a vertex that has too many to the
    nearest that has too few, until there is none. Where an edge carries grains the
    other way, some of these can be taken back, which saves its length."""
    lengths, residue, cost = problem.pairs(), problem.difference, 0
    carried = {pair: 0 for pair in lengths}
    while any(residue):
        start = next(x for x in range(problem.n) if residue[x] > 0)
        steps = [
            (x, y, -length if carried[y, x] > 0 else length)
            for (x, y), length in lengths.items()
        ]
        least, ways, fell = {start: 0}, {start: [start]}, True
        while fell:
            fell = False
            for x, y, step in steps:
                if x in least and (y not in least or least[x] + step < least[y]):
                    least[y], ways[y], fell = least[x] + step, ways[x] + [y], True
        short = [x for x in range(problem.n) if residue[x] < 0]
        end = min(short, key=lambda x: least[x])
        way = list(zip(ways[end], ways[end][1:]))
        back = [carried[y, x] for x, y in way if carried[y, x] > 0]
        amount = min(residue[start], -residue[end], *back)
        for x, y in way:
            taken = min(amount, carried[y, x])
            carried[y, x] -= taken
            carried[x, y] += amount - taken
        residue[start] -= amount
        residue[end] += amount
        cost += amount * least[end]
    return cost


def faults(problem: Problem, best: Answer, apart: List[List[int]]) -> List[str]:
    """What does not hold of a best answer, of all that is asked of one."""
    n, u, table = problem.n, best.potential, best.table
    if best.root != 0 or not is_tree(problem, 0, best.parents):
        return ["tree"]
    weighed = weigh(problem, best.parents)
    places = [(i, j) for i in range(n) for j in range(n)]
    holds = {
        "tree cost": weighed.cost == best.cost,
        "plan by the rule": weighed.table == table,
        "plan as a list": entries(table) == best.plan,
        "moves": moves(table) == best.moves,
        "rows": [sum(row) for row in table] == problem.mu,
        "columns": [sum(column) for column in zip(*table)] == problem.nu,
        "plan cost": sum(table[i][j] * apart[i][j] for i, j in places) == best.cost,
        "potential at 0": u[0] == 0,
        "edge": all(abs(u[a] - u[b]) <= c for a, b, c in problem.edges),
        "worth": sum(map(int.__mul__, u, problem.difference)) == best.cost,
    }
    return [name for name, held in holds.items() if not held]


# ---- Images


class Contents(NamedTuple):
    """What an image holds; it need be no patch and no tree."""

    edges: List[Edge]
    mu: List[int]
    nu: List[int]
    root: int = 0
    parents: Optional[List[int]] = None


def in_order(edges: List[Edge]) -> List[Edge]:
    """The edges with the lower end first, rising."""
    return sorted((min(a, b), max(a, b), length) for a, b, length in edges)


def image_of(
    edges: List[Edge],
    mu: List[int],
    nu: List[int],
    root: int = 0,
    parents: Optional[List[int]] = None,
) -> bytes:
    """The image with its sections back to back, the edges as they stand. All goes that
    fits the bytes: no vertex or 255, 65,535 edges, lists of unequal length."""
    records = [bytes([a, b]) + length.to_bytes(2, "little") for a, b, length in edges]
    sections = [
        b"".join(records),
        b"".join(amount.to_bytes(4, "little") for amount in mu),
        b"".join(amount.to_bytes(4, "little") for amount in nu),
        b"" if parents is None else bytes([root, *parents]),
    ]
    return laid_out(len(mu), len(edges), sections)


def laid_out(
    n: int, m: int, sections: List[bytes], gaps: Sequence[bytes] = 5 * (b"",)
) -> bytes:
    """An image of four sections of any length, a gap before each and after the last."""
    header, body = struct.pack("<BBH", n, 0, m), b""
    for gap, section in zip(gaps, sections):
        body += gap
        header += struct.pack("<II", 36 + len(body), len(section))
        body += section
    return header + body + gaps[4]


def directory(image: bytes) -> List[Tuple[int, int]]:
    """Offset and length of each section."""
    numbers = struct.unpack_from("<8I", image, 4)
    return list(zip(numbers[::2], numbers[1::2]))


def with_gaps(image: bytes, gaps: Sequence[bytes]) -> bytes:
    """The same image with a gap before each section and after the last; those that it
    had are gone."""
    sections = [image[at : at + length] for at, length in directory(image)]
    return laid_out(image[0], image[2] + 256 * image[3], sections, gaps)


def form_refusal(image: bytes) -> int:
    """The number that refuses an image for its form, 0 if none does."""
    if not 36 <= len(image) <= 65_536:
        return 11
    end = 36
    for at, length in directory(image):
        if at < end or at + length > len(image):
            return 12
        end = at + length
    n, second, m = struct.unpack_from("<BBH", image)
    lengths = [length for _, length in directory(image)]
    if second != 0 or lengths[:3] != [4 * m, 4 * n, 4 * n]:
        return 13
    if lengths[3] not in (0, n + 1):
        return 13
    if not 1 <= n <= 64:
        return 1
    return 2 if m > 512 else 0


def rewritten(image: bytes) -> Tuple[int, Any]:
    """The number that refuses an image, 0 if none does, and the image without gaps."""
    number = form_refusal(image)
    return number, with_gaps(image, 5 * [b""]) if number == 0 else []


def contents_of(image: bytes) -> Contents:
    """What an image holds whose form is right."""
    edges, mu, nu, tree = (image[at : at + length] for at, length in directory(image))
    amounts = [list(struct.unpack(f"<{image[0]}I", part)) for part in (mu, nu)]
    given = Contents(list(struct.iter_unpack("<BBH", edges)), *amounts)
    return given._replace(root=tree[0], parents=list(tree[1:])) if tree else given


def tree_refusal(problem: Problem, root: int, parents: List[int]) -> int:
    """The number that refuses a tree, 0 if none does."""
    n, pairs = problem.n, problem.pairs()
    own = [x for x in range(n) if parents[x] == x]
    if root >= n or max(parents) >= n or own != [root]:
        return 8
    if any((x, parents[x]) not in pairs for x in range(n) if x != root):
        return 9
    return 0 if is_tree(problem, root, parents) else 10


@lru_cache(maxsize=None)
def answer_to(image: bytes) -> Tuple[int, int]:
    """The number that refuses an image, 0 if none does, and its cost: that of its tree
    or, without one, that of the cheapest plan."""
    number = form_refusal(image)
    if number != 0:
        return number, 0
    edges, mu, nu, root, parents = contents_of(image)
    numbers = [k for part in (mu, nu) for k in failing(len(mu), edges, 0, part)]
    if numbers:
        return min(numbers), 0
    if sum(mu) != sum(nu):
        return 7, 0
    problem = Problem(edges, mu, nu)
    if parents is None:
        return 0, least_cost(problem)
    number = tree_refusal(problem, root, parents)
    return number, weigh(problem, parents).cost if number == 0 else 0


# ---- Reels


def reel_of(images: Sequence[bytes], gaps: Sequence[bytes] = ()) -> bytes:
    """A reel with a gap before each image and after the last, or with none."""
    gaps = gaps or (len(images) + 1) * [b""]
    head, body = [len(images).to_bytes(2, "little")], []
    at = 2 + 8 * len(images)
    for gap, image in zip(gaps, images):
        at += len(gap)
        head += [at.to_bytes(4, "little"), len(image).to_bytes(4, "little")]
        at += len(image)
        body += [gap, image]
    return b"".join([*head, *body, gaps[-1]])


def directory_end(reel: bytes) -> int:
    """Where the directory of a reel with a count should end."""
    return 2 + 8 * (reel[0] + 256 * reel[1])


def pairs_in(reel: bytes) -> List[Tuple[int, int]]:
    """Offset and length of each image of a reel that has its directory."""
    numbers = struct.unpack_from(f"<{directory_end(reel) // 4}I", reel, 2)
    return list(zip(numbers[::2], numbers[1::2]))


def with_pairs(reel: bytes, pairs: Sequence[Tuple[int, int]]) -> bytes:
    """The same reel with other offsets and lengths."""
    head = [struct.pack("<II", at, length) for at, length in pairs]
    return b"".join([reel[:2], *head, reel[2 + 8 * len(head) :]])


def in_place(reel: bytes) -> bool:
    """Whether a reel has its count and directory, and each image is behind these and
    behind its forerunner and ends in the reel."""
    if len(reel) < 2 or len(reel) < directory_end(reel):
        return False
    end = directory_end(reel)
    for at, length in pairs_in(reel):
        if at < end or at + length > len(reel):
            return False
        end = at + length
    return True


def images_of(reel: bytes) -> List[bytes]:
    """The images of a reel."""
    return [reel[at : at + length] for at, length in pairs_in(reel)]


def sheet_of(answers: Sequence[Tuple[int, int]]) -> Report:
    """The sheet of images by the number and the cost of each."""
    numbers = [number for number, _ in answers]
    costs = {x: cost for x, (number, cost) in enumerate(answers) if number == 0}
    greatest = max(costs.values(), default=0)
    return Report(
        accepted=len(costs),
        tally=[numbers.count(k) for k in range(24)],
        sum=sum(costs.values()),
        greatest=greatest,
        first=min((x for x in costs if costs[x] == greatest), default=len(answers)),
    )


def report(reel: bytes, places: int = 24) -> Tuple[int, Any]:
    """The number that refuses a reel or a tally of so many places, 0 if none does, and
    the sheet."""
    if not in_place(reel):
        return 14, []
    if places < 24:
        return 2, []
    return 0, sheet_of([answer_to(image) for image in images_of(reel)])


# ---- Pages


class PageCall(NamedTuple):
    """What a page is asked with; the edges as they stand. So many bytes are lent."""

    n: int
    edges: List[Edge]
    mu: List[int]
    nu: List[int]
    root: int
    parents: List[int]
    places: int


def preorder(root: int, parents: List[int]) -> List[Tuple[int, int]]:
    """Each vertex with its depth, and behind it its children by rising number, each
    with its whole subtree."""
    order, waiting = [], [(root, 0)]
    while waiting:
        x, depth = waiting.pop()
        order.append((x, depth))
        children = [y for y, parent in enumerate(parents) if parent == x != y]
        waiting += [(y, depth + 1) for y in reversed(children)]
    return order


def line_of(x: int, depth: int, imbalance: int, potential: int) -> str:
    """A line of a page, from what stands in it and the columns where that ends."""
    line = 95 * " " + "\n"
    for end, text in (
        (depth + 2, f"{x:02}"),
        (79, str(imbalance)),
        (90, str(potential)),
    ):
        line = line[: end - len(text)] + text + line[end:]
    return line


def page_of(problem: Problem, root: int, parents: List[int]) -> str:
    """The page of a tree."""
    weighed = weigh(problem, parents)
    lines = [
        line_of(x, depth, weighed.imbalance[x], weighed.potential[x])
        for x, depth in preorder(root, parents)
    ]
    return "".join(lines)


def meets(root: int, parents: List[int], x: int) -> bool:
    """Whether the root is met going from x up, wherever the parents lead."""
    for _ in parents:
        if x == root or x >= len(parents):
            break
        x = parents[x]
    return x == root


def failing_page(given: PageCall) -> List[int]:
    """The checks of a page that fail, in their order."""
    n, edges, mu, nu, root, parents, places = given
    near = {ends for a, b, _ in edges for ends in ((a, b), (b, a))}
    numbers = {k for part in (mu, nu) for k in failing(n, edges, 0, part)} - {17}
    fails = {
        2: len(parents) != n or places < 96 * n,
        7: sum(mu) != sum(nu),
        8: max([root, *parents]) >= n
        or [x for x, parent in enumerate(parents) if x == parent] != [root],
        9: any(way not in near for way in enumerate(parents) if way[0] != root),
        10: not all(meets(root, parents, x) for x in range(len(parents))),
    }
    return sorted(numbers | {number for number, failed in fails.items() if failed})


def tree_page(given: PageCall) -> Tuple[int, str]:
    """The number that refuses a page, 0 if none does, and the page."""
    numbers = failing_page(given)
    if numbers:
        return numbers[0], ""
    _, edges, mu, nu, root, parents, _ = given
    return 0, page_of(Problem(edges, mu, nu), root, parents)


# ---- Random patches


def pair(a: int, b: int) -> Tuple[int, int]:
    return min(a, b), max(a, b)


def random_edges(draw: random.Random, n: int) -> List[Edge]:
    """A connected patch: a line, a star, a mesh or anything, numbered at random."""
    kind = draw.choice(["line", "star", "mesh", "any", "any"])
    lowest = {"line": n, "mesh": n, "star": 0, "any": 0}[kind]
    highest = {"star": 0}.get(kind, n)
    pairs = {
        (draw.randint(min(lowest, x - 1), min(highest, x - 1)), x) for x in range(1, n)
    }
    if kind == "mesh":
        width = draw.randint(1, n)
        pairs |= {(x, x + width) for x in range(n - width)}
    most = min(n * (n - 1) // 2, 512)
    wanted = min(len(pairs) + draw.choice([0, 1, n // 2, n, 2 * n, most]), most)
    while len(pairs) < wanted:
        x = draw.randrange(1, n)
        pairs.add((draw.randrange(x), x))
    limits = draw.choice(
        [(1, 1), (1, 3), (1, 100), (1, 65_535), (0, 1), (0, 2), (0, 65_535), (0, 0)]
    )
    number = draw.sample(range(n), n)
    edges = [(number[a], number[b], draw.randint(*limits)) for a, b in sorted(pairs)]
    return draw.sample(edges, len(edges))


def random_painting(draw: random.Random, n: int, total: int) -> List[int]:
    """A total over all vertices, or over few of them."""
    painting = [0] * n
    support = draw.sample(range(n), draw.choice([n, draw.randint(1, n)]))
    cuts = sorted(draw.randint(0, total) for _ in support[1:])
    for x, low, high in zip(support, [0] + cuts, cuts + [total]):
        painting[x] = high - low
    return painting


def random_problem(
    draw: random.Random, most: Sequence[int] = (4, 8, 16, 64)
) -> Problem:
    """From 1 to 64 vertices, most often few."""
    n = draw.randint(1, draw.choice(most))
    total = draw.choice([0, n, draw.randint(1, 1000), 16_777_216])
    mu = random_painting(draw, n, total)
    nu = mu if draw.random() < 0.1 else random_painting(draw, n, total)
    return Problem(random_edges(draw, n), mu, list(nu))


class Query(NamedTuple):
    """What is asked from a start vertex: with a reach, or with a painting. The edges
    are in order."""

    n: int
    edges: List[Edge]
    start: int
    reach: int
    painting: List[int]


def random_query(draw: random.Random) -> Query:
    """A reach at a distance or next to it, at times far; paint on few vertices, which
    are often far ones, on none or on many."""
    problem = random_problem(draw)
    n, start = problem.n, draw.randrange(problem.n)
    apart = lengths_from(problem.edges, start)
    near = max(draw.choice(list(apart.values())) + draw.choice([-1, 0, 0, 1]), 0)
    reach = draw.choice([near, near, near, near, 0, 65_536, 2**32 - 1])
    far = sorted(apart, key=apart.__getitem__)[draw.choice([0, n // 2, n // 2]) :]
    spots = n * [0]
    for x in draw.sample(far, min(len(far), draw.choice([0, 1, 2, 2, 3, 3, 4]))):
        spots[x] = draw.choice([1, 2, 2**24 // n])
    painting = draw.choice([spots, spots, spots, problem.mu])
    return Query(n, in_order(problem.edges), start, reach, painting)


def up_to_three(draw: random.Random, numbers: List[int]) -> List[int]:
    """Some of the numbers in their order, often those next to each other."""
    count, size = draw.choice([0, 1, 1, 2, 2, 3]), len(numbers)
    place = draw.randrange(size + 1 - count)
    some = sorted(draw.sample(range(size), count))
    next_to = numbers[place : place + count]
    return draw.choice([next_to, [numbers[k] for k in some]])


def faulty(draw: random.Random, query: Query) -> Query:
    """The query with up to three faults, often of checks next to each other. On some
    patches some of them are none."""
    n, edges, start, reach, painting = query
    for number in up_to_three(draw, [17, 6, 5, 4, 3, 2, 1]):
        if number == 1:
            n = draw.choice([0, 65, 2**32 + n, 2**64 - 1])
        elif number == 2 and draw.random() < 0.5:
            edges = edges + 513 * edges[-1:]
        elif number == 2:
            painting = draw.choice([painting[1:], painting + [0]])
        elif number == 6:
            painting = large_painting(draw, painting)
        elif number == 17:
            start = draw.choice([n, 64, 256 + start, 2**32 + start, 2**64 - 1])
        else:
            edges = faulty_edges(draw, number, n, edges)
    return Query(n, edges, start, reach, painting)


def faulty_edges(
    draw: random.Random, number: int, n: int, edges: List[Edge]
) -> List[Edge]:
    """An edge with wrong ends or out of order, one that is too long, or a vertex
    without edges."""
    if not edges:
        return [(0, n, 1)] if number == 3 else edges
    place = draw.randrange(len(edges))
    a, b, length = edges[place]
    if number == 5:
        return [edge for edge in edges if b not in edge[:2]]
    ends = [(b, a), (a, a), (a, n), (a, 2**32 - 1), edges[place - 1][:2]]
    if number == 3:
        a, b = draw.choice(ends)
    else:
        length = draw.choice([65_535, 65_536, 2**32 - 1])
    return edges[:place] + [(a, b, length)] + edges[place + 1 :]


def large_painting(draw: random.Random, painting: List[int]) -> List[int]:
    """A total on either side of the bound, or one that 64 bits do not hold."""
    x, rest = draw.randrange(len(painting)), painting[:]
    rest[x] = 0
    total = sum(rest)
    rest[x] = draw.choice([2**24 - total, 2**24 + 1 - total, 2**64 - max(total, 1)])
    return rest


def single(bits: int) -> float:
    """The 32-bit float of these bits."""
    return float(struct.unpack("<f", struct.pack("<I", bits))[0])


def random_single(draw: random.Random) -> float:
    """Of any bits, of any from 0 to 1, or an amount's weight or one next to it."""
    kind = draw.randrange(3)
    if kind == 0:
        return single(draw.getrandbits(32))
    if kind == 1:
        return single(draw.randrange(0x3F80_0010))
    amount = draw.randint(1, 2**24) >> draw.randrange(24)
    (bits,) = struct.unpack("<I", struct.pack("<f", amount / 2**24))
    return single((bits + draw.randint(-1, 1)) % 2**32)


def random_double(draw: random.Random) -> float:
    """Of any bits, or next to an amount's weight, closer than any 32-bit float."""
    amount = draw.randint(0, 2**24) >> draw.randrange(24)
    (bits,) = struct.unpack("<Q", struct.pack("<d", amount / 2**24))
    bits += draw.choice([1, -1, 2**20])
    bits = draw.choice([bits, bits, draw.getrandbits(64)])
    return float(struct.unpack("<d", struct.pack("<Q", bits % 2**64))[0])


def random_weights(draw: random.Random) -> List[float]:
    """Weights of amounts, of which none, one or two are changed to anything."""
    n = draw.choice([1, 2, 64, 65, draw.randint(1, 200)])
    weights = [draw.randint(0, 2**24) / 2**24 for _ in range(n)]
    for _ in range(draw.randrange(3)):
        change = draw.choice([random_single, random_double])
        weights[draw.randrange(n)] = change(draw)
    return weights


def random_amounts(draw: random.Random) -> List[int]:
    """Amounts up to 16,777,216, and at times one that may be above."""
    n = draw.choice([1, 2, 64, 65, draw.randint(1, 200)])
    amounts = [draw.randint(0, 2**24) >> draw.randrange(24) for _ in range(n)]
    if draw.random() < 0.5:
        above = draw.choice([2**24, 2**24 + 1, draw.getrandbits(64)])
        amounts[draw.randrange(n)] = above
    return amounts


def hang(n: int, pairs: List[Tuple[int, int]], root: int) -> List[int]:
    """The parents of the tree that the pairs form, from a root."""
    near: List[List[int]] = [[] for _ in range(n)]
    for a, b in pairs:
        near[a].append(b)
        near[b].append(a)
    parents, reached = {root: root}, [root]
    for x in reached:
        for y in near[x]:
            if y not in parents:
                parents[y] = x
                reached.append(y)
    return [parents[x] for x in range(n)]


def random_tree(draw: random.Random, problem: Problem) -> Tuple[int, List[int]]:
    """Edges in a random order, each that closes no ring."""
    root = draw.randrange(problem.n)
    part, tree = list(range(problem.n)), []
    for a, b, _ in draw.sample(problem.edges, len(problem.edges)):
        if part[a] != part[b]:
            tree.append((a, b))
            part = [part[a] if x == part[b] else x for x in part]
    return root, hang(problem.n, tree, root)


def pairs_of(parents: List[int]) -> Set[Tuple[int, int]]:
    return {pair(x, p) for x, p in enumerate(parents) if x != p}


def rerooted(draw: random.Random, parents: List[int]) -> Tuple[int, List[int]]:
    """The same tree under any root."""
    root = draw.randrange(len(parents))
    return root, hang(len(parents), sorted(pairs_of(parents)), root)


def swapped(
    draw: random.Random, problem: Problem, parents: List[int]
) -> Tuple[int, List[int]]:
    """The tree with one edge changed, if there is another, under any root."""
    tree = pairs_of(parents)
    others = [pair(a, b) for a, b, _ in problem.edges if pair(a, b) not in tree]
    if others:
        a, b = draw.choice(others)
        x = draw.choice(sorted(set(chain(parents, a)) ^ set(chain(parents, b))))
        tree = tree - {pair(x, parents[x])} | {(a, b)}
    root = draw.randrange(problem.n)
    return root, hang(problem.n, sorted(tree), root)


# ---- Random images


def random_bytes(draw: random.Random, size: int) -> bytes:
    bits = draw.getrandbits(8 * size + 1) >> 1  # Python 3.8 draws no 0 bits
    return bits.to_bytes(size, "little")


def random_number(draw: random.Random, bits: int) -> int:
    """Of so many bits, often the least or the largest."""
    number = draw.getrandbits(bits)
    return draw.choice([0, 2**bits - 1, number, number])


def random_contents(draw: random.Random, n: int, m: int) -> Contents:
    """Any numbers that fit an image, with a tree or without one."""
    edges = [
        (random_number(draw, 8), random_number(draw, 8), random_number(draw, 16))
        for _ in range(m)
    ]
    mu, nu = ([random_number(draw, 32) for _ in range(n)] for _ in range(2))
    if draw.random() < 0.5:
        return Contents(edges, mu, nu)
    root, *parents = (random_number(draw, 8) for _ in range(n + 1))
    return Contents(edges, mu, nu, root, parents)


def fitting_contents(draw: random.Random) -> Contents:
    """Of 1 to 64 vertices and up to 512 edges, most often few."""
    n = draw.choice([1, 2, draw.randint(1, 10), draw.randint(1, 64), 64])
    few, many = draw.randint(2, 30), draw.randint(31, 512)
    m = draw.choice([0, 1, few, few, few, many, 255, 256, 512])
    return random_contents(draw, n, m)


def changed(draw: random.Random, given: Contents) -> Contents:
    """The contents with one bit of one number changed."""
    edges = [list(edge) for edge in given.edges]
    mu, nu, tree = given.mu[:], given.nu[:], [given.root, *(given.parents or [])]
    places = [(edge, k, bits) for edge in edges for k, bits in enumerate((8, 8, 16))]
    places += [(painting, x, 32) for painting in (mu, nu) for x in range(len(mu))]
    if given.parents is not None:
        places += [(tree, x, 8) for x in range(len(tree))]
    numbers, place, bits = draw.choice(places)
    numbers[place] ^= 1 << draw.randrange(bits)
    parents = None if given.parents is None else tree[1:]
    return Contents([(a, b, c) for a, b, c in edges], mu, nu, tree[0], parents)


def spread(draw: random.Random, image: bytes) -> bytes:
    """The same image with gaps before its sections and after them, of any bytes: few,
    or up to the largest size of an image."""
    room = 65_536 - len(image)
    spare = draw.choice([0, 1, 4, 20, 300, draw.randint(0, room), room])
    cuts = sorted(draw.choice([0, spare, draw.randint(0, spare)]) for _ in range(4))
    sizes = [high - low for low, high in zip([0] + cuts, cuts + [spare])]
    return with_gaps(image, [random_bytes(draw, size) for size in sizes])


def damaged(draw: random.Random, image: bytes) -> bytes:
    """The image with up to two faults in its header, at times cut off or too long."""
    wrong = bytearray(image)
    for _ in range(draw.randrange(3)):
        if draw.random() < 0.5:  # n, the byte after it or m
            wrong[draw.randrange(4)] = draw.randrange(256)
        else:  # an offset or a length
            place = draw.randrange(4, 36, 4)
            (number,) = struct.unpack_from("<I", wrong, place)
            near = (number + draw.choice([-4, -1, 1, 4])) % 2**32
            struct.pack_into("<I", wrong, place, draw.choice([near, number ^ 2**31]))
    whole = len(image)
    size = draw.choice([whole, whole, whole, draw.randrange(whole), 65_536, 65_537])
    return bytes(wrong[:size].ljust(size, b"x"))


def random_image(draw: random.Random) -> bytes:
    """Of any contents with gaps; at times of no vertex, too many vertices or edges, and
    damaged."""
    some, few = draw.randint(1, 64), draw.randint(0, 30)
    n = draw.choice([some, some, some, some, 64, 0, 65, draw.randint(65, 255)])
    m = draw.choice([few, few, few, few, 512, 513, draw.randint(513, 1000)])
    image = spread(draw, image_of(*random_contents(draw, n, m)))
    return draw.choice([image, damaged(draw, image)])


# ---- Random reels

NUMBERS = (0, 1, 2, 3, 5, 6, 7, 8, 9, 10, 11, 12, 13)  # what an image can have


def faulty_tree(
    draw: random.Random, number: int, problem: Problem, root: int, parents: List[int]
) -> Tuple[int, List[int]]:
    """The tree with a wrong root or parent, a parent that is not next to its vertex, or
    two vertices that are each other's parents."""
    n, near, x = problem.n, problem.pairs(), draw.randrange(problem.n)
    places = [(x, y) for x in range(n) for y in range(n)]
    changes = {
        8: [(x, n), (x, 255), (x, x), (root, (root + 1) % n)],
        9: [(x, y) for x, y in places if x not in (y, root) and (x, y) not in near],
        10: [(x, y) for y, x in enumerate(parents) if x not in (y, root)],
    }
    if number == 8 and draw.random() < 0.3:
        return draw.choice([n, 255]), parents
    wrong = parents[:]
    if changes[number]:
        x, parent = draw.choice(changes[number])
        wrong[x] = parent
    return root, wrong


def faulty_contents(draw: random.Random, number: int, given: Contents) -> Contents:
    """The contents with a fault of one of the checks from 1 to 10."""
    edges, mu, nu, root, parents = given
    n, x = len(mu), draw.randrange(len(mu))
    if number == 1:
        zeros = draw.choice([0, 65, draw.randint(65, 255)]) * [0]
        return Contents(edges, zeros, zeros, root, None if parents is None else zeros)
    if number == 2:
        return given._replace(edges=edges + draw.choice([513, 600]) * [(0, 1, 1)])
    if number in (3, 5):
        wrong = faulty_edges(draw, number, n, edges)
        return given._replace(edges=[(a, min(b, 255), c) for a, b, c in wrong])
    if number in (6, 7):
        part = draw.choice(["mu", "nu"])
        painting = getattr(given, part)[:]
        less = -1 if painting[x] > 0 else 1
        painting[x] += less if number == 7 else 2**24 + 1 - sum(painting)
        return given._replace(**{part: painting})
    problem = Problem(edges, mu, nu)
    tree = random_tree(draw, problem) if parents is None else (root, parents)
    return Contents(edges, mu, nu, *faulty_tree(draw, number, problem, *tree))


def faulty_form(draw: random.Random, number: int, image: bytes) -> bytes:
    """The image with a fault of one of the checks from 11 to 13."""
    most, wrong = 65_536, bytearray(image)
    if number == 11:
        size = draw.choice([0, 35, draw.randrange(36), most + 1, most + len(image)])
        return image[:size].ljust(size, b"x")
    if number == 12:
        struct.pack_into("<I", wrong, draw.choice([4, 12, 20]), 35)
        return draw.choice([image[:-1], bytes(wrong)])
    wrong[draw.choice([1, 1, 8, 32])] ^= 1  # the byte after n, or a length
    return bytes(wrong)


def random_shot(
    draw: random.Random, number: int, most: Sequence[int], costless: bool = False
) -> bytes:
    """An image with a tree or without that is accepted, or else most often is refused
    by the number; at times it has another fault besides."""
    problem = random_problem(draw, most)
    if draw.random() < 0.2:  # for costs beyond 32 bits
        edges = [(a, b, draw.randint(256, 65_535)) for a, b, _ in problem.edges]
        paintings = [random_painting(draw, problem.n, 2**24) for _ in range(2)]
        problem = Problem(edges, *paintings)
    if costless:
        problem = problem._replace(nu=problem.mu[:])
    tree: Any = random_tree(draw, problem) if draw.random() < 0.5 else ()
    given = Contents(in_order(problem.edges), problem.mu, problem.nu, *tree)
    if number == 0:
        image = image_of(*given)
        return spread(draw, image) if draw.random() < 0.2 else image
    other = draw.choice([number, number, number, draw.choice(NUMBERS[1:])])
    numbers = sorted({number, other}, reverse=True)
    for fault in numbers:
        if fault <= 10:
            given = faulty_contents(draw, fault, given)
    image = image_of(*given)
    for fault in numbers:
        if fault > 10:
            image = faulty_form(draw, fault, image)
    return image


def random_gaps(draw: random.Random, count: int) -> List[bytes]:
    """None, or some of a few bytes and at times one of many."""
    if draw.random() < 0.3:
        return count * [b""]
    sizes = [draw.choice([0, 0, 1, 3, draw.randint(0, 40)]) for _ in range(count)]
    sizes[draw.randrange(count)] += draw.choice([0, 0, 0, 65_536])
    return [random_bytes(draw, size) for size in sizes]


def random_reel(draw: random.Random) -> bytes:
    """Images of all kinds; at times just refused ones, or none that costs anything, or
    some hundred empty ones among them; at times each comes twice. Some end early: then
    their last byte is in the gap behind them."""
    kind = draw.choice(["any", "any", "any", "refused", "costless", "long"])
    images: List[bytes] = []
    for _ in range(draw.choice([0, 1, 2, 3, 5, 8, 13, 20])):
        fault = kind == "refused" or draw.random() < 0.5
        number = draw.choice([*NUMBERS[1:], 9, 9, 10, 13]) if fault else 0
        images.append(random_shot(draw, number, (3, 6, 6, 12, 24), kind == "costless"))
    images += draw.sample(images, draw.choice([0, 0, len(images)]))
    if kind == "long":
        place = draw.choice([0, draw.randint(0, len(images))])
        images[place:place] = draw.randint(250, 520) * [b""]
    gaps = random_gaps(draw, len(images) + 1)
    for place, image in enumerate(images):
        if image and draw.random() < 0.1:
            images[place], gaps[place + 1] = image[:-1], image[-1:] + gaps[place + 1]
    return reel_of(images, gaps)


def small_reel(draw: random.Random) -> bytes:
    """Few images, most of them of a few bytes or none."""
    images = []
    for _ in range(draw.choice([0, 1, 2, 2, 3, 3, 4, 6])):
        image = random_shot(draw, 0, (1, 2, 3))[:100]
        some = random_bytes(draw, draw.randint(1, 40))
        images.append(draw.choice([b"", b"", some, image]))
    return reel_of(images, random_gaps(draw, len(images) + 1))


def damaged_pair(
    draw: random.Random, pairs: List[Tuple[int, int]], x: int, size: int
) -> Tuple[int, int]:
    """Another offset and length for image x of a reel: on either side of a bound, in
    the directory, past all, with a sum that 32 bits do not hold, or another image's."""
    at, length = pairs[x]
    begin, most = 2 + 8 * len(pairs), 2**32
    before = sum(pairs[x - 1]) if x > 0 else begin
    after = pairs[x + 1][0] if x + 1 < len(pairs) else size
    start = draw.choice([before, before, after]) + draw.choice([-1, 0, 0, 1])
    end = draw.choice([after, after, size]) + draw.choice([-1, 0, 0, 1])
    inside = draw.choice([0, 1, 2, begin - 8, begin - 1, begin])
    past = draw.choice([size, size + 1, most // 2, most - 1])
    changed_pairs = [
        (start, length),
        (start, after - start),
        (start, 0),
        (at, end - at),
        (inside, draw.choice([0, length, begin - inside, after - inside])),
        (past, draw.choice([0, 1, most - past, most - past + before])),
        (at, draw.choice([0, before, after, size]) - at),
        draw.choice(pairs),
    ]
    offset, length = draw.choice(changed_pairs)
    return offset % most, length % most


def damaged_reel(draw: random.Random, reel: bytes) -> bytes:
    """The reel with up to two pairs changed; at times with all of them in another
    order, with another count, cut off, or with next to nothing left."""
    pairs, size, kind = pairs_in(reel), len(reel), draw.randrange(10)
    for _ in range(draw.choice([0, 1, 1, 1, 2]) if pairs else 0):
        x = draw.randrange(len(pairs))
        pairs[x] = damaged_pair(draw, pairs, x, size)
    if kind == 0:
        pairs = draw.sample(pairs_in(reel), len(pairs))
    wrong = with_pairs(reel, pairs)
    if kind == 1:
        count = (len(pairs) + draw.choice([-1, 1, 256])) % 2**16
        return count.to_bytes(2, "little") + wrong[2:]
    if kind == 2:
        ends = [2 + 8 * len(pairs), draw.randint(0, size), *map(sum, pairs)]
        return wrong[: draw.choice(ends) - draw.choice([0, 0, 1])]
    return bytes(draw.randrange(4)) if kind == 3 else wrong


# ---- Random pages


def random_page(draw: random.Random) -> Tuple[Problem, int, List[int]]:
    """A problem with a tree under any root; at times a path of 64 vertices, numbered at
    random, from one of its ends."""
    if draw.random() < 0.9:
        problem = random_problem(draw)
        return (problem, *random_tree(draw, problem))
    way = draw.sample(range(64), 64)
    edges = [(a, b, draw.randint(0, 65_535)) for a, b in zip(way, way[1:])]
    paintings = [random_painting(draw, 64, 2**24) for _ in range(2)]
    return Problem(edges, *paintings), way[0], hang(64, list(zip(way, way[1:])), way[0])


def page_call(
    draw: random.Random, problem: Problem, root: int, parents: List[int]
) -> PageCall:
    """A buffer as long as the page, or longer."""
    size = 96 * problem.n
    places = draw.choice([size, size, size + 1, size + 96, draw.randint(size, 10_000)])
    edges = in_order(problem.edges)
    return PageCall(problem.n, edges, *problem[1:], root, parents, places)


def faulty_page(draw: random.Random, given: PageCall) -> PageCall:
    """With up to three faults, often of checks next to each other. On some patches some
    of them are none."""
    for number in up_to_three(draw, list(range(10, 0, -1))):
        problem = Problem(given.edges, given.mu, given.nu)
        part = draw.choice(["mu", "nu"])
        painting = getattr(given, part)
        if number == 1:
            n = draw.choice([0, 65, 2**32 + given.n, 2**64 - 1])
            given = given._replace(n=n)
        elif number == 2:
            given = wrong_size(draw, given)
        elif number == 6:
            given = given._replace(**{part: large_painting(draw, painting)})
        elif number == 7:
            given = given._replace(**{part: other_total(draw, painting)})
        elif number >= 8:
            tree = faulty_tree(draw, number, problem, given.root, given.parents)
            given = given._replace(root=tree[0], parents=tree[1])
        else:
            edges = faulty_edges(draw, number, given.n, given.edges)
            given = given._replace(edges=edges)
    return given


def other_total(draw: random.Random, painting: List[int]) -> List[int]:
    """The painting with a grain less, or of none with one."""
    positive = [x for x, amount in enumerate(painting) if amount > 0]
    x = draw.choice(positive or range(len(painting)))
    return painting[:x] + [painting[x] - 1 if positive else 1] + painting[x + 1 :]


def wrong_size(draw: random.Random, given: PageCall) -> PageCall:
    """A buffer that is too short, a list that is not n long, or too many edges."""
    kind, size = draw.randrange(6), 96 * given.n
    if kind == 0:
        return given._replace(edges=given.edges + 513 * given.edges[-1:])
    if kind in (1, 2):
        part = draw.choice(["mu", "nu", "parents"])
        numbers = getattr(given, part)
        return given._replace(**{part: draw.choice([numbers[1:], numbers + [0]])})
    places = draw.choice([0, size - 96, size - 1, size - 1, draw.randrange(size)])
    return given._replace(places=places)
