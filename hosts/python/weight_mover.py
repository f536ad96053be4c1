"""The weight mover: the cheapest way to carry one painting of a patch into another.

A patch has n vertices, 0 to n - 1, with n from 1 to 64, and at most 512 edges. An edge
is (a, b, length): two vertices, in either order, and a length from 0 to 65,535 in
hundredths of a millimetre; 0 joins welded vertices. Edges come in any order, no pair of
vertices twice.

A painting is one whole amount, in grains, for each vertex. `mu` is the painting before,
`nu` the one after. Both have the same total, at most 16,777,216 grains.

    >>> import weight_mover
    >>> edges = [(0, 1, 5), (0, 2, 1), (1, 2, 1)]
    >>> best = weight_mover.solve(edges, mu=[3, 0, 0], nu=[0, 3, 0])
    >>> best.cost, best.plan
    (6, [(0, 1, 3)])

A painting of floats is one of weights, as paint tools hold them: from 0 to 1, where 1
is 16,777,216 grains. So its weights sum to at most 1, and each must be a whole number
of grains. Answers are in grains; `to_weights` gives their weights.

    >>> best = weight_mover.solve(edges, mu=[0.5, 0.0, 0.0], nu=[0.0, 0.25, 0.25])
    >>> best.plan
    [(0, 1, 4194304), (0, 2, 4194304)]
    >>> weight_mover.to_weights(best.table[0])
    [0.0, 0.25, 0.25]

Costs count grains times hundredths of a millimetre. A tree is a root and the parent of
each vertex; the root is its own parent, and every other vertex shares an edge of the
patch with its parent.

A page shows a tree in plain text, for the wall or a terminal. `write_page` gives a line
for each vertex: its number, indented by its depth, its imbalance and its potential.

    >>> page = weight_mover.write_page(edges, [3, 0, 0], [0, 3, 0], 0, [0, 2, 0])
    >>> for line in page.splitlines():
    ...     print(line[:5], line[68:79], line[79:90])
    00              0           0
     02            -3          -1
      01           -3          -2

A brush asks which vertices are within a reach of one, and which vertex with paint is
nearest to it. Both go by distance, the least sum of lengths over all paths.

    >>> weight_mover.vertices_within(3, edges, start=0, reach=1)
    [0, 2]
    >>> weight_mover.nearest_vertex(edges, start=0, painting=[0, 3, 0])
    1

An image is a patch with its paintings and, if there is one, a tree in bytes. `write`
gives equal patches equal bytes and different ones different bytes; images from
elsewhere, with gaps in them, can be compared once `rewrite` has taken the gaps out.

A reel holds the images of a whole sequence. `pack` puts them into one, and `report`
gives one sheet for all of them: how many are accepted, how many are refused by which
number, and what the accepted ones cost.

    >>> there = weight_mover.write(edges, mu=[3, 0, 0], nu=[0, 3, 0])
    >>> wrong = weight_mover.write(edges, mu=[3, 0, 0], nu=[0, 4, 0])
    >>> further = weight_mover.write(edges, mu=[4, 0, 0], nu=[0, 4, 0])
    >>> sheet = weight_mover.report(weight_mover.pack([there, wrong, further]))
    >>> sheet.accepted, sheet.refused
    (2, {7: 1})
    >>> sheet.sum, sheet.greatest, sheet.first
    (14, 8, 2)

Numbers may come in lists, tuples, other sequences and iterables, and in buffers such as
`array.array` and numpy arrays; edges also as a numpy array of three columns. What the
library does not accept raises `Refusal`, what is no number or no whole one where that
is wanted `TypeError`, and a whole number that is negative or too large for its C type
`OverflowError`: nothing is rounded or wrapped.

Every call has buffers of its own and lets other threads run while the library works,
which uses at most 40 KB of a thread's stack.

The shared library, libhost_calls.so, is looked for beside this file; the environment
variable WEIGHT_MOVER_LIB names another file. hosts/python/build makes it, for x86-64
Linux. Nothing beyond the standard library of Python 3.8 is needed.
"""

import operator
import os
import struct
from collections.abc import Mapping, Set
from ctypes import (
    CDLL,
    POINTER,
    Array,
    Structure,
    byref,
    c_bool,
    c_float,
    c_int32,
    c_size_t,
    c_uint8,
    c_uint32,
    c_uint64,
    cast,
)
from dataclasses import dataclass, field
from functools import lru_cache
from numbers import Rational, Real
from typing import (
    Any,
    Dict,
    Iterable,
    List,
    Optional,
    SupportsFloat,
    SupportsIndex,
    Tuple,
    Union,
)

__all__ = [
    "Answer",
    "Evaluation",
    "MAX_EDGES",
    "MAX_IMAGES",
    "MAX_LENGTH",
    "MAX_TOTAL",
    "MAX_VERTICES",
    "Patch",
    "Refusal",
    "Report",
    "Tree",
    "distances",
    "distances_of_records",
    "evaluate",
    "is_optimal",
    "mark_ancestors",
    "nearest_vertex",
    "pack",
    "read",
    "refusal_text",
    "report",
    "rewrite",
    "run",
    "solve",
    "to_amounts",
    "to_weights",
    "vertices_within",
    "write",
    "write_page",
]
__version__ = "0.3.3"

MAX_VERTICES = 64
MAX_EDGES = 512
MAX_LENGTH = 65_535  # hundredths of a millimetre
MAX_TOTAL = 16_777_216  # grains
MAX_IMAGES = 65_535  # in a reel

Edge = Tuple[int, int, int]  # a, b, length
Entry = Tuple[int, int, int]  # from, to, amount
Numbers = Iterable[SupportsIndex]
Weights = Iterable[SupportsFloat]
Painting = Union[Numbers, Weights]
Edges = Iterable[Numbers]
BytesLike = Any  # bytes, bytearray, memoryview, a numpy array of bytes


# ---- Refusals

_UNKNOWN = "no such number"
_TEXTS = (
    "accepted",
    "the number of vertices is 0 or above 64",
    "there are more than 512 edges, or a table has the wrong length",
    "an edge has ends that are no rising pair of vertices, or is out of order",
    "an edge has a length above 65535",
    "some vertex cannot be reached from vertex 0",
    "a total is above 16777216",
    "the two totals differ",
    "the root or a parent is no vertex, the root has another parent,"
    " or a second vertex is its own parent",
    "a vertex and its parent share no edge",
    "a chain of parents misses the root",
    "the image has under 36 or over 65536 bytes",
    "a section of the image is out of order or out of bounds",
    "byte 1 of the image is not 0, a section has the wrong length,"
    " or a number is too large for an image",
    "the reel is shorter than its directory,"
    " or an image in it is out of order or out of bounds",
    "a weight is below 0, above 1 or no number, or an amount is above 16777216",
    "a weight is no whole number of grains",
    "the start is no vertex",
)


def refusal_text(number: int) -> str:
    """The meaning of a number that the library returns; 0 is "accepted"."""
    return _TEXTS[number] if 0 <= number < len(_TEXTS) else _UNKNOWN


class Refusal(ValueError):
    """The library refuses what it was given.

    `number` says which check failed, 1 to 17, and `text` what it means. The checks run
    in the order 11, 12, 13 and then 1 to 10; each call says by which it refuses.
    `write` alone has 13 last, after 1 and 2; calls from a start vertex have 17 last,
    after 5 or 6. Before all of them, weights are refused by 15 and then 16, those of mu
    first. 14 is for `report` alone, which has no other: it counts what the images of
    its reel are refused by.
    """

    def __init__(self, number: int) -> None:
        super().__init__(number)
        self.number = number
        self.text = refusal_text(number)

    def __str__(self) -> str:
        return f"refused {self.number}: {self.text}"


# ---- Numbers, checked against the C types that are to hold them

_U32, _U64 = (2**bits - 1 for bits in (32, 64))


def _number(value: Any, limit: int, name: str) -> int:
    """A whole number from 0 to a limit."""
    try:
        number = operator.index(value)
    except TypeError:
        kind = type(value).__name__
        raise TypeError(f"{name}: {value!r} ({kind}) is not an integer") from None
    if not 0 <= number <= limit:
        raise OverflowError(f"{name}: {number} is not from 0 to {limit}")
    return number


def _items(values: Any, name: str) -> List[Any]:
    """What a sequence or an iterable holds, or a buffer, which has `tolist`."""
    if hasattr(values, "tolist"):
        values = values.tolist()
    try:
        items = iter(values)
    except TypeError:
        raise TypeError(f"{name}: {values!r} is not a list") from None
    return list(items)


def _row(values: Any, name: str) -> List[Any]:
    """What a list with an item for each vertex holds."""
    if isinstance(values, (Mapping, Set)):
        raise TypeError(f"{name}: a {type(values).__name__} has no order of vertices")
    return _items(values, name)


def _numbers(values: Numbers, limit: int, name: str) -> List[int]:
    """A list of whole numbers from 0 to a limit."""
    items = enumerate(_row(values, name))
    return [_number(item, limit, f"{name}[{place}]") for place, item in items]


def _weight(value: Any, name: str) -> float:
    """A weight as a 32-bit float. What is none is not rounded: in its place the call
    gets a float that it refuses by the same number, 15 outside 0 to 1, else 16."""
    if not issubclass(type(value), Real):
        kind = type(value).__name__
        raise TypeError(f"{name}: {value!r} ({kind}) is not an integer or float")
    try:
        nearest = c_float(float(value)).value
    except OverflowError:  # past all floats
        return 2.0
    if nearest == value or value != value:
        return nearest
    return 2.0**-25 if 0 <= value <= 1 else 2.0


def _painting(values: Painting, name: str) -> List[int]:
    """The amounts of a painting; floats, numpy's too, are weights."""
    items = _row(values, name)
    kinds = {type(item) for item in items}
    floats = {
        kind
        for kind in kinds
        if issubclass(kind, Real) and not issubclass(kind, Rational)
    }
    if floats and floats != kinds:
        other = next(item for item in items if type(item) not in floats)
        weight = next(item for item in items if type(item) in floats)
        raise TypeError(
            f"{name}: {other!r} and {weight!r} in one painting: integers are grains,"
            " floats are weights"
        )
    return to_amounts(items) if floats else _numbers(items, _U64, name)


def _sorted_edges(edges: Edges) -> List[Edge]:
    """The edges as the library wants them: lower end first, rising by their ends."""
    result = []
    for place, edge in enumerate(_items(edges, "edges")):
        name = f"edges[{place}]"
        numbers = _items(edge, name)
        if len(numbers) != 3:
            raise TypeError(f"{name}: {edge!r} is not (a, b, length)")
        a, b, length = (_number(number, _U32, name) for number in numbers)
        result.append((a, b, length) if a < b else (b, a, length))
    return sorted(result)


# ---- The shared library


class _Edge(Structure):
    """mover_edge"""

    _fields_ = [("a", c_uint32), ("b", c_uint32), ("length", c_uint32)]


class _Tree(Structure):
    """mover_tree"""

    _fields_ = [
        ("n", c_size_t),
        ("root", c_size_t),
        ("parents", c_uint32 * MAX_VERTICES),
    ]


def _table(item: Any) -> List[Any]:
    """How C passes a table: a pointer, then a length."""
    return [POINTER(item), c_size_t]


_BYTES, _I32S, _U32S, _U64S = map(_table, (c_uint8, c_int32, c_uint32, c_uint64))
_FLOATS = _table(c_float)
_EDGE_LISTS = 3 * _U32S
_PROBLEM = [c_size_t] + _EDGE_LISTS + 2 * _U64S
_GIVEN_TREE = [c_size_t] + _U32S
_COST_AND_MOVES = [POINTER(c_uint64), POINTER(c_uint32)]
_N_M_ROOT_TREE = 3 * [POINTER(c_size_t)] + [POINTER(c_uint32)]
_WRITTEN = _BYTES + [POINTER(c_size_t)]
_SHEET = [POINTER(item) for item in (c_uint32, c_uint64, c_uint64, c_size_t)]

# What each call of hosts/c/mover.h returns and takes.
_SIGNATURES = {
    "mover_distances": (c_uint32, [c_size_t] + _EDGE_LISTS + _U32S),
    "mover_distances_of_records": (c_uint32, [c_size_t] + _table(_Edge) + _U32S),
    "mover_evaluate": (
        c_uint32,
        _PROBLEM + _GIVEN_TREE + 2 * _I32S + _U32S + _COST_AND_MOVES,
    ),
    "mover_is_optimal": (c_uint32, _PROBLEM + _GIVEN_TREE + [POINTER(c_uint32)]),
    "mover_write_page": (c_uint32, _PROBLEM + _GIVEN_TREE + _WRITTEN),
    "mover_solve": (c_uint32, _PROBLEM + _U32S + _I32S + _U32S + _COST_AND_MOVES),
    "mover_mark_ancestors": (c_uint32, [c_size_t] + _GIVEN_TREE + [c_size_t] + _U64S),
    "mover_vertices_within": (
        c_uint32,
        [c_size_t] + _EDGE_LISTS + [c_size_t, c_uint32, POINTER(c_uint64)],
    ),
    "mover_nearest_vertex": (
        c_uint32,
        [c_size_t] + _EDGE_LISTS + [c_size_t] + _U64S + [POINTER(c_uint32)],
    ),
    "mover_read": (
        c_uint32,
        _BYTES + _EDGE_LISTS + 2 * _U64S + _U32S + _N_M_ROOT_TREE,
    ),
    "mover_write_image": (c_uint32, _PROBLEM + [c_bool] + _GIVEN_TREE + _WRITTEN),
    "mover_rewrite": (c_uint32, _BYTES + _WRITTEN),
    "mover_run": (c_uint32, 2 * _BYTES),
    "mover_report": (c_uint32, _BYTES + _U32S + _SHEET),
    "mover_to_amounts": (c_uint32, _FLOATS + _U64S),
    "mover_to_weights": (c_uint32, _U64S + _FLOATS),
    "mover_tree_new": (_Tree, [c_size_t] + _GIVEN_TREE),
    "mover_tree_depth": (c_uint32, [_Tree, c_size_t]),
    "mover_tree_parent": (c_uint32, [_Tree, c_size_t]),
    "mover_tree_subtree": (c_uint64, [_Tree, c_size_t]),
}


@lru_cache(maxsize=None)
def _library() -> CDLL:
    """The shared library, loaded at the first call."""
    here = os.path.dirname(os.path.abspath(__file__))
    path = os.environ.get("WEIGHT_MOVER_LIB") or os.path.join(here, "libhost_calls.so")
    try:
        library = CDLL(path)
        for name, (result, arguments) in _SIGNATURES.items():
            call = getattr(library, name)
            call.restype, call.argtypes = result, arguments
    except (OSError, AttributeError) as error:
        raise OSError(
            f"the weight mover's shared library cannot be used: {error}. Build it"
            " with hosts/python/build and put it beside weight_mover.py, or name"
            " its file in WEIGHT_MOVER_LIB"
        ) from error
    return library


def _call(name: str, *arguments: Any) -> Any:
    """What a call returns; bytes and each array go as a pointer and a length."""
    passed: List[Any] = []
    for argument in arguments:
        if isinstance(argument, bytes):  # they are read where they are
            passed += cast(argument, POINTER(c_uint8)), len(argument)
        elif isinstance(argument, Array):
            passed += argument, len(argument)
        else:
            passed.append(argument)
    return getattr(_library(), name)(*passed)


def _check(name: str, *arguments: Any) -> None:
    """Makes a call that returns a refusal number, and raises what it refuses."""
    number = _call(name, *arguments)
    if number != 0:
        raise Refusal(number)


def _array(item: Any, numbers: List[Any]) -> Any:
    return (item * len(numbers))(*numbers)


def _room(n: int) -> int:
    """For how many vertices to make answer tables; a larger n is refused unseen."""
    return n if n <= MAX_VERTICES else 0


def _edge_lists(edges: Edges) -> List[Any]:
    """The edges as three tables."""
    rows = _sorted_edges(edges)
    return [_array(c_uint32, [row[part] for row in rows]) for part in range(3)]


def _problem(edges: Edges, mu: Painting, nu: Painting) -> List[Any]:
    """n and the tables of a patch and its paintings; n is the length of mu."""
    amounts = [
        _array(c_uint64, _painting(painting, name))
        for painting, name in ((mu, "mu"), (nu, "nu"))
    ]
    return [len(amounts[0]), *_edge_lists(edges), *amounts]


def _given_tree(root: SupportsIndex, parents: Numbers) -> Tuple[int, Any]:
    table = _array(c_uint32, _numbers(parents, _U32, "parents"))
    return _number(root, _U64, "root"), table


# ---- Answers

_NO_VERTEX = 64  # what stands for no vertex


def _vertices(word: int) -> List[int]:
    """The vertices whose bits are set in a word."""
    return [y for y in range(MAX_VERTICES) if word >> y & 1]


class Tree:
    """A rooted tree by the parents of its vertices; the root is its own parent.

    No edges are looked at. For a vertex that is not below n, or if the parents make no
    tree, `depth`, `parent` and `subtree` give 0, 64 and 0.
    """

    def __init__(self, root: SupportsIndex, parents: Numbers) -> None:
        given = _given_tree(root, parents)
        self._tree = _call("mover_tree_new", len(given[1]), *given)

    @property
    def n(self) -> int:
        """The number of vertices."""
        return int(self._tree.n)

    @property
    def root(self) -> int:
        """The vertex at the top."""
        return int(self._tree.root)

    @property
    def parents(self) -> List[int]:
        """The parent of each vertex."""
        return list(self._tree.parents[: self.n])

    def depth(self, v: SupportsIndex) -> int:
        """The number of edges from v up to the root."""
        return int(_call("mover_tree_depth", self._tree, _number(v, _U64, "v")))

    def parent(self, v: SupportsIndex) -> int:
        """The parent of v; the root's is the root."""
        return int(_call("mover_tree_parent", self._tree, _number(v, _U64, "v")))

    def subtree(self, v: SupportsIndex) -> int:
        """A word with bit y set for each vertex y that is v or is below it."""
        return int(_call("mover_tree_subtree", self._tree, _number(v, _U64, "v")))

    def below(self, v: SupportsIndex) -> List[int]:
        """The vertices of `subtree(v)` as a list."""
        return _vertices(self.subtree(v))

    def __eq__(self, other: object) -> bool:
        return isinstance(other, Tree) and bytes(self._tree) == bytes(other._tree)

    def __hash__(self) -> int:
        return hash(bytes(self._tree))

    def __repr__(self) -> str:
        return f"Tree(root={self.root}, parents={self.parents})"


@dataclass(frozen=True)
class Answer:
    """A plan that carries mu into nu, and the tree along whose edges it runs.

    cost       grains times hundredths of a millimetre, along the tree's edges
    moves      how many entries of the plan go from one vertex to another
    plan       entries (from, to, grains) by from, then to; what stays is in it too
    root       the tree's root; 0 in a best answer
    parents    each vertex's parent in the tree; the root is its own
    potential  hundredths of a millimetre for each vertex; 0 at the root. In an
               evaluated tree it falls by the edge's length the way the grains go, and
               is flat along an edge that carries none. In a best answer it changes
               along no edge by more than the edge's length, and the sum of potential
               times (mu - nu) is the cost: so no plan is cheaper
    table      the plan in full: table[i][j] grains go from i to j
    """

    cost: int
    moves: int
    plan: List[Entry]
    root: int
    parents: List[int]
    potential: List[int]
    table: List[List[int]] = field(repr=False)

    @property
    def tree(self) -> Tree:
        """The tree, with its depths and subtrees."""
        return Tree(self.root, self.parents)


@dataclass(frozen=True)
class Evaluation(Answer):
    """The answer of a given tree, with one list more.

    imbalance  grains for each vertex: mu - nu, summed over the vertices below it. So
               much goes up to its parent, or comes down from there if it is negative
    """

    imbalance: List[int]


@dataclass(frozen=True)
class Patch:
    """What an image holds; without a tree `root` is 0 and `parents` is None."""

    n: int
    edges: List[Edge]
    mu: List[int]
    nu: List[int]
    root: int
    parents: Optional[List[int]]


@dataclass(frozen=True)
class Report:
    """The sheet of a reel.

    accepted  how many of its images are accepted
    tally     how many images have which number, for the numbers from 0 to 23: tally[0]
              are accepted, and tally[k] are refused by k
    sum       the exact sum of the costs of the accepted images
    greatest  the greatest of these costs; 0 if no image is accepted
    first     the first accepted image that has it, counted from 0; if none is accepted,
              the number of images
    """

    accepted: int
    tally: List[int]
    sum: int
    greatest: int
    first: int

    @property
    def refused(self) -> Dict[int, int]:
        """How many images are refused, by each number that refuses any."""
        numbers = range(1, len(self.tally))
        return {k: self.tally[k] for k in numbers if self.tally[k] > 0}


def _square(places: Any, n: int) -> List[List[int]]:
    """A table of n x n numbers by rows."""
    return [list(places[n * i : n * i + n]) for i in range(n)]


def _entries(table: List[List[int]]) -> List[Entry]:
    """The positive entries of a plan by row, then column."""
    return [
        (i, j, amount)
        for i, row in enumerate(table)
        for j, amount in enumerate(row)
        if amount > 0
    ]


# ---- Calls on lists

_LINE = 96  # bytes of a page for each vertex


def distances(n: SupportsIndex, edges: Edges) -> List[List[int]]:
    """The distance between every two of n vertices: n rows of n numbers.

    A distance is the least sum of lengths over all paths, in hundredths of a
    millimetre. Refuses by 1 to 5.
    """
    count = _number(n, _U64, "n")
    out = (c_uint32 * _room(count) ** 2)()
    _check("mover_distances", count, *_edge_lists(edges), out)
    return _square(out, count)


def distances_of_records(n: SupportsIndex, edges: Edges) -> List[List[int]]:
    """The same as `distances`, by the library's call over edge records."""
    count = _number(n, _U64, "n")
    out = (c_uint32 * _room(count) ** 2)()
    records = _array(_Edge, _sorted_edges(edges))
    _check("mover_distances_of_records", count, records, out)
    return _square(out, count)


def solve(edges: Edges, mu: Painting, nu: Painting) -> Answer:
    """A cheapest plan from painting mu to painting nu, with a best tree (root 0) and a
    potential that shows that no plan is cheaper.

    Lengths in hundredths of a millimetre; paintings in grains, or weights if they are
    floats. Refuses by 1 to 7, and weights by 15 and 16 before.
    """
    problem = _problem(edges, mu, nu)
    n = _room(problem[0])
    parents, potential = (c_uint32 * n)(), (c_int32 * n)()
    plan = (c_uint32 * n**2)()
    cost, moves = c_uint64(), c_uint32()
    results = parents, potential, plan, byref(cost), byref(moves)
    _check("mover_solve", *problem, *results)
    table = _square(plan, n)
    return Answer(
        cost=cost.value,
        moves=moves.value,
        plan=_entries(table),
        root=0,
        parents=list(parents),
        potential=list(potential),
        table=table,
    )


def evaluate(
    edges: Edges, mu: Painting, nu: Painting, root: SupportsIndex, parents: Numbers
) -> Evaluation:
    """The plan that carries mu into nu along the edges of a given tree, and its cost.

    Lengths in hundredths of a millimetre; paintings in grains, or weights if they are
    floats. Refuses by 1 to 10, and weights by 15 and 16 before.
    """
    problem = _problem(edges, mu, nu)
    tree = _given_tree(root, parents)
    n = _room(problem[0])
    imbalance, potential = (c_int32 * n)(), (c_int32 * n)()
    plan = (c_uint32 * n**2)()
    cost, moves = c_uint64(), c_uint32()
    results = imbalance, potential, plan, byref(cost), byref(moves)
    _check("mover_evaluate", *problem, *tree, *results)
    table = _square(plan, n)
    return Evaluation(
        cost=cost.value,
        moves=moves.value,
        plan=_entries(table),
        root=tree[0],
        parents=list(tree[1]),
        potential=list(potential),
        table=table,
        imbalance=list(imbalance),
    )


def is_optimal(
    edges: Edges, mu: Painting, nu: Painting, root: SupportsIndex, parents: Numbers
) -> bool:
    """Whether no spanning tree of the patch costs less than the given one.

    Lengths in hundredths of a millimetre; paintings in grains, or weights if they are
    floats. Refuses by 1 to 10, and weights by 15 and 16 before.
    """
    optimal = c_uint32()
    problem, tree = _problem(edges, mu, nu), _given_tree(root, parents)
    _check("mover_is_optimal", *problem, *tree, byref(optimal))
    return optimal.value == 1


def write_page(
    edges: Edges, mu: Painting, nu: Painting, root: SupportsIndex, parents: Numbers
) -> str:
    """A given tree as text, to be printed: a line for each vertex, the root first.
    Behind a vertex come its children by rising number, each with its whole subtree
    before the following child.

    A line has 96 characters, all of them ASCII. In columns, counted from 0:

    0 to 67   as many spaces as the vertex's depth, its number in two digits, spaces
    68 to 78  its imbalance in grains, as `evaluate` gives it, right-aligned
    79 to 89  its potential in hundredths of a millimetre, likewise
    90 to 94  spaces
    95        a newline

    A minus sign is straight before its digits.

    >>> branches = [(0, 1, 5), (1, 2, 3), (1, 3, 4)]
    >>> page = write_page(branches, [0, 7, 0, 2], [5, 0, 4, 0], 1, [1, 1, 1, 1])
    >>> len(page)
    384
    >>> for line in page.splitlines():
    ...     print((line[:68].rstrip(), int(line[68:79]), int(line[79:90])))
    ('01', 0, 0)
    (' 00', -5, -5)
    (' 02', -4, -3)
    (' 03', 2, 4)

    Lengths in hundredths of a millimetre; paintings in grains, or weights if they are
    floats. Refuses by 1 to 10, and weights by 15 and 16 before.
    """
    problem, tree = _problem(edges, mu, nu), _given_tree(root, parents)
    buffer, length = (c_uint8 * (_LINE * _room(problem[0])))(), c_size_t()
    _check("mover_write_page", *problem, *tree, buffer, byref(length))
    return bytes(buffer)[: length.value].decode("ascii")


def mark_ancestors(
    n: SupportsIndex,
    root: SupportsIndex,
    parents: Numbers,
    y: SupportsIndex,
    masks: Numbers,
) -> List[int]:
    """The words `masks`, with bit y set in the word of each vertex that y is below.

    A vertex is below itself and all that it meets going up through the parents. `masks`
    has a word for each of n vertices, and may have more. All other bits come back as
    they are, and all bits if y is not below n. A climb from each vertex, in any order,
    from words of 0 on gives the words of `Tree.subtree`:

    >>> masks = [0, 0, 0]
    >>> for y in (2, 0, 1):
    ...     masks = mark_ancestors(3, 1, [1, 1, 0], y, masks)
    >>> masks
    [5, 7, 4]

    No edges are looked at. Refuses by 1, 2, 8 and 10.
    """
    count, vertex = _number(n, _U64, "n"), _number(y, _U64, "y")
    tree = _given_tree(root, parents)
    words = _array(c_uint64, _numbers(masks, _U64, "masks"))
    _check("mover_mark_ancestors", count, *tree, vertex, words)
    return list(words)


def vertices_within(
    n: SupportsIndex, edges: Edges, start: SupportsIndex, reach: SupportsIndex
) -> List[int]:
    """The vertices, rising, whose distance from a start vertex is at most the reach.

    The start itself is among them. The reach is in hundredths of a millimetre, as the
    lengths are, from 0 to 4,294,967,295. What is welded to a vertex within reach is
    within reach:

    >>> vertices_within(4, [(0, 1, 5), (1, 2, 0), (2, 3, 1)], start=0, reach=5)
    [0, 1, 2]

    Refuses by 1 to 5, then by 17 if the start is not below n.
    """
    count = _number(n, _U64, "n")
    given = _number(start, _U64, "start"), _number(reach, _U32, "reach")
    mask = c_uint64()
    _check("mover_vertices_within", count, *_edge_lists(edges), *given, byref(mask))
    return _vertices(mask.value)


def nearest_vertex(
    edges: Edges, start: SupportsIndex, painting: Painting
) -> Optional[int]:
    """Of the vertices with a positive amount that one whose distance from a start
    vertex is least, the lowest of those that are equally near; None if no amount is
    positive.

    The start itself counts, at distance 0. There are as many vertices as the painting
    has amounts, in grains, or weights if they are floats.

    >>> ring = [(0, 1, 2), (0, 3, 2), (1, 2, 2), (2, 3, 2)]
    >>> nearest_vertex(ring, start=0, painting=[0, 1, 0, 5])
    1
    >>> nearest_vertex(ring, start=0, painting=[0.5, 0.25, 0.0, 0.25])
    0
    >>> print(nearest_vertex(ring, start=0, painting=[0, 0, 0, 0]))
    None

    Refuses by 1 to 6, 6 if the painting's total is above 16,777,216, then by 17 if the
    start is no vertex, and weights by 15 and 16 before.
    """
    amounts = _array(c_uint64, _painting(painting, "painting"))
    given = *_edge_lists(edges), _number(start, _U64, "start"), amounts
    vertex = c_uint32()
    _check("mover_nearest_vertex", len(amounts), *given, byref(vertex))
    return None if vertex.value == _NO_VERTEX else vertex.value


def to_amounts(weights: Weights) -> List[int]:
    """The amounts, in grains, of weights as paint tools hold them: each weight, from 0
    to 1, times 16,777,216, exactly. Negative zero is 0.

    >>> to_amounts([1.0, 0.25, 3 / 16_777_216, 0.0])
    [16777216, 4194304, 3, 0]

    There may be any number of weights; integers 0 and 1 are weights too. Refuses by 15
    if some weight is below 0, above 1 or no number, then by 16 if some weight is no
    whole number of grains, as 0.1 is none. The exact value counts, not the nearest
    32-bit float.
    """
    items = enumerate(_row(weights, "weights"))
    floats = [_weight(item, f"weights[{place}]") for place, item in items]
    amounts = (c_uint64 * len(floats))()
    _check("mover_to_amounts", _array(c_float, floats), amounts)
    return list(amounts)


def to_weights(amounts: Numbers) -> List[float]:
    """The weights of amounts in grains, from 0 to 16,777,216: each amount divided by
    16,777,216, exactly. All of them are 32-bit floats, and `to_amounts` gives the
    amounts again.

    >>> to_weights([16_777_216, 4_194_304, 0])
    [1.0, 0.25, 0.0]

    There may be any number of amounts. Refuses by 15 if some amount is above
    16,777,216.
    """
    given = _array(c_uint64, _numbers(amounts, _U64, "amounts"))
    weights = (c_float * len(given))()
    _check("mover_to_weights", given, weights)
    return list(weights)


# ---- Calls on images

_HEADER = 36  # bytes before the first section
_WRITTEN_MAX = 2_661  # bytes of a written image of 64 vertices, 512 edges and a tree
_RECORD_MAX = 16_717  # bytes of the answer for 64 vertices


def _bytes(given: BytesLike, name: str) -> bytes:
    """What a bytes-like object holds. Bytes stay where they are, since nothing can
    change them while the library works; the rest is copied."""
    if type(given) is bytes:
        return given
    view = memoryview(given)
    if view.itemsize != 1:
        raise TypeError(f"{name}: items of {view.itemsize} bytes where one is wanted")
    if view.ndim == 0:  # a number of numpy's
        raise TypeError(f"{name}: {given!r} is a single item and not bytes")
    return view.tobytes()


def _written(size: int, name: str, *arguments: Any) -> bytes:
    """The image that a call writes, which needs at most `size` bytes, and no more than
    the largest: an image of more vertices or edges is refused unseen."""
    buffer, length = (c_uint8 * min(size, _WRITTEN_MAX))(), c_size_t()
    _check(name, *arguments, buffer, byref(length))
    return bytes(buffer)[: length.value]


def run(image: BytesLike) -> Answer:
    """The answer to an image, a bytes-like object: the plan of its tree if it has one,
    as from `evaluate`, or else the best, as from `solve`.

    Refuses by 11, 12, 13 and then 1 to 10; without a tree it stops after 7. It never
    refuses by 4, since an image has two bytes for a length.
    """
    given, record = _bytes(image, "image"), (c_uint8 * _RECORD_MAX)()
    _check("mover_run", given, record)
    n = given[0]
    cost, moves, root = struct.unpack_from("<QIB", record)
    potential = struct.unpack_from(f"<{n}i", record, 13 + n)
    plan = struct.unpack_from(f"<{n * n}I", record, 13 + 5 * n)
    table = _square(plan, n)
    return Answer(
        cost=cost,
        moves=moves,
        plan=_entries(table),
        root=root,
        parents=list(record[13 : 13 + n]),
        potential=list(potential),
        table=table,
    )


def read(image: BytesLike) -> Patch:
    """What an image, a bytes-like object, holds. Its form alone is examined: refuses by
    11, 12, 13, 1 and 2."""
    a, b, lengths = ((c_uint32 * MAX_EDGES)() for _ in range(3))
    mu, nu = ((c_uint64 * MAX_VERTICES)() for _ in range(2))
    parents = (c_uint32 * MAX_VERTICES)()
    n, m, root, tree = c_size_t(), c_size_t(), c_size_t(), c_uint32()
    results = byref(n), byref(m), byref(root), byref(tree)
    given = _bytes(image, "image")
    _check("mover_read", given, a, b, lengths, mu, nu, parents, *results)
    vertices, edges = n.value, m.value
    return Patch(
        n=vertices,
        edges=list(zip(a[:edges], b[:edges], lengths[:edges])),
        mu=mu[:vertices],
        nu=nu[:vertices],
        root=root.value,
        parents=parents[:vertices] if tree.value == 1 else None,
    )


def write(
    edges: Edges,
    mu: Painting,
    nu: Painting,
    root: SupportsIndex = 0,
    parents: Optional[Numbers] = None,
) -> bytes:
    """The image of a patch, its paintings and, if parents are given, a tree: the bytes
    that `run`, `read` and `rewrite` take. Paintings are in grains, or weights if they
    are floats. Without parents the root is not looked at.

    The edges stand in it with the lower end first, rising by their ends. But for the
    order in which edges and ends are given, and weights for grains, two patches with
    paintings and tree have equal images exactly if they are equal:

    >>> image = write([(0, 1, 5), (1, 2, 4)], mu=[3, 0, 0], nu=[0, 0, 3])
    >>> len(image)
    68
    >>> image == write([(2, 1, 4), (1, 0, 5)], mu=[3, 0, 0], nu=[0, 0, 3])
    True
    >>> image == write([(0, 1, 5), (1, 2, 4)], [3, 0, 0], [0, 0, 3], 0, [0, 0, 1])
    False

    Refuses by 1; by 2 if there are more than 512 edges, or mu, nu and parents are not
    of one length; then by 13 if a number does not fit its bytes: an end, root or parent
    above 255, a length above 65,535, an amount above 4,294,967,295. Refuses weights by
    15 and 16 before. Nothing else is examined: that is for `run`.
    """
    problem = _problem(edges, mu, nu)
    tree = (0, _array(c_uint32, []))
    if parents is not None:
        tree = _given_tree(root, parents)
    size = _HEADER + 4 * len(problem[1]) + 9 * problem[0] + 1
    return _written(size, "mover_write_image", *problem, parents is not None, *tree)


def rewrite(image: BytesLike) -> bytes:
    """An image, a bytes-like object, written anew: what it holds, with the sections
    back to back. What is in gaps and after the last section is gone.

    >>> image = write([(0, 1, 5)], mu=[3, 0], nu=[0, 3])
    >>> rewrite(image + b"a tail") == image
    True

    The result is no longer than the image, `read` and `run` give for it what they give
    for the image, and rewriting it changes no byte. So two images hold the same exactly
    if they are equal after rewriting. The edges stay in the image's order.

    The image's form alone is examined, as by `read`: refuses by 11, 12, 13, 1 and 2.
    """
    given = _bytes(image, "image")
    return _written(len(given), "mover_rewrite", given)


# ---- Calls on reels

_TALLY_PLACES = 24  # for the numbers from 0 to 23


def report(reel: BytesLike) -> Report:
    """One sheet for the images of a reel, a bytes-like object: how many are accepted,
    how many are refused by which number, and what the accepted ones cost. An image has
    the number and the cost that `run` gives for it: the cost of its tree if it has one,
    or else the best.

    A reel is the number of its images in two bytes, then an offset and a length for
    each, in four bytes each, and then the images, where these say; all numbers are
    little-endian, and offsets count from the reel's first byte. The images are in the
    order of their offsets. Anything may be between them and behind the last. An image
    may be empty: it is refused by 11 as any other under 36 bytes is.

    >>> cheap = write([(0, 1, 5)], mu=[1, 0], nu=[0, 1])
    >>> dear = write([(0, 1, 5)], mu=[9, 0], nu=[0, 9])
    >>> report(pack([b"", cheap, dear, dear])).first
    2
    >>> report(pack([b"", cheap[:-1]])).refused
    {11: 1, 12: 1}

    Refuses by 14 alone, if the reel ends before its count or directory does, or an
    image starts inside the directory or before its forerunner's end, or ends past the
    reel. Bytes are read where they are; of other objects a copy is made.
    """
    given, tally = _bytes(reel, "reel"), (c_uint32 * _TALLY_PLACES)()
    accepted, first = c_uint32(), c_size_t()
    total, greatest = c_uint64(), c_uint64()
    results = byref(accepted), byref(total), byref(greatest), byref(first)
    _check("mover_report", given, tally, *results)
    return Report(
        accepted=accepted.value,
        tally=list(tally),
        sum=total.value,
        greatest=greatest.value,
        first=first.value,
    )


def _directory(lengths: List[int]) -> bytes:
    """What is before the images of a reel that stand back to back."""
    numbers, offset = [], 2 + 8 * len(lengths)
    for place, length in enumerate(lengths):
        if max(offset, length) > _U32:
            raise ValueError(
                f"images[{place}]: {length} bytes from byte {offset} on, and a reel has"
                " four bytes for each of these numbers"
            )
        numbers += offset, length
        offset += length
    return struct.pack(f"<H{len(numbers)}I", len(lengths), *numbers)


def pack(images: Iterable[BytesLike]) -> bytes:
    """The reel of images, bytes-like objects: its directory, and then the images in the
    order given, back to back. They are not examined, and may be empty.

    >>> pack([b"", b"an image"]).hex(" ", 2)
    '0200 1200 0000 0000 0000 1200 0000 0800 0000 616e 2069 6d61 6765'

    Raises `ValueError` if there are more than 65,535 images, or so many bytes that an
    image's offset or length is above 4,294,967,295.
    """
    if isinstance(images, (Mapping, Set)):
        raise TypeError(f"images: a {type(images).__name__} has no order of images")
    items: List[bytes] = []
    for place, image in enumerate(images):
        if place == MAX_IMAGES:
            raise ValueError(f"images: there are more than {MAX_IMAGES}")
        items.append(_bytes(image, f"images[{place}]"))
    return b"".join([_directory([len(item) for item in items]), *items])
