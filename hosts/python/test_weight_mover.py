"""Tests of the Python module: marked cases, refusals, inputs, random patches, queries,
images, reels, pages, weights.

    python3 test_weight_mover.py

Answers on random patches are held to the definitions, which reference.py writes out,
and, where networkx is installed, to its network simplex and shortest paths; images to
those that reference.py builds, reels to its own answers for their images, pages to its
own lines, and weights to exact fractions. MOVER_CASES sets the number of patches, at
least 200, and MOVER_SEED repeats a run. The last line is "N passed, M failed".
"""

import array
import contextlib
import ctypes
import dataclasses
import doctest
import importlib
import io
import itertools
import math
import os
import pickle
import pydoc
import random
import re
import struct
import sys
import time
import tracemalloc
import unittest
from concurrent.futures import ThreadPoolExecutor
from fractions import Fraction
from typing import (
    Any,
    Callable,
    Dict,
    Iterable,
    Iterator,
    List,
    NamedTuple,
    Optional,
    Tuple,
    Type,
)
from unittest import mock

import example
import weight_mover as wm
from reference import (
    NUMBERS,
    Contents,
    PageCall,
    Problem,
    answer_to,
    as_weights,
    changed,
    contents_of,
    damaged_reel,
    directory,
    directory_end,
    entries,
    failing,
    failing_page,
    faults,
    faulty,
    faulty_page,
    fitting_contents,
    image_of,
    images_of,
    in_grains,
    in_order,
    in_place,
    least_cost,
    lengths_from,
    line_of,
    marked,
    moves,
    nearest,
    page_call,
    page_of,
    pairs_in,
    preorder,
    random_amounts,
    random_double,
    random_image,
    random_page,
    random_problem,
    random_query,
    random_reel,
    random_single,
    random_tree,
    random_weights,
    reel_of,
    report,
    rerooted,
    rewritten,
    sheet_of,
    single,
    small_reel,
    spread,
    swapped,
    tree_figures,
    tree_page,
    weigh,
    with_gaps,
    with_pairs,
    within,
)


def optional(name: str) -> Any:
    """A module that need not be there."""
    try:
        return importlib.import_module(name)
    except ImportError:
        return None


nx, np = optional("networkx"), optional("numpy")

CASES = max(200, int(os.environ.get("MOVER_CASES", 2000)))
SEED = int(os.environ.get("MOVER_SEED", time.time_ns() // 1000))
HEADER = os.path.join(os.path.dirname(os.path.abspath(__file__)), "../c/mover.h")


def problems(
    salt: str, count: int = CASES
) -> Iterator[Tuple[str, random.Random, Problem]]:
    """Random problems, each with words that name it and its generator."""
    for name, draw in draws(salt, count):
        yield name, draw, random_problem(draw)


def draws(salt: str, count: int) -> Iterator[Tuple[str, random.Random]]:
    """Generators, each with words that name it."""
    for index in range(count):
        draw = random.Random(f"{SEED} {salt} {index}")
        yield f"seed {SEED}, {salt} {index}", draw


def edge_tables(edges: List[wm.Edge]) -> List[Any]:
    """Three tables of the edges as they stand."""
    parts = [[edge[part] for edge in edges] for part in range(3)]
    return [(ctypes.c_uint32 * len(part))(*part) for part in parts]


def as_tables(given: Contents) -> List[Any]:
    """What mover_write_image takes before its buffer; the edges as they stand."""
    parents = given.parents or []
    return [
        len(given.mu),
        *edge_tables(given.edges),
        *((ctypes.c_uint64 * len(part))(*part) for part in (given.mu, given.nu)),
        given.parents is not None,
        given.root,
        (ctypes.c_uint32 * len(parents))(*parents),
    ]


def patches(
    salt: str, count: int = CASES // 4
) -> Iterator[Tuple[str, random.Random, Contents]]:
    """Random problems and any numbers that fit an image, with trees or without, each
    with words that name it and its generator. The edges are in any order."""
    for name, draw, problem in problems(salt, count):
        tree: Any = random_tree(draw, problem) if draw.random() < 0.5 else ()
        yield f"{name}, problem", draw, Contents(*problem, *tree)
        yield f"{name}, any numbers", draw, fitting_contents(draw)


def outcome(call: Callable[..., Any], *arguments: Any) -> Tuple[int, Any]:
    """The number that a call refuses by and no list, or 0 and what it gives."""
    try:
        return 0, call(*arguments)
    except wm.Refusal as refusal:
        return refusal.number, []


def ask(call: str, n: int, tables: List[Any], start: int, more: Any) -> Tuple[int, int]:
    """The number that a query with a reach or a painting returns, and its single
    result, which was 8. What is next to that and the tables stay as they were."""
    kind: Any = ctypes.c_uint64 if call == "vertices_within" else ctypes.c_uint32
    if isinstance(more, list):
        more = (ctypes.c_uint64 * len(more))(*more)
    lent = (kind * 3)(7, 8, 9)
    result = ctypes.byref(kind.from_buffer(lent, ctypes.sizeof(kind)))
    given = [*tables, more] if isinstance(more, ctypes.Array) else tables
    before = [bytes(table) for table in given]
    number = wm._call(f"mover_{call}", n, *tables, start, more, result)
    assert [bytes(table) for table in given] == before, "a table changed"
    assert (lent[0], lent[2]) == (7, 9), "a place next to the result changed"
    return number, lent[1]


def as_word(answer: Any) -> int:
    """A query's answer as the call gives it: a list of vertices, which is empty after a
    refusal, or a vertex or None."""
    if isinstance(answer, list):
        return sum(1 << x for x in answer)
    return 64 if answer is None else int(answer)


# What a report leaves: its number, the tally, and accepted, sum, greatest and first.
Left = Tuple[int, List[int], List[int]]


def lent_tally(places: int) -> List[int]:
    """The tally that the call is lent."""
    return list(range(9, 9 + places))


def left(number: int, sheet: Any, tally: List[int]) -> Left:
    """What a report leaves that was lent a tally."""
    if number != 0:
        return number, tally, [0, 0, 0, 0]
    results = [sheet.accepted, sheet.sum, sheet.greatest, sheet.first]
    return 0, sheet.tally + tally[24:], results


def ask_report(reel: bytes, places: int) -> Left:
    """What the call leaves; its results were 8. The reel, which is at an odd address,
    and what is next to it, to the tally and to the results stay as they were."""
    memory = bytearray(b"<" + reel + b">")
    given = (ctypes.c_uint8 * len(reel)).from_buffer(memory, 1)
    table = (ctypes.c_uint32 * (places + 2))(7, *lent_tally(places), 7)
    tally: Any = (ctypes.c_uint32 * places).from_buffer(table, 4)
    kinds: List[Any] = [ctypes.c_uint32, ctypes.c_uint64, ctypes.c_uint64]
    lent = [(kind * 3)(7, 8, 9) for kind in kinds + [ctypes.c_size_t]]
    results = [
        ctypes.byref(part._type_.from_buffer(part, ctypes.sizeof(part._type_)))
        for part in lent
    ]
    number = wm._call("mover_report", given, tally, *results)
    assert memory == b"<" + reel + b">", "the reel changed"
    assert (table[0], table[places + 1]) == (7, 7), "a place next to the tally changed"
    for part in lent:
        assert (part[0], part[2]) == (7, 9), "a place next to a result changed"
    return number, list(tally), [part[1] for part in lent]


# What a page leaves: its number, the buffer and the length.
PageLeft = Tuple[int, bytes, int]


def lent_bytes(places: int) -> bytes:
    """The buffer that the call is lent, of bytes that no page has."""
    return bytes(128 + k % 127 for k in range(places))


def page_left(number: int, page: str, lent: bytes) -> PageLeft:
    """What a page leaves that was lent a buffer; a refused page is empty."""
    new = page.encode("ascii")
    return number, new + lent[len(new) :], len(new)


def page_tables(given: PageCall) -> List[Any]:
    """What mover_write_page takes before its buffer."""
    mu, nu = ((ctypes.c_uint64 * len(part))(*part) for part in (given.mu, given.nu))
    parents = (ctypes.c_uint32 * len(given.parents))(*given.parents)
    return [given.n, *edge_tables(given.edges), mu, nu, given.root, parents]


def ask_page(tables: List[Any], places: int) -> PageLeft:
    """What the call leaves; the length was 8. The tables, and what is next to the
    length and to the buffer, which is at an odd address, stay as they were."""
    memory = bytearray(b"<" + lent_bytes(places) + b">")
    buffer: Any = (ctypes.c_uint8 * places).from_buffer(memory, 1)
    lent = (ctypes.c_size_t * 3)(7, 8, 9)
    size = ctypes.sizeof(ctypes.c_size_t)
    length = ctypes.byref(ctypes.c_size_t.from_buffer(lent, size))
    given = [table for table in tables if isinstance(table, ctypes.Array)]
    before = [bytes(table) for table in given]
    number = wm._call("mover_write_page", *tables, buffer, length)
    assert [bytes(table) for table in given] == before, "a table changed"
    assert (lent[0], lent[2]) == (7, 9), "a place next to the length changed"
    assert memory[:1] + memory[-1:] == b"<>", "a byte next to the buffer changed"
    return number, bytes(buffer), lent[1]


# ---- The marked cases

RING = [(0, 1, 1), (0, 3, 1), (1, 2, 1), (2, 3, 1)]
LINE_OF_6 = [(x, x + 1, 1) for x in range(5)]
G_PLAN = [(0, 2, 1), (1, 2, 1), (5, 2, 2), (5, 3, 2), (5, 4, 2)]
FULL = 16_777_216
GRAIN = 2.0**-24

# Weights and their amounts.
WEIGHTS = [
    (0.0, 0), (GRAIN, 1), (3 * GRAIN, 3), (2.0**-12, 4096), (0.125, FULL // 8),
    (0.5 - GRAIN, FULL // 2 - 1), (0.5, FULL // 2), (0.5 + GRAIN, FULL // 2 + 1),
    (0.75, 3 * FULL // 4), (1 - GRAIN, FULL - 1), (1.0, FULL),
]  # fmt: skip


class Case(NamedTuple):
    """A marked case with a tree; the answer of the tree, and the best cost."""

    problem: Problem
    root: int
    parents: List[int]
    imbalance: List[int]
    potential: List[int]
    cost: int
    plan: List[wm.Entry]
    best: int


# fmt: off
MARKED = {
    "A": Case(
        Problem([(0, 1, 2), (1, 2, 3), (2, 3, 1)], [5, 0, 1, 0], [0, 2, 1, 3]),
        3, [1, 2, 3, 3], [5, 3, 3, 0], [6, 4, 1, 0], 22,
        [(0, 1, 2), (0, 3, 3), (2, 2, 1)], 22,
    ),
    "B": Case(
        Problem(RING, [4, 0, 0, 0], [0, 0, 0, 4]),
        0, [0, 0, 1, 2], [0, -4, -4, -4], [0, -1, -2, -3], 12, [(0, 3, 4)], 4,
    ),
    "C": Case(
        Problem(RING, [1, 1, 1, 1], [1, 1, 1, 1]),
        0, [0, 0, 1, 2], [0, 0, 0, 0], [0, 0, 0, 0], 0,
        [(0, 0, 1), (1, 1, 1), (2, 2, 1), (3, 3, 1)], 0,
    ),
    "D": Case(
        Problem([(0, 1, 5), (0, 2, 1), (1, 2, 1)], [3, 0, 0], [0, 3, 0]),
        0, [0, 0, 0], [0, -3, 0], [0, -5, 0], 15, [(0, 1, 3)], 6,
    ),
    "E": Case(Problem([], [7], [7]), 0, [0], [0], [0], 0, [(0, 0, 7)], 0),
    "F": Case(
        Problem([(0, 1, 65_535)], [FULL, 0], [0, FULL]),
        0, [0, 0], [0, -FULL], [0, -65_535], 1_099_494_850_560, [(0, 1, FULL)],
        1_099_494_850_560,
    ),
    "G": Case(
        Problem(LINE_OF_6, [1, 1, 0, 0, 0, 6], [0, 0, 4, 2, 2, 0]),
        5, [1, 2, 3, 4, 5, 5], [1, 2, -2, -4, -6, 0], [-1, -2, -3, -2, -1, 0], 15,
        G_PLAN, 15,
    ),
    "H": Case(
        Problem(LINE_OF_6, [1, 1, 0, 0, 0, 6], [0, 0, 4, 2, 2, 0]),
        0, [0, 0, 1, 2, 3, 4], [0, -1, -2, 2, 4, 6], [0, -1, -2, -1, 0, 1], 15,
        G_PLAN, 15,
    ),
    "own potential": Case(
        Problem([(0, 1, 2), (0, 2, 1), (1, 2, 3)], [1, 0, 0], [0, 1, 0]),
        0, [0, 0, 1], [0, -1, 0], [0, -2, -2], 2, [(0, 1, 1)], 2,
    ),
    "seam": Case(
        Problem([(0, 1, 0), (0, 2, 0), (1, 2, 0), (2, 3, 5)], [3, 0, 0, 0], [0, 1, 0, 2]),
        0, [0, 0, 1, 2], [0, -3, -2, -2], [0, 0, 0, -5], 10, [(0, 1, 1), (0, 3, 2)], 10,
    ),
}
# fmt: on

# Patches to ask on: a way round that is shorter than the edge from 0 to 1, a seam after
# an edge, and a line of 64 vertices whose numbers go to and fro, from 0 to 63 to 1.
ROUND = [(0, 1, 5), (0, 2, 1), (0, 3, 3), (1, 2, 1)]
BEHIND = [(0, 1, 5), (1, 2, 0), (2, 3, 1)]
SEAM = MARKED["seam"].problem.edges
FOUR = [0, 1, 2, 3]
FAR = 65_535
TO_AND_FRO = [x // 2 if x % 2 == 0 else 63 - x // 2 for x in range(64)]
ZIGZAG = in_order([(a, b, FAR) for a, b in zip(TO_AND_FRO, TO_AND_FRO[1:])])

# n, the edges and a start, and the vertices within each reach.
WITHIN: List[Tuple[int, List[wm.Edge], int, Dict[int, List[int]]]] = [
    (1, [], 0, {0: [0], 1: [0], 2**32 - 1: [0]}),
    (4, RING, 2, {0: [2], 1: [1, 2, 3], 2: FOUR, 2**32 - 1: FOUR}),
    (4, ROUND, 0, {0: [0], 1: [0, 2], 2: [0, 1, 2], 3: FOUR, 5: FOUR}),
    (4, ROUND, 1, {0: [1], 1: [1, 2], 2: [0, 1, 2], 4: [0, 1, 2], 5: FOUR}),
    (4, SEAM, 0, {0: [0, 1, 2], 4: [0, 1, 2], 5: FOUR}),
    (4, SEAM, 3, {0: [3], 4: [3], 5: FOUR}),
    (4, BEHIND, 0, {0: [0], 4: [0], 5: [0, 1, 2], 6: FOUR}),
    (4, BEHIND, 2, {0: [1, 2], 1: [1, 2, 3], 4: [1, 2, 3], 5: FOUR}),
    (2, [(0, 1, FAR)], 1, {FAR - 1: [1], FAR: [0, 1], FAR + 1: [0, 1]}),
    (64, ZIGZAG, 0, {k * FAR: sorted(TO_AND_FRO[: k + 1]) for k in range(64)}),
    (64, ZIGZAG, 0, {k * FAR - 1: sorted(TO_AND_FRO[:k]) for k in range(1, 64)}),
    (64, ZIGZAG, 32, {k * FAR: sorted(TO_AND_FRO[63 - k :]) for k in range(64)}),
    (64, ZIGZAG, 16, {31 * FAR: sorted(TO_AND_FRO[1:]), 32 * FAR: list(range(64))}),
]

# The edges, a start and a painting, and the nearest vertex with paint.
NEAREST: List[Tuple[List[wm.Edge], int, List[int], Any]] = [
    ([], 0, [7], 0),
    ([], 0, [0], None),
    (RING, 0, [0, 0, 0, 0], None),
    (RING, 0, [0, 0, 1, 1], 3),
    (RING, 3, [0, 1, 0, 0], 1),
    # equally near
    (RING, 0, [0, 1, 0, 1], 1),
    (RING, 2, [0, 1, 0, 1000], 1),
    (RING, 3, [1, 0, FULL - 1, 0], 0),
    # the start itself
    (RING, 2, [1, 1, 1, 1], 2),
    (RING, 2, [0, 1000, 1, 1000], 2),
    (RING, 3, [FULL - 1, 0, 0, 1], 3),
    # the way round, and seams
    (ROUND, 0, [0, 1, 0, 1], 1),
    (ROUND, 1, [1, 0, 0, 1], 0),
    (SEAM, 2, [1, 1, 1, 1], 0),
    (SEAM, 2, [0, 1, 1, 1], 1),
    (SEAM, 1, [0, 0, 1, 1], 2),
    (SEAM, 3, [0, 1, 1, 0], 1),
    (SEAM, 3, [1, 1, 1, 1], 3),
    (BEHIND, 3, [0, 1, 1, 0], 1),
    (BEHIND, 3, [1, 0, 1, 0], 2),
    (ZIGZAG, 0, 64 * [0], None),
    (ZIGZAG, 0, [0] + 63 * [1], 63),
    (ZIGZAG, 0, 31 * [0] + [1, 1] + 31 * [0], 31),
    (ZIGZAG, 0, 32 * [0] + [1] + 31 * [0], 32),
    (ZIGZAG, 32, 32 * [1] + 32 * [0], 31),
    (ZIGZAG, 32, [1] + 62 * [0] + [1], 63),
]

# Case A's image, written by hand.
IMAGE_A = bytes.fromhex(
    "04 00 0300"  # n, 0 and m
    "24000000 0c000000"  # where the edges start, and how many bytes they have
    "30000000 10000000"  # mu
    "40000000 10000000"  # nu
    "50000000 05000000"  # the tree
    "00 01 0200  01 02 0300  02 03 0100"
    "05000000 00000000 01000000 00000000"
    "00000000 02000000 01000000 03000000"
    "03  01 02 03 03"
)

# What the largest image without gaps holds.
LARGEST = Contents(
    [(a, b, 1000 * a + b) for a in range(16) for b in range(a + 1, a + 33)],
    [2**32 - 1 - x for x in range(64)],
    [2**24 + x for x in range(64)],
    255,
    list(range(64, 128)),
)

# The marked cases as images, with their trees and without.
TREES = {
    name: image_of(*case.problem, case.root, case.parents)
    for name, case in MARKED.items()
}
BESTS = {name: image_of(*case.problem) for name, case in MARKED.items()}

# Images that are refused, by the number: without a tree and with one, if both can be.
TWO = [(0, 1, 1)], [1, 0], [0, 1]
THREE = [(0, 1, 1), (1, 2, 1)], [1, 0, 0], [0, 0, 1]
MANY = 513 * [(0, 1, 1)], [1, 0], [0, 1]
REFUSED: Dict[int, List[bytes]] = {
    1: [image_of([], [], []), image_of([], 65 * [0], 65 * [0], 0, 65 * [0])],
    2: [image_of(*MANY), image_of(*MANY, 0, [0, 0])],
    3: [image_of([(1, 0, 1)], [1, 0], [0, 1]), image_of([(0, 1, 1)], [1], [1], 0, [0])],
    5: [image_of([], [1, 0], [0, 1]), image_of([], [1, 0], [0, 1], 0, [0, 0])],
    6: [image_of([], [FULL + 1], [FULL + 1]), image_of([], [1], [FULL + 1], 0, [0])],
    7: [image_of([], [3], [4]), image_of([], [FULL], [0], 0, [0])],
    8: [image_of(*TWO, 0, [1, 0]), image_of(*TWO, 2, [0, 0])],
    9: [image_of(*THREE, 0, [0, 0, 0])],
    10: [image_of(*THREE, 0, [0, 2, 1])],
    11: [b"", bytes(35), IMAGE_A + bytes(65_537 - len(IMAGE_A))],
    12: [BESTS["A"][:-1], IMAGE_A[:-1]],
    13: [image_of([], [0], []), IMAGE_A[:1] + b"\x01" + IMAGE_A[2:]],
}


def far(length: int, tree: bool = False) -> bytes:
    """An image that costs 16,777,216 times a length."""
    given = [(0, 1, length)], [FULL, 0], [0, FULL]
    return image_of(*given, 1, [1, 1]) if tree else image_of(*given)


# The largest cost there is: all grains from one end of the line of 64 to the other.
ENDS = ZIGZAG, [FULL] + 63 * [0], 32 * [0] + [FULL] + 31 * [0]
UP_THE_LINE = [0, *(TO_AND_FRO[TO_AND_FRO.index(x) - 1] for x in range(1, 64))]
END_TO_END = [image_of(*ENDS), image_of(*ENDS, 0, UP_THE_LINE)]

# Images, how many of them have which number, and the sum, the greatest and the first.
SHEETS: List[Tuple[List[bytes], Dict[int, int], int, int, int]] = [
    ([], {}, 0, 0, 0),
    ([TREES["A"]], {0: 1}, 22, 22, 0),
    ([BESTS["seam"]], {0: 1}, 10, 10, 0),
    # a tree's cost, or the best
    ([TREES["B"], BESTS["B"]], {0: 2}, 16, 12, 0),
    ([BESTS["B"], TREES["B"]], {0: 2}, 16, 12, 1),
    ([BESTS["D"], TREES["B"], TREES["D"], BESTS["B"]], {0: 4}, 37, 15, 2),
    (list(TREES.values()), {0: 10}, 91 + 65_535 * FULL, 65_535 * FULL, 5),
    (list(BESTS.values()), {0: 10}, 74 + 65_535 * FULL, 65_535 * FULL, 5),
    # two or more that cost as much
    ([TREES["G"], BESTS["H"], TREES["D"]], {0: 3}, 45, 15, 0),
    ([BESTS["B"], TREES["G"], TREES["A"], TREES["D"], BESTS["A"]], {0: 5}, 78, 22, 2),
    ([TREES["A"], BESTS["B"], TREES["A"]], {0: 3}, 48, 22, 0),
    # refused ones before, between and behind
    ([b"", TREES["B"]], {0: 1, 11: 1}, 12, 12, 1),
    ([TREES["B"], b""], {0: 1, 11: 1}, 12, 12, 0),
    ([b"", REFUSED[7][0], TREES["B"], b"x"], {0: 1, 7: 1, 11: 2}, 12, 12, 2),
    ([b"", TREES["B"], REFUSED[9][0], TREES["B"]], {0: 2, 9: 1, 11: 1}, 24, 12, 1),
    ([BESTS["B"], REFUSED[2][0], TREES["A"]], {0: 2, 2: 1}, 26, 22, 2),
    ([TREES["A"], REFUSED[12][1], BESTS["B"]], {0: 2, 12: 1}, 26, 22, 0),
    # none that costs anything
    ([BESTS["E"], TREES["C"]], {0: 2}, 0, 0, 0),
    ([REFUSED[7][0], TREES["C"], BESTS["E"]], {0: 2, 7: 1}, 0, 0, 1),
    ([b"", b"", BESTS["E"]], {0: 1, 11: 2}, 0, 0, 2),
    ([BESTS["E"], TREES["own potential"], BESTS["C"]], {0: 3}, 2, 2, 1),
    # none that is accepted
    ([b""], {11: 1}, 0, 0, 1),
    ([REFUSED[13][0], REFUSED[8][0], REFUSED[1][0]], {1: 1, 8: 1, 13: 1}, 0, 0, 3),
    # beyond 32 bits
    (2 * [far(128)], {0: 2}, 2**32, 2**31, 0),
    ([far(128), TREES["A"], far(128, True)], {0: 3}, 2**32 + 22, 2**31, 0),
    ([TREES["A"], far(256), BESTS["B"]], {0: 3}, 2**32 + 26, 2**32, 1),
    ([far(257), far(255)], {0: 2}, 2**33, 2**32 + 2**24, 0),
    ([far(256), far(512, True), far(768)], {0: 3}, 3 * 2**33, 3 * 2**32, 2),
    ([far(FAR), *END_TO_END, far(FAR)], {0: 4}, 128 * FAR * FULL, 63 * FAR * FULL, 1),
    # as large as an image may be, and larger
    (
        [IMAGE_A.ljust(size, b"x") for size in (65_535, 65_536, 65_537, 131_072)],
        {0: 2, 11: 2}, 44, 22, 0,
    ),
    # every number
    *(
        ([image, TREES["B"]], {0: 1, number: 1}, 12, 12, 1)
        for number, images in REFUSED.items() for image in images
    ),
    (
        sum(REFUSED.values(), []) + [BESTS["B"], TREES["B"], BESTS["B"]],
        {0: 3, **{number: len(images) for number, images in REFUSED.items()}},
        20, 12, sum(map(len, REFUSED.values())) + 1,
    ),
]  # fmt: skip
LONG_SHEETS: List[Tuple[List[bytes], Dict[int, int], int, int, int]] = [
    (255 * [b""] + [TREES["B"]], {0: 1, 11: 255}, 12, 12, 255),
    (256 * [b""] + [TREES["B"]], {0: 1, 11: 256}, 12, 12, 256),
    (300 * [BESTS["B"]] + [TREES["B"]], {0: 301}, 1212, 12, 300),
    (65_535 * [b""], {11: 65_535}, 0, 0, 65_535),
    (65_534 * [b""] + [BESTS["E"]], {0: 1, 11: 65_534}, 0, 0, 65_534),
    (65_535 * [TREES["F"]], {0: 65_535}, 65_535**2 * FULL, 65_535 * FULL, 0),
]


def reels_of(images: List[bytes]) -> List[bytes]:
    """The images back to back, with gaps, with a tail, and behind a large gap."""
    count = len(images)
    forms = [
        (count + 1) * [b""],
        (count + 1) * [b"gap"],
        count * [b""] + [b"a tail"],
        [bytes(65_536)] + count * [b""],
    ]
    return [reel_of(images, gaps) for gaps in forms]


# A tree of two branches, and its page written by hand. The edge from 5 to 0 carries
# nothing.
BRANCHES = Problem(
    [(0, 2, 10), (0, 5, 65_535), (1, 4, 200), (2, 4, 7), (3, 4, 30), (5, 6, 4)],
    [0, 0, 1, 120, 0, 0, 5],
    [12, 100, 1, 0, 8, 5, 0],
)
UP_THE_BRANCHES = [2, 4, 2, 4, 2, 0, 5]
PAGE = (
    "02                                                                  "
    "          0          0     \n"
    " 00                                                                 "
    "        -12        -10     \n"
    "  05                                                                "
    "          0        -10     \n"
    "   06                                                               "
    "          5         -6     \n"
    " 04                                                                 "
    "         12          7     \n"
    "  01                                                                "
    "       -100       -193     \n"
    "  03                                                                "
    "        120         37     \n"
)

# The marked cases' vertices in the order of their pages, with their depths.
ORDERS = {
    "A": [(3, 0), (2, 1), (1, 2), (0, 3)],
    "B": [(0, 0), (1, 1), (2, 2), (3, 3)],
    "C": [(0, 0), (1, 1), (2, 2), (3, 3)],
    "D": [(0, 0), (1, 1), (2, 1)],
    "E": [(0, 0)],
    "F": [(0, 0), (1, 1)],
    "G": [(5, 0), (4, 1), (3, 2), (2, 3), (1, 4), (0, 5)],
    "H": [(0, 0), (1, 1), (2, 2), (3, 3), (4, 4), (5, 5)],
    "own potential": [(0, 0), (1, 1), (2, 2)],
    "seam": [(0, 0), (1, 1), (2, 2), (3, 3)],
}


def printed(lines: Iterable[Tuple[int, int, int, int]]) -> str:
    """A page from the number, depth, imbalance and potential of each line."""
    return "".join(
        "%-68s%11d%11d     \n" % (depth * " " + "%02d" % x, imbalance, potential)
        for x, depth, imbalance, potential in lines
    )


# Vertex 0 gives each other one a grain, along a path of 64 and in a star; in another
# star the last gets a grain of each.
ONE_EACH = [63] + 63 * [0], [0] + 63 * [1]
PATH_OF_64 = Problem([(x, x + 1, 3) for x in range(63)], *ONE_EACH)
STAR = Problem([(0, x, x) for x in range(1, 64)], *ONE_EACH)
TO_THE_LAST = Problem([(x, 63, 1) for x in range(63)], 63 * [1] + [0], 63 * [0] + [63])

# Problems, roots, parents and pages.
PAGES: List[Tuple[Problem, int, List[int], str]] = [
    (BRANCHES, 2, UP_THE_BRANCHES, PAGE),
    (Problem([], [7], [7]), 0, [0], "00" + 76 * " " + "0" + 10 * " " + "0     \n"),
    *(
        (
            case.problem, case.root, case.parents,
            printed(
                (x, depth, case.imbalance[x], case.potential[x])
                for x, depth in ORDERS[name]
            ),
        )
        for name, case in MARKED.items()
    ),
    (
        PATH_OF_64, 0, [0, *range(63)],
        printed((x, x, x - 64 if x > 0 else 0, -3 * x) for x in range(64)),
    ),
    (
        PATH_OF_64, 63, [*range(1, 64), 63],
        printed((63 - k, k, k, 3 * k) for k in range(64)),
    ),
    (
        PATH_OF_64, 32, [*range(1, 33), 32, *range(32, 63)],
        printed([
            (32, 0, 0, 0),
            *((32 - k, k, 31 + k, 3 * k) for k in range(1, 33)),
            *((32 + k, k, k - 32, -3 * k) for k in range(1, 32)),
        ]),
    ),
    (STAR, 0, 64 * [0], printed((x, min(x, 1), -min(x, 1), -x) for x in range(64))),
    (
        STAR, 5, [5, 0, 0, 0, 0, 5] + 58 * [0],
        printed([
            (5, 0, 0, 0),
            (0, 1, 1, 5),
            *((x, 2, -1, 5 - x) for x in range(1, 64) if x != 5),
        ]),
    ),
    (
        TO_THE_LAST, 63, 64 * [63],
        printed([(63, 0, 0, 0), *((x, 1, 1, 1) for x in range(63))]),
    ),
    # the largest figures, of both signs
    (
        Problem(*ENDS), 0, UP_THE_LINE,
        printed((x, k, -FULL * (k > 0), -k * FAR) for k, x in enumerate(TO_AND_FRO)),
    ),
    (
        Problem(ENDS[0], ENDS[2], ENDS[1]), 0, UP_THE_LINE,
        printed((x, k, FULL * (k > 0), k * FAR) for k, x in enumerate(TO_AND_FRO)),
    ),
]  # fmt: skip


class MarkedCases(unittest.TestCase):
    """Cases A to H and two more through each call."""

    def test_evaluate(self) -> None:
        for name, case in MARKED.items():
            with self.subTest(name):
                got = wm.evaluate(*case.problem, case.root, case.parents)
                self.assertEqual(got.imbalance, case.imbalance)
                self.assertEqual(got.potential, case.potential)
                self.assertEqual(got.cost, case.cost)
                self.assertEqual(got.plan, case.plan)
                self.assertEqual(entries(got.table), case.plan)
                self.assertEqual(got.moves, sum(1 for i, j, _ in case.plan if i != j))
                self.assertEqual((got.root, got.parents), (case.root, case.parents))

    def test_is_optimal(self) -> None:
        for name, case in MARKED.items():
            with self.subTest(name):
                judged = wm.is_optimal(*case.problem, case.root, case.parents)
                self.assertIs(judged, case.cost == case.best)

    def test_solve(self) -> None:
        for name, case in MARKED.items():
            with self.subTest(name):
                best = wm.solve(*case.problem)
                self.assertEqual(best.cost, case.best)
                apart = wm.distances(case.problem.n, case.problem.edges)
                self.assertEqual(faults(case.problem, best, apart), [])
                self.assertTrue(wm.is_optimal(*case.problem, 0, best.parents))

    def test_run(self) -> None:
        for name, case in MARKED.items():
            with self.subTest(name):
                got = wm.run(wm.write(*case.problem, case.root, case.parents))
                wanted = wm.evaluate(*case.problem, case.root, case.parents)
                for part in dataclasses.fields(wm.Answer):
                    self.assertEqual(
                        getattr(got, part.name), getattr(wanted, part.name)
                    )
                best = wm.run(wm.write(*case.problem))
                self.assertEqual(best.cost, case.best)
                apart = wm.distances(case.problem.n, case.problem.edges)
                self.assertEqual(faults(case.problem, best, apart), [])

    def test_read(self) -> None:
        for name, case in MARKED.items():
            with self.subTest(name):
                image = wm.write(*case.problem, case.root, case.parents)
                whole = wm.Patch(case.problem.n, *case.problem, case.root, case.parents)
                self.assertEqual(wm.read(image), whole)
                without = dataclasses.replace(whole, root=0, parents=None)
                self.assertEqual(wm.read(wm.write(*case.problem)), without)

    def test_write_image(self) -> None:
        for name, case in MARKED.items():
            trees: List[Any] = [(case.root, case.parents), ()]
            for tree in trees:
                with self.subTest(name, tree=tree):
                    image = wm.write(*case.problem, *tree)
                    self.assertEqual(image, image_of(*case.problem, *tree))
                    self.assertIs(type(image), bytes)
        case = MARKED["A"]
        self.assertEqual(wm.write(*case.problem, case.root, case.parents), IMAGE_A)
        without = IMAGE_A[:32] + bytes(4) + IMAGE_A[36:80]
        self.assertEqual(wm.write(*case.problem), without)

    def test_rewrite(self) -> None:
        """Gaps in each place: none, one byte, and all that an image may have."""
        for name, case in MARKED.items():
            trees: List[Any] = [(case.root, case.parents), ()]
            for tree in trees:
                image = image_of(*case.problem, *tree)
                most = b"\xa5" * (65_536 - len(image))
                forms = [image, with_gaps(image, 5 * [b"gap"])]
                for place in range(5):
                    for gap in (b"\x00", b"\xff", most):
                        gaps = 5 * [b""]
                        gaps[place] = gap
                        forms.append(with_gaps(image, gaps))
                with self.subTest(name, tree=tree):
                    for form in forms:
                        self.assertEqual(wm.rewrite(form), image)
                    self.assertEqual(len(forms[-1]), 65_536)
                    self.assertIs(type(wm.rewrite(forms[-1])), bytes)

    def test_distances(self) -> None:
        wanted = {
            "A": [[0, 2, 5, 6], [2, 0, 3, 4], [5, 3, 0, 1], [6, 4, 1, 0]],
            "B": [[0, 1, 2, 1], [1, 0, 1, 2], [2, 1, 0, 1], [1, 2, 1, 0]],
            "D": [[0, 2, 1], [2, 0, 1], [1, 1, 0]],
            "E": [[0]],
            "F": [[0, 65_535], [65_535, 0]],
            "G": [[abs(i - j) for j in range(6)] for i in range(6)],
            "seam": [[0, 0, 0, 5], [0, 0, 0, 5], [0, 0, 0, 5], [5, 5, 5, 0]],
        }
        for name, table in wanted.items():
            n, edges = MARKED[name].problem.n, MARKED[name].problem.edges
            self.assertEqual(wm.distances(n, edges), table)
            self.assertEqual(wm.distances_of_records(n, edges), table)

    def test_tree(self) -> None:
        tree = wm.Tree(MARKED["A"].root, MARKED["A"].parents)
        self.assertEqual((tree.n, tree.root, tree.parents), (4, 3, [1, 2, 3, 3]))
        self.assertEqual([tree.depth(v) for v in range(6)], [3, 2, 1, 0, 0, 0])
        self.assertEqual([tree.parent(v) for v in range(6)], [1, 2, 3, 3, 64, 64])
        self.assertEqual([tree.subtree(v) for v in range(6)], [1, 3, 7, 15, 0, 0])
        self.assertEqual(tree.below(2), [0, 1, 2])
        self.assertEqual(wm.solve(*MARKED["B"].problem).tree.root, 0)
        self.assertEqual(tree, wm.Tree(3, (1, 2, 3, 3)))
        self.assertNotEqual(tree, wm.Tree(0, [0, 0, 1, 2]))
        for wrong in (wm.Tree(0, []), wm.Tree(0, 65 * [0]), wm.Tree(1, [0, 0])):
            figures = wrong.depth(1), wrong.parent(1), wrong.subtree(1)
            self.assertEqual(figures, (0, 64, 0))

    def test_mark_ancestors(self) -> None:
        given = 4, 3, MARKED["A"].parents
        full = 2**64 - 1
        lent = [8, 0, full, 4, 6]
        climbs = {
            0: [9, 1, full, 5, 6],
            1: [8, 2, full, 6, 6],
            2: [8, 0, full, 4, 6],
            3: [8, 0, full, 12, 6],
        }
        for y in (0, 1, 2, 3, 4, 5, 64, 65, full):
            self.assertEqual(wm.mark_ancestors(*given, y, lent), climbs.get(y, lent))
        self.assertEqual(lent, [8, 0, full, 4, 6])
        line = [max(x - 1, 0) for x in range(64)]
        self.assertEqual(wm.mark_ancestors(64, 0, line, 63, 64 * [0]), 64 * [2**63])
        for name, case in MARKED.items():
            with self.subTest(name):
                n, tree = case.problem.n, wm.Tree(case.root, case.parents)
                masks = [0] * n
                for y in reversed(range(n)):
                    masks = wm.mark_ancestors(n, case.root, case.parents, y, masks)
                self.assertEqual(masks, [tree.subtree(x) for x in range(n)])

    def test_vertices_within(self) -> None:
        for n, edges, start, reached in WITHIN:
            for reach, wanted in reached.items():
                given = edges, start, reach
                self.assertEqual(wm.vertices_within(n, *given), wanted, given)
                got = ask("vertices_within", n, edge_tables(edges), start, reach)
                self.assertEqual(got, (0, as_word(wanted)), given)

    def test_nearest_vertex(self) -> None:
        for edges, start, painting, wanted in NEAREST:
            given = edges, start, painting
            found = wm.nearest_vertex(*given)
            self.assertEqual((type(found), found), (type(wanted), wanted), given)
            weights = [x * GRAIN if x > 0 else -0.0 for x in painting]
            self.assertEqual(wm.nearest_vertex(edges, start, weights), wanted, given)
            more = edge_tables(edges), start, painting
            got = ask("nearest_vertex", len(painting), *more)
            self.assertEqual(got, (0, as_word(wanted)), given)

    def test_to_amounts(self) -> None:
        for weight, amount in WEIGHTS + [(-0.0, 0), (0, 0), (1, FULL), (True, FULL)]:
            for n in (1, 2, 64, 65, 1000):
                got = wm.to_amounts(n * [weight])
                self.assertEqual(got, n * [amount])
                self.assertEqual({type(number) for number in got}, {int})
        quarters: List[Any] = [Fraction(3, 4), 0.25, 0, 1.0]
        self.assertEqual(wm.to_amounts(quarters), [3 * FULL // 4, FULL // 4, 0, FULL])
        self.assertEqual(wm.to_amounts([]), [])

    def test_to_weights(self) -> None:
        for weight, amount in WEIGHTS:
            for n in (1, 2, 64, 65, 1000):
                got = wm.to_weights(n * [amount])
                self.assertEqual(got, n * [weight])
                self.assertEqual({type(number) for number in got}, {float})
        self.assertEqual(math.copysign(1, wm.to_weights([0])[0]), 1)
        self.assertEqual(wm.to_weights([True, 3]), [GRAIN, 3 * GRAIN])
        self.assertEqual(wm.to_weights([]), [])

    def test_report(self) -> None:
        for images, numbers, *costs in SHEETS + LONG_SHEETS:
            name = f"{len(images)} images, {numbers}, {costs}"
            tally = [numbers.get(k, 0) for k in range(24)]
            wanted = wm.Report(tally[0], tally, *costs)
            for reel in reels_of(images) if len(images) < 256 else [reel_of(images)]:
                got = wm.report(reel)
                self.assertEqual(got, wanted, name)
                refused = {k: numbers[k] for k in numbers if k > 0}
                self.assertEqual(got.refused, refused, name)
                kinds = {*map(type, got.tally), *map(type, vars(got).values())}
                self.assertEqual(kinds, {int, list}, name)
                for places in (24, 30):
                    lent = lent_tally(places)
                    found = ask_report(reel, places)
                    self.assertEqual(found, left(0, wanted, lent), name)

    def test_report_of_each(self) -> None:
        """The sheet of one image has the cost that the case has."""
        for name, case in MARKED.items():
            images = ((TREES[name], case.cost), (BESTS[name], case.best))
            for image, cost in images:
                sheet = wm.report(wm.pack([image]))
                self.assertEqual((sheet.accepted, sheet.sum), (1, cost), name)
                self.assertEqual(answer_to(image), (0, cost), name)

    def test_images_with_a_gap_behind(self) -> None:
        """An image ends where its length says, whatever the next byte is."""
        gaps = [b"", IMAGE_A[-1:], b""]
        sheet = wm.report(reel_of([IMAGE_A[:-1], TREES["B"]], gaps))
        self.assertEqual((sheet.refused, sheet.sum), ({12: 1}, 12))
        gaps = [IMAGE_A[:1], b"", b""]
        sheet = wm.report(reel_of([IMAGE_A[1:], TREES["B"]], gaps))
        self.assertEqual((sheet.accepted, sheet.first), (1, 1))
        gaps = [b"", IMAGE_A, IMAGE_A]
        sheet = wm.report(reel_of([b"", b""], gaps))
        self.assertEqual((sheet.refused, sheet.first), ({11: 2}, 2))

    def test_pack(self) -> None:
        small = wm.pack([b"", b"an", b"image"])
        by_hand = (
            "0300"  # the count
            "1a000000 00000000  1a000000 02000000  1c000000 05000000"  # the directory
            "616e 696d616765"
        )
        self.assertEqual(small, bytes.fromhex(by_hand))
        self.assertEqual(wm.pack([]), b"\x00\x00")
        for images, *_ in SHEETS + LONG_SHEETS:
            reel = wm.pack(images)
            self.assertIs(type(reel), bytes)
            self.assertEqual(reel, reel_of(images))
            self.assertEqual(images_of(reel), images)

    def test_write_page(self) -> None:
        for problem, root, parents, wanted in PAGES:
            name, size = (problem, root, parents), 96 * problem.n
            page = wm.write_page(*problem, root, parents)
            self.assertEqual(page, wanted, name)
            self.assertIs(type(page), str)
            weights = [[x * GRAIN for x in part] for part in (problem.mu, problem.nu)]
            again = wm.write_page(problem.edges[::-1], *weights, root, parents)
            self.assertEqual(again, wanted, name)
            for places in (size, size + 1, size + 96, 10_000):
                given = PageCall(problem.n, *problem, root, parents, places)
                found = ask_page(page_tables(given), places)
                self.assertEqual(found, page_left(0, wanted, lent_bytes(places)), name)

    def test_figures_of_pages(self) -> None:
        """The pages by hand have the figures there are at most."""
        lines = [line for *_, page in PAGES for line in page.splitlines()]
        for start, end, most in ((68, 79, FULL), (79, 90, 63 * FAR)):
            figures = [int(line[start:end]) for line in lines]
            self.assertEqual((min(figures), max(figures)), (-most, most))
        self.assertEqual(max(len(line) - len(line.lstrip()) for line in lines), 63)


# ---- Refusals

PATH = [(0, 1, 1), (1, 2, 1)]
NAN, INFINITY = float("nan"), float("inf")

# Weights that are refused: 32-bit floats, and then numbers between these or beyond.
BEYOND: List[Any] = [
    single(0x8000_0001), -GRAIN, -1.0, -INFINITY, single(0x3F80_0001), 2.0,
    single(0x7F7F_FFFF), INFINITY, NAN, single(0xFFC0_0000), -1, 2,
    -5e-324, -1e-60, 1.0000000001, 1 + 2**-52, 1e39, -1e300, 10**30 + 1, 10**400,
    -(10**400), Fraction(-1, 10**400), Fraction(10**40 + 1, 10**40), Fraction(10**400),
]  # fmt: skip
BETWEEN: List[Any] = [
    single(1), single(0x007F_FFFF), single(0x0080_0000), GRAIN / 2, 1.5 * GRAIN,
    single(0x337F_FFFF), single(0x3380_0001), single(0x3DCC_CCCD), single(0x3EFF_FFFF),
    5e-324, 1e-60, 0.1, 0.7, GRAIN + 2**-76, 0.5 + 2**-53, 1 - 2**-53, Fraction(1, 3),
    Fraction(10**400 - 1, 10**400),
]  # fmt: skip


class Refusals(unittest.TestCase):
    """Every number, by the example of its check and by others."""

    def refused(self, number: int, call: Callable[..., Any], *arguments: Any) -> None:
        with self.assertRaises(wm.Refusal) as caught:
            call(*arguments)
        self.assertEqual(caught.exception.number, number, (call, arguments))

    def by_all(self, number: int, edges: Any, mu: Any, nu: Any, *tree: Any) -> None:
        """Refused by all calls that look so far; without a tree, one that would do.
        The writer looks at 1 alone of these."""
        given = tree or (0, [max(x - 1, 0) for x in range(len(mu))])
        self.refused(number, wm.evaluate, edges, mu, nu, *given)
        self.refused(number, wm.is_optimal, edges, mu, nu, *given)
        self.refused(number, wm.write_page, edges, mu, nu, *given)
        image = image_of(in_order(edges), mu, nu, *given)
        without = image_of(in_order(edges), mu, nu)
        self.refused(number, wm.run, image)
        if tree:
            wm.solve(edges, mu, nu)
            wm.run(without)
        else:
            self.refused(number, wm.solve, edges, mu, nu)
            self.refused(number, wm.run, without)
        if number == 1:
            self.refused(1, wm.write, edges, mu, nu)
            self.refused(1, wm.write, edges, mu, nu, *given)
        else:
            self.assertEqual(wm.write(edges, mu, nu), without)
            self.assertEqual(wm.write(edges, mu, nu, *given), image)
        if number <= 5:
            self.refused(number, wm.distances, len(mu), edges)
            self.refused(number, wm.distances_of_records, len(mu), edges)
            for start in (0, len(mu), 2**64 - 1):
                self.refused(number, wm.vertices_within, len(mu), edges, start, 1)
                self.refused(number, wm.nearest_vertex, edges, start, mu)
        else:
            wm.distances(len(mu), edges)
            wm.vertices_within(len(mu), edges, 0, 1)
        if number > 6:
            wm.nearest_vertex(edges, 0, mu)

    def test_1_vertex_count(self) -> None:
        self.by_all(1, [], [], [])
        self.by_all(1, [], 65 * [0], 65 * [0])
        self.refused(1, wm.distances, 2**64 - 1, [])
        self.refused(1, wm.solve, [], 10_000 * [0], [])
        for n in (0, 65, 66, 128, 255):
            for call in (wm.run, wm.read, wm.rewrite):
                self.refused(1, call, image_of([], n * [0], n * [0]))
                self.refused(1, call, image_of([], n * [0], n * [0], 0, n * [0]))
            self.refused(1, wm.write, [], n * [0], n * [0])
        for n in (256, 257, 320, 65_537):
            self.refused(1, wm.write, [], n * [0], n * [0])
        for n in (1, 64):
            self.assertEqual(wm.read(wm.write([], n * [0], n * [0])).n, n)

    def test_2_table_size(self) -> None:
        self.refused(2, wm.solve, PATH, [1, 0, 0], [0, 1])
        self.refused(2, wm.solve, PATH, [1, 0], [0, 0, 1])
        for call in (wm.evaluate, wm.is_optimal, wm.write_page):
            self.refused(2, call, PATH, [1, 0, 0], [0, 1], 0, [0, 0, 1])
            self.refused(2, call, PATH, [1, 0, 0], [0, 0, 1], 0, [0, 0])
            self.refused(2, call, PATH, [1, 0, 0], [0, 0, 1], 0, [0, 0, 1, 2])
        every = [(a, b, 1) for b in range(33) for a in range(b)]
        self.assertEqual(len(wm.distances(33, every[:512])), 33)
        self.refused(2, wm.distances, 33, every[:513])
        self.refused(2, wm.distances_of_records, 33, every[:513])
        self.refused(2, wm.solve, every[:513], 33 * [0], 33 * [0])
        paintings = 33 * [0], 33 * [0]
        self.refused(2, wm.write_page, every[:513], *paintings, 0, 33 * [0])
        page = wm.write_page(every[:512], *paintings, 0, 33 * [0])
        self.assertEqual(len(page), 96 * 33)
        for m in (513, 514, 528):
            for call in (wm.run, wm.read, wm.rewrite):
                self.refused(2, call, image_of(every[:m], *paintings))
            self.refused(2, wm.write, every[:m], *paintings)
        self.refused(2, wm.write, 65_537 * [(0, 1, 1)], *paintings)
        whole = wm.write(every[:512], *paintings)
        self.assertEqual(wm.read(whole).edges, sorted(every[:512]))

    def test_2_lists_to_write(self) -> None:
        for n in (1, 2, 63, 64):
            for other in (0, n - 1, n + 1, 65):
                self.refused(2, wm.write, [], n * [0], other * [0])
                self.refused(2, wm.write, [], n * [0], n * [0], 0, other * [0])

    def test_3_edges(self) -> None:
        for edges in ([(0, 2, 1)], [(1, 1, 1)], [(0, 1, 1), (1, 0, 2)]):
            self.by_all(3, edges, [1, 0], [0, 1])
        image = bytearray(wm.write([(0, 1, 1)], [1, 0], [0, 1]))
        image[36:38] = 1, 0  # the module turns edges round, so in an image alone
        self.refused(3, wm.run, image)
        self.assertEqual(wm.read(image).edges, [(1, 0, 1)])
        self.assertEqual(wm.rewrite(image), image)

    def test_4_lengths(self) -> None:
        long = [(0, 1, 65_536)], [1, 0], [0, 1]
        self.refused(4, wm.solve, *long)
        self.refused(4, wm.evaluate, *long, 0, [0, 0])
        self.refused(4, wm.is_optimal, *long, 0, [0, 0])
        self.refused(4, wm.write_page, *long, 0, [0, 0])
        self.refused(4, wm.distances_of_records, 2, long[0])
        self.refused(13, wm.write, *long)  # an image has two bytes for a length
        self.assertEqual(wm.solve([(0, 1, 65_535)], [1, 0], [0, 1]).cost, 65_535)
        self.assertEqual(wm.solve([(0, 1, 0)], [1, 0], [0, 1]).cost, 0)
        self.refused(4, wm.distances, 2, [(0, 1, 2**32 - 1)])

    def test_5_connected(self) -> None:
        self.by_all(5, [(0, 1, 1)], [1, 0, 0], [0, 1, 0])

    def test_6_total(self) -> None:
        self.by_all(6, [], [FULL + 1], [FULL + 1])
        self.by_all(6, [(0, 1, 1)], [0, 0], [FULL, 1])
        self.refused(6, wm.solve, [(0, 1, 1)], [2**64 - 1, 2], [1, 0])
        above = [FULL + 1, 0], [1, FULL], [2**32, 0], [2, 2**64 - 1], [2**63, 2**63]
        for painting in above:
            self.refused(6, wm.nearest_vertex, [(0, 1, 1)], 0, painting)
            self.refused(6, wm.nearest_vertex, [(0, 1, 1)], 2, painting)
        self.refused(6, wm.nearest_vertex, [(0, 1, 1)], 0, [1.0, GRAIN])
        self.assertEqual(wm.nearest_vertex([(0, 1, 1)], 0, [0, FULL]), 1)
        case_f = MARKED["F"].problem
        self.by_all(6, case_f.edges, [FULL + 1, 0], [0, FULL + 1])

    def test_7_totals(self) -> None:
        self.by_all(7, [], [3], [4])

    def test_8_parents(self) -> None:
        two = [(0, 1, 1)], [1, 0], [0, 1]
        for root, parents in (
            (0, [1, 0]), (2, [0, 0]), (0, [0, 2]), (0, [0, 1]), (1, [0, 0])
        ):  # fmt: skip
            self.by_all(8, *two, root, parents)
        self.refused(8, wm.evaluate, *two, 2**64 - 1, [0, 2**32 - 1])
        self.refused(8, wm.write_page, *two, 2**64 - 1, [0, 2**32 - 1])

    def test_9_tree_edges(self) -> None:
        self.by_all(9, PATH, [1, 0, 0], [0, 0, 1], 0, [0, 0, 0])

    def test_10_chains(self) -> None:
        self.by_all(10, PATH, [1, 0, 0], [0, 0, 1], 0, [0, 2, 1])

    def test_11_image_size(self) -> None:
        image = wm.write(*MARKED["A"].problem)
        for call in (wm.run, wm.read, wm.rewrite):
            for wrong in (b"", bytes(35), image + bytes(65_537 - len(image))):
                self.refused(11, call, wrong)
            call(image + bytes(65_536 - len(image)))

    def test_12_section_places(self) -> None:
        image = wm.write(*MARKED["A"].problem, 3, [1, 2, 3, 3])
        changes = [(4, 35), (12, 47), (12, 2**32 - 1), (28, len(image)), (36, None)]
        for call in (wm.run, wm.read, wm.rewrite):
            for place, value in changes:
                wrong = bytearray(image[: -1 if value is None else None])
                if value is not None:
                    struct.pack_into("<I", wrong, place, value)
                self.refused(12, call, wrong)

    def test_13_section_lengths(self) -> None:
        image = wm.write([(0, 1, 1)], [1, 0], [0, 1])
        for call in (wm.run, wm.read, wm.rewrite):
            wrong = bytearray(image)
            wrong[1] = 1
            self.refused(13, call, wrong)
            wrong = bytearray(image)
            struct.pack_into("<I", wrong, 16, 4)  # mu of 4 bytes
            self.refused(13, call, wrong)
            for other in ([], [1], [0, 1, 0]):
                self.refused(13, call, image_of([(0, 1, 1)], [1, 0], other))
                short = image_of([(0, 1, 1)], [1, 0], [0, 1], 0, other)
                self.refused(13, call, short)

    def test_13_numbers(self) -> None:
        """Both sides of each bound, at the first place, the last and one between; by
        the call too, since the module puts the lower end first."""
        u32, u64 = 2**32 - 1, 2**64 - 1
        bounds: Dict[str, Tuple[int, int]] = {
            "a": (255, u32), "b": (255, u32), "lengths": (65_535, u32),
            "mu": (u32, u64), "nu": (u32, u64),
            "root": (255, u64), "parents": (255, u32),
        }  # fmt: skip
        for part, (limit, largest) in bounds.items():
            for place in (0, 2, -1):
                for x in (limit, limit + 1, limit + 2, 2 * limit + 2, largest):
                    lists = {name: [3, 1, 4, 1, 5] for name in bounds}
                    lists[part][0 if part == "root" else place] = x
                    edges = list(zip(lists["a"], lists["b"], lists["lengths"]))
                    root, parents = lists["root"][0], lists["parents"]
                    given = Contents(edges, lists["mu"], lists["nu"], root, parents)
                    call = "mover_write_image", *as_tables(given)
                    if x > limit:
                        self.refused(13, wm.write, *given)
                        self.filled(13, b"", 1000, *call)
                    else:
                        wanted = image_of(in_order(edges), *given[1:])
                        self.assertEqual(wm.write(*given), wanted)
                        self.filled(0, image_of(*given), 1000, *call)

    def test_order(self) -> None:
        """The first check that fails gives the number."""
        for call in (wm.evaluate, wm.write_page):
            self.refused(1, call, [(0, 0, 0)], [], [3], 9, [])
            self.refused(2, call, [(0, 0, 0)], [1], [3, 4], 9, [5])
            self.refused(3, call, [(0, 0, 0)], [1], [3], 9, [5])
            self.refused(4, call, [(0, 1, 65_536)], [FULL, 1, 0], 3 * [0], 9, 3 * [5])
            self.refused(5, call, [(0, 1, 1)], [FULL, 1, 0], 3 * [0], 9, 3 * [5])
            self.refused(6, call, PATH, [FULL, 1, 0], 3 * [0], 9, 3 * [5])
            self.refused(7, call, PATH, [FULL, 0, 0], 3 * [0], 9, 3 * [5])
            self.refused(8, call, PATH, 3 * [0], 3 * [0], 9, 3 * [5])
            self.refused(9, call, PATH, 3 * [0], 3 * [0], 0, [0, 2, 0])

    def test_order_of_writing(self) -> None:
        """1, 2 and 13 in this order. Without parents the root is not looked at."""
        wide, long = 513 * [(0, 256, 65_536)], [(0, 1, 65_536)]
        refused: List[Tuple[Any, ...]] = [
            (1, [], [], [0]),
            (1, wide, [], []),
            (1, long, 65 * [2**32], 65 * [0]),
            (1, long, 65 * [0], [2**32], 256, [256]),
            (2, wide, [0], [0]),
            (2, long, [0], []),
            (2, [], [2**32], [0, 0]),
            (2, [], [0, 0], [2**32]),
            (2, [], [0], [0], 256, []),
            (2, [], [0], [0], 0, [256, 0]),
            (2, long, [2**32], [0], 256, [256, 256]),
            (13, long, [0], [0]),
            (13, [], [0], [0], 256, [0]),
        ]
        for number, *given in refused:
            self.refused(number, wm.write, *given)
        problem = MARKED["A"].problem
        roots: List[Any] = [3, 255, 256, 2**64 - 1, 2**64, -1, 0.5, None, "root"]
        for root in roots:
            self.assertEqual(wm.write(*problem, root), wm.write(*problem))
            self.assertEqual(wm.write(*problem, root, None), wm.write(*problem))

    def filled(self, number: int, new: bytes, places: int, *call: Any) -> None:
        """A call into a lent buffer: its first bytes are new, and nothing else changes,
        in the buffer or next to it. The length is that of the new bytes."""
        memory = bytearray(k % 251 for k in range(places + 16))
        wanted = memory[:5] + new + memory[5 + len(new) :]
        length = ctypes.c_size_t(99)
        lent: Any = (ctypes.c_uint8 * places).from_buffer(memory, 5)
        got = wm._call(*call, lent, ctypes.byref(length))
        self.assertEqual((got, length.value), (number, len(new)), call)
        self.assertEqual(memory, wanted, call)

    def test_lent_buffers(self) -> None:
        """A buffer that is too short by one byte or more is refused by 2."""
        case = MARKED["A"]
        for given in (
            Contents(*case.problem),
            Contents(*case.problem, case.root, case.parents),
            Contents([], [7], [7]),
            LARGEST,
        ):
            image = image_of(*given)
            spaced, size = with_gaps(image, 5 * [b"gap"]), len(image)
            calls: List[Any] = [
                ("mover_write_image", *as_tables(given)),
                ("mover_rewrite", (ctypes.c_uint8 * len(spaced))(*spaced)),
            ]
            for call in calls:
                for places in (size, size + 1, 2 * size, 65_536):
                    self.filled(0, image, places, *call)
                for places in (0, 1, 35, 36, size - 5, size - 1):
                    self.filled(2, b"", places, *call)

    def test_largest_image(self) -> None:
        """The module's own buffers are long enough."""
        image = image_of(*LARGEST)
        self.assertEqual(len(image), wm._WRITTEN_MAX)
        self.assertEqual(wm.write(*LARGEST), image)
        for tail in (0, 1, 1000, 65_536 - len(image)):
            self.assertEqual(wm.rewrite(image + bytes(tail)), image)

    def test_kept_buffers(self) -> None:
        """A refused buffer keeps its bytes, whatever the number, and 2 is before 13."""
        wide = Contents([(0, 1, 1)], [0, 2**32], [0, 0], 0, [0, 0])
        for places in (59, 60, 1000):
            self.filled(13, b"", places, "mover_write_image", *as_tables(wide))
        for places in (0, 36, 58):
            self.filled(2, b"", places, "mover_write_image", *as_tables(wide))
        for n in (0, 65):
            none = Contents([], n * [0], n * [0])
            self.filled(1, b"", 1000, "mover_write_image", *as_tables(none))
            self.filled(1, b"", 0, "mover_write_image", *as_tables(none))
        wrong = {
            1: image_of([], 65 * [0], 65 * [0]),
            2: image_of(513 * [(0, 1, 1)], [0], [0]),
            11: bytes(35),
            12: IMAGE_A[:-1],
            13: image_of([], [0], []),
        }
        for number, image in wrong.items():
            given = (ctypes.c_uint8 * len(image))(*image)
            for places in (0, 36, 5000):
                self.filled(number, b"", places, "mover_rewrite", given)

    def test_lists_to_write(self) -> None:
        """What the module never gives: lists of unequal length, and, without a tree, a
        root and parents, which are not looked at."""
        case = MARKED["A"]
        given = as_tables(Contents(*case.problem, case.root, case.parents))
        for place in (1, 2, 3, 4, 5, 8):
            for change in (-1, 1):
                lists = given[:]
                kind, size = lists[place]._type_, len(lists[place]) + change
                lists[place] = (kind * size)(*lists[place][:size])
                self.filled(2, b"", 1000, "mover_write_image", *lists)
        without = image_of(*case.problem)
        others: List[List[int]] = [[], [0], 4 * [256], 100 * [2**32 - 1]]
        for parents in others:
            for root in (0, 256, 2**64 - 1):
                tree = False, root, (ctypes.c_uint32 * len(parents))(*parents)
                call = "mover_write_image", *given[:6], *tree
                self.filled(0, without, 1000, *call)

    def test_climbs(self) -> None:
        """The climb refuses by 1, 2, 8 and 10 in this order and keeps its table."""
        line = [1, 2, 3, 3]
        refused: List[Tuple[int, int, int, List[int], int]] = [
            (1, 0, 0, [], 4),
            (1, 65, 0, 65 * [0], 65),
            (1, 2**64 - 1, 3, line, 4),
            (2, 4, 3, line[:3], 4),
            (2, 4, 3, line + [3], 4),
            (2, 4, 3, line, 3),
            (2, 4, 3, line, 0),
            (8, 4, 4, line, 4),
            (8, 4, 2**64 - 1, line, 4),
            (8, 4, 3, [1, 4, 3, 3], 4),
            (8, 4, 3, [1, 2**32 - 1, 3, 3], 4),
            (8, 4, 3, [1, 2, 3, 2], 4),
            (8, 4, 3, [1, 1, 3, 3], 4),
            (10, 4, 3, [1, 0, 3, 3], 4),
            (10, 4, 3, [1, 2, 0, 3], 5),
            # two checks fail
            (1, 0, 0, line, 4),
            (1, 65, 3, line, 4),
            (1, 65, 65, 65 * [0], 65),
            (1, 65, 0, [0, 2, 1] + 62 * [0], 65),
            (2, 4, 4, line + [3], 4),
            (2, 4, 3, [1, 1, 3, 3], 3),
            (2, 4, 2, [1, 0, 2], 4),
            (2, 4, 3, [1, 0, 3, 3], 3),
            (8, 4, 3, [1, 0, 4, 3], 4),
            (8, 4, 3, [1, 0, 3, 2], 4),
            (8, 4, 3, [1, 0, 2, 3], 4),
        ]
        for number, n, root, parents, places in refused:
            for y in (0, 1, 3, 4, 64, 2**64 - 1):
                lent = list(range(9, 9 + places))
                self.refused(number, wm.mark_ancestors, n, root, parents, y, lent)
                tables = (ctypes.c_uint32 * len(parents))(*parents)
                words = (ctypes.c_uint64 * places)(*lent)
                got = wm._call("mover_mark_ancestors", n, root, tables, y, words)
                self.assertEqual((got, list(words)), (number, lent))

    def asked(self, number: int, n: int, edges: List[wm.Edge], start: int) -> None:
        """Both queries refuse, and their results are 0; a painting that is too large
        comes before the start. The module puts the edges in order."""
        tables, ordered = edge_tables(edges), edges == in_order(edges)
        for reach in (0, 1, 2**32 - 1):
            got = ask("vertices_within", n, tables, start, reach)
            self.assertEqual(got, (number, 0), (n, edges, start, reach))
            if ordered:
                self.refused(number, wm.vertices_within, n, edges, start, reach)
        for amount, by in ((0, number), (1, number), (FULL + 1, min(number, 6))):
            painting = min(n, 65) * [amount]
            got = ask("nearest_vertex", n, tables, start, painting)
            self.assertEqual(got, (by, 0), (n, edges, start, painting))
            if ordered and n <= 65:
                self.refused(by, wm.nearest_vertex, edges, start, painting)

    def test_queries(self) -> None:
        """The queries refuse by 1 to 5, then 6 on a painting, then 17, in this order,
        and their single results are 0."""
        every = [(a, b, 1) for a in range(33) for b in range(a + 1, 33)]
        refused: List[Tuple[int, int, List[wm.Edge], int]] = [
            (1, 0, [], 0),
            (1, 65, [], 0),
            (1, 65, [(x, x + 1, 1) for x in range(64)], 0),
            (1, 2**32 + 3, PATH, 0),
            (1, 2**64 - 1, PATH, 0),
            (2, 33, every[:513], 0),
            (3, 3, [(0, 1, 1), (1, 2, 1), (2, 3, 1)], 0),
            (3, 3, [(0, 1, 1), (1, 2**32 - 1, 1)], 0),
            (3, 3, [(0, 1, 1), (1, 1, 1), (1, 2, 1)], 0),
            (3, 3, [(0, 1, 1), (2, 1, 1)], 0),
            (3, 3, [(1, 2, 1), (0, 1, 1)], 0),
            (3, 3, [(0, 1, 1), (0, 1, 1), (1, 2, 1)], 0),
            (3, 3, [(0, 1, 1), (0, 1, 2), (1, 2, 1)], 0),
            (4, 3, [(0, 1, 65_536), (1, 2, 1)], 0),
            (4, 3, [(0, 1, 1), (0, 2, 1), (1, 2, 2**32 - 1)], 0),
            (5, 2, [], 1),
            (5, 3, [(0, 1, 1)], 0),
            (5, 3, [(1, 2, 1)], 1),
            (5, 4, [(0, 1, 1), (2, 3, 0)], 3),
            (17, 1, [], 1),
            (17, 3, PATH, 3),
            (17, 3, PATH, 64),
            (17, 3, PATH, 256),
            (17, 3, PATH, 2**32 + 1),
            (17, 3, PATH, 2**64 - 1),
            (17, 64, ZIGZAG, 64),
            (17, 64, ZIGZAG, 65),
            # two checks fail
            (1, 0, every[:513], 0),
            (1, 0, [(0, 1, 1)], 0),
            (1, 65, [(1, 0, 65_536)], 65),
            (2, 3, 513 * [(0, 3, 65_536)], 0),
            (2, 33, every[:513], 33),
            (3, 3, [(0, 1, 65_536), (0, 3, 1)], 0),
            (3, 3, [(1, 0, 1)], 0),
            (3, 3, [(0, 1, 1), (1, 3, 1)], 3),
            (4, 3, [(0, 1, 65_536)], 0),
            (4, 3, [(0, 1, 65_536), (1, 2, 1)], 3),
            (5, 3, [(0, 1, 1)], 2),
            (5, 3, [(1, 2, 1)], 3),
        ]
        for given in refused:
            self.asked(*given)

    def test_lists_of_queries(self) -> None:
        """Edge lists of unequal length, which the module never gives, and paintings
        that are not n long: 2, after 1 and before all others."""
        for place in range(3):
            for size in (0, 1, 3):
                tables = edge_tables([(0, 1, 65_536), (1, 1, 1)])
                numbers = (tables[place][:] + [1])[:size]
                tables[place] = (ctypes.c_uint32 * size)(*numbers)
                for n, start in ((3, 0), (3, 3), (0, 0), (65, 0)):
                    wanted = 2 if n == 3 else 1, 0
                    got = ask("vertices_within", n, tables, start, 1)
                    self.assertEqual(got, wanted, (place, size, n, start))
                    got = ask("nearest_vertex", n, tables, start, n * [FULL])
                    self.assertEqual(got, wanted, (place, size, n, start))
        for edges in (PATH, PATH[:1], [(0, 1, 65_536), (1, 1, 1)]):
            for start in (0, 2, 3):
                for size in (0, 1, 2, 4, 64, 65):
                    more = edge_tables(edges), start, size * [FULL]
                    self.assertEqual(ask("nearest_vertex", 3, *more), (2, 0), more)
                    self.assertEqual(ask("nearest_vertex", 0, *more), (1, 0), more)

    def test_17_start(self) -> None:
        for n in (1, 2, 63, 64):
            edges = [(x, x + 1, 1) for x in range(n - 1)]
            for start in (n, n + 1, 64, 65, 2**32, 2**32 + n - 1, 2**64 - 1):
                self.refused(17, wm.vertices_within, n, edges, start, 1)
                self.refused(17, wm.nearest_vertex, edges, start, n * [1])
                self.refused(17, wm.nearest_vertex, edges, start, n * [0])
            self.assertIn(n - 1, wm.vertices_within(n, edges, n - 1, 0))
            self.assertEqual(wm.nearest_vertex(edges, n - 1, n * [1]), n - 1)

    def by_paintings(self, number: int, painting: List[Any]) -> None:
        """Refused in place of mu or of nu, before all that the calls check."""
        for given in (([], painting, [3]), ([(0, 0, 0)], [3], painting)):
            self.refused(number, wm.solve, *given)
            self.refused(number, wm.evaluate, *given, 0, [])
            self.refused(number, wm.is_optimal, *given, 0, [])
            self.refused(number, wm.write_page, *given, 0, [])
            self.refused(number, wm.write, *given)
        self.refused(number, wm.nearest_vertex, [], 0, painting)
        self.refused(number, wm.nearest_vertex, [(0, 0, 0)], 9, painting)

    def test_15_weights(self) -> None:
        for wrong in BEYOND:
            self.refused(15, wm.to_amounts, [wrong])
            for other in (0.0, 1.0, 0.1, 1e-60):
                self.refused(15, wm.to_amounts, 64 * [other] + [wrong])
                self.refused(15, wm.to_amounts, [wrong] + 999 * [other])
            if isinstance(wrong, float):
                self.by_paintings(15, [0.1, wrong, 0.5])
        for above in (FULL + 1, 2**32, 2**32 + 1, 2**64 - 1):
            self.refused(15, wm.to_weights, [above])
            self.refused(15, wm.to_weights, 65 * [FULL] + [above, 0])

    def test_16_weights(self) -> None:
        for wrong in BETWEEN:
            self.refused(16, wm.to_amounts, [wrong])
            for other in (0.0, 1.0):
                self.refused(16, wm.to_amounts, 64 * [other] + [wrong])
                self.refused(16, wm.to_amounts, [wrong] + 999 * [other])
            if isinstance(wrong, float):
                self.by_paintings(16, [0.5, wrong, -0.0])
        self.refused(15, wm.solve, [], [-0.5], [0.1])
        self.refused(16, wm.solve, [], [0.1], [-0.5])

    def turned(self, number: int, call: str, given: Any, lent: Any, new: Any) -> None:
        """A call into lent places: the first ones are new, nothing else changes."""
        lent[:] = range(9, 9 + len(lent))
        wanted, before = list(new) + list(lent)[len(new) :], bytes(given)
        got = wm._call(call, given, lent)
        self.assertEqual((got, list(lent)), (number, wanted), (call, list(given)))
        self.assertEqual(bytes(given), before, (call, list(given)))

    def test_lists_of_weights(self) -> None:
        """2, 15 and 16 in this order. What is refused is kept as lent."""
        floats: List[Tuple[int, List[float], int]] = [
            (0, [], 3), (0, [0.5], 1), (0, [0.5, 1.0], 5), (0, 65 * [0.25], 70),
            (2, [0.5], 0), (2, [0.5, 0.5], 1), (2, [2.0, 0.1], 1), (2, 65 * [NAN], 64),
            (15, [2.0, 0.1], 2), (15, [0.1, 2.0], 3), (15, 999 * [0.1] + [NAN], 1000),
            (16, [0.5, 0.1], 2), (16, 64 * [0.5] + [GRAIN / 2], 70),
        ]  # fmt: skip
        for number, weights, places in floats:
            given: Any = (ctypes.c_float * len(weights))(*weights)
            new: List[Any] = [FULL * x for x in weights] if number == 0 else []
            lent: Any = (ctypes.c_uint64 * places)()
            self.turned(number, "mover_to_amounts", given, lent, new)
        grains: List[Tuple[int, List[int], int]] = [
            (0, [], 3), (0, [FULL], 1), (0, [0, FULL], 5), (0, 65 * [7], 70),
            (2, [7], 0), (2, [7, 7], 1), (2, [FULL + 1, 7], 1), (2, 65 * [2**32], 64),
            (15, [FULL + 1], 1), (15, [FULL, 7, FULL + 1], 5), (15, 65 * [2**63], 70),
        ]  # fmt: skip
        for number, amounts, places in grains:
            given = (ctypes.c_uint64 * len(amounts))(*amounts)
            new = [x / FULL for x in amounts] if number == 0 else []
            lent = (ctypes.c_float * places)()
            self.turned(number, "mover_to_weights", given, lent, new)

    def reported(self, number: int, reel: bytes, places: int = 30) -> None:
        """A reel and a tally of so many places that are refused by the number, or not
        if it is 0: by the call, and by the module where it lends so many places."""
        name = f"{reel[:100].hex()}, {len(reel)} bytes, {places} places"
        right, sheet = report(reel, places)
        self.assertEqual(right, number, name)
        wanted = left(number, sheet, lent_tally(places))
        self.assertEqual(ask_report(reel, places), wanted, name)
        if places >= 24:
            self.assertEqual(outcome(wm.report, reel), (number, sheet), name)

    def test_14_reels(self) -> None:
        """Reels that end early, counts that are too large, and images that are out of
        order or in each other."""
        for reel in (b"", b"\x00", b"\x01", b"\xff", b"\x01\x00", b"\x00\x01"):
            self.reported(14, reel)
        for reel in (b"\x00\x00", b"\x00\x00tail", bytes(70_000)):
            self.reported(0, reel)
        images = [TREES["B"], b"", BESTS["D"]]
        reel = reel_of(images, [b"", b"gap", b"", b""])
        for size in range(len(reel)):
            self.reported(14, reel[:size])
        for tail in (b"", b"x", b"tail", bytes(70_000)):
            self.reported(0, reel + tail)
        for size in range(2, 10):
            self.reported(14, reel_of([b""])[:size])
        none = reel_of(65_535 * [b""])
        self.reported(0, none)
        self.reported(14, none[:-1])
        self.reported(14, b"\xff\xff" + bytes(8 * 65_535))
        for count in (4, 5, 255, 256 + 3, 65_535):
            self.reported(14, count.to_bytes(2, "little") + reel[2:])
        for count in (0, 1, 2):
            self.reported(0, count.to_bytes(2, "little") + reel[2:])
        apart = reel_of([b"a", b"bc", b"def"], 4 * [b"gap"])
        pairs = pairs_in(apart)
        for order in itertools.product(pairs, repeat=3):
            number = 0 if list(order) == pairs else 14
            self.reported(number, with_pairs(apart, order))

    def test_14_pairs(self) -> None:
        """One pair changed, at each place, to both sides of each bound."""
        images, most = [TREES["B"], b"", BESTS["D"], b"x", b"", TREES["A"]], 2**32
        begin = 2 + 8 * len(images)
        for gap in (b"", b"gap", bytes(70_000)):
            reel = reel_of(images, 7 * [gap])
            pairs, size = pairs_in(reel), len(reel)
            for x, (at, length) in enumerate(pairs):
                before = sum(pairs[x - 1]) if x > 0 else begin
                after = pairs[x + 1][0] if x < 5 else size
                sound = [
                    *((start, 0) for start in (before, at, after)),
                    *((start, length) for start in (before, at, after - length)),
                    *((start, after - start) for start in (before, at)),
                ]
                wrong = [
                    # inside the directory, and before the forerunner's end
                    *((start, 0) for start in (0, 1, 2, begin - 8, begin - 1)),
                    *((start, length) for start in (0, 1, 2, begin - 8, begin - 1)),
                    *((before - 1, end) for end in (0, 1, length, after - before)),
                    # past the next one's start, or past the reel
                    *((start, 0) for start in (after + 1, size + 1, most - 1)),
                    *((start, 1) for start in (after, size, most // 2)),
                    *((at, end + 1 - at) for end in (after, size, most - 2)),
                    # with a sum that 32 bits do not hold
                    *((at, most - at + end) for end in (0, 1, at - 1)),
                    *((most - 1, 1 + end) for end in (0, begin, before, after)),
                    *((most // 2, most // 2 + end) for end in (0, before, after)),
                ]
                for number, changes in ((0, sound), (14, wrong)):
                    for pair in changes:
                        new = pairs[:x] + [pair] + pairs[x + 1 :]
                        self.reported(number, with_pairs(reel, new))

    def test_tallies(self) -> None:
        """14 comes before 2, which is a tally under 24 places; what is past them is
        kept, and what is refused is kept as lent."""
        mixed = reel_of([b"", TREES["B"], REFUSED[2][0], TREES["A"]])
        late = with_pairs(mixed, pairs_in(mixed)[:3] + [(len(mixed), 1)])
        for places in (0, 1, 17, 18, 22, 23, 24, 25, 30, 1000):
            for reel in (b"\x00\x00", reel_of([b""]), mixed, mixed + b"tail"):
                self.reported(2 if places < 24 else 0, reel, places)
            for reel in (b"", b"\x00", b"\x01\x00", mixed[:-1], late):
                self.reported(14, reel, places)

    def test_14_text(self) -> None:
        with self.assertRaises(wm.Refusal) as caught:
            wm.report(b"")
        text = (
            "the reel is shorter than its directory,"
            " or an image in it is out of order or out of bounds"
        )
        self.assertEqual(caught.exception.text, text)
        self.assertEqual(str(caught.exception), f"refused 14: {text}")

    def paged(self, number: int, given: PageCall) -> None:
        """A page that is refused by the number, or not if it is 0: by the call, and by
        the module where that gives the same."""
        right, page = tree_page(given)
        self.assertEqual(right, number, given)
        found = ask_page(page_tables(given), given.places)
        wanted = page_left(number, page, lent_bytes(given.places))
        self.assertEqual(found, wanted, given)
        n, edges, *rest, places = given
        if n == len(given.mu) and edges == in_order(edges) and places >= 96 * n:
            got = outcome(wm.write_page, edges, *rest)
            self.assertEqual(got, (number, page if number == 0 else []), given)

    def test_pages(self) -> None:
        """Pages are refused by 1 to 10, in this order, into any buffer; one that is too
        short is 2. What is refused is kept as lent, and its length is 0."""
        every = [(a, b, 1) for a in range(33) for b in range(a + 1, 33)]
        square = [(0, 1, 1), (0, 2, 1), (0, 3, 1), (1, 2, 1), (2, 3, 1)]
        along = [0, 0, 1]
        away, home = [1, 0, 0], [0, 0, 1]
        refused: List[Tuple[Any, ...]] = [
            (1, 0, [], [], [], 0, []),
            (1, 65, [], 65 * [0], 65 * [0], 0, 65 * [0]),
            (1, 2**32 + 3, PATH, away, home, 0, along),
            (1, 2**64 - 1, PATH, away, home, 0, along),
            (2, 33, every[:513], 33 * [0], 33 * [0], 0, 33 * [0]),
            (2, 3, PATH, away[:2], home, 0, along),
            (2, 3, PATH, away + [0], home, 0, along),
            (2, 3, PATH, away, home[1:], 0, along),
            (2, 3, PATH, away, home + [0], 0, along),
            (2, 3, PATH, away, home, 0, along[:2]),
            (2, 3, PATH, away, home, 0, along + [2]),
            (2, 3, PATH, away, home, 0, []),
            (3, 3, [(0, 1, 1), (1, 2, 1), (2, 3, 1)], away, home, 0, along),
            (3, 3, [(0, 1, 1), (2, 1, 1)], away, home, 0, along),
            (3, 3, [(0, 1, 1), (1, 1, 1), (1, 2, 1)], away, home, 0, along),
            (3, 3, [(1, 2, 1), (0, 1, 1)], away, home, 0, along),
            (3, 3, [(0, 1, 1), (0, 1, 2), (1, 2, 1)], away, home, 0, along),
            (4, 3, [(0, 1, 65_536), (1, 2, 1)], away, home, 0, along),
            (4, 3, [(0, 1, 1), (0, 2, 2**32 - 1), (1, 2, 1)], away, home, 0, along),
            (5, 4, square[:2] + square[3:4], 4 * [1], 4 * [1], 0, [0, 0, 0, 0]),
            (6, 3, PATH, [FULL, 1, 0], [FULL, 0, 1], 0, along),
            (6, 3, PATH, [2**64 - 1, 2, 0], [0, 0, 1], 0, along),
            (7, 3, PATH, away, [0, 0, 2], 0, along),
            (7, 3, PATH, 3 * [0], home, 0, along),
            (8, 3, PATH, away, home, 3, along),
            (8, 3, PATH, away, home, 2**64 - 1, along),
            (8, 3, PATH, away, home, 2**32, along),
            (8, 3, PATH, away, home, 1, along),
            (8, 3, PATH, away, home, 0, [0, 0, 3]),
            (8, 3, PATH, away, home, 0, [0, 0, 2**32 - 1]),
            (8, 3, PATH, away, home, 0, [0, 0, 2]),
            (8, 3, PATH, away, home, 0, [1, 0, 1]),
            (9, 3, PATH, away, home, 0, [0, 0, 0]),
            (9, 3, PATH, away, home, 2, [2, 2, 2]),
            (9, 3, PATH, away, home, 0, [0, 2, 0]),
            (10, 3, PATH, away, home, 0, [0, 2, 1]),
            (10, 4, square, [1, 0, 0, 0], [0, 1, 0, 0], 1, [3, 1, 0, 2]),
            # two checks fail
            (1, 0, every[:513], [], [], 0, []),
            (1, 65, [(1, 0, 65_536)], [1], [2], 65, [9]),
            (2, 3, [(0, 3, 1), (1, 2, 1)], away[:2], home, 0, along),
            (2, 3, 513 * [(0, 3, 65_536)], away, home, 0, along),
            (3, 3, [(0, 1, 65_536), (2, 1, 1)], away, home, 0, along),
            (4, 3, [(0, 1, 65_536)], away, home, 0, along),
            (5, 3, [(0, 1, 1)], [FULL, 1, 0], [FULL, 1, 0], 0, along),
            (6, 3, PATH, [FULL, 1, 0], home, 0, along),
            (7, 3, PATH, away, 3 * [0], 1, along),
            (8, 3, PATH, away, home, 1, [0, 0, 0]),
            (8, 3, PATH, away, home, 0, [0, 2, 3]),
            (9, 4, square, [1, 0, 0, 0], [0, 1, 0, 0], 2, [1, 3, 2, 0]),
        ]
        for number, n, *given in refused:
            size = 96 * min(n, 65)
            for places in (size, size + 1, size + 1000):
                self.paged(number, PageCall(n, *given, places))
            for places in {0, 1, 95, size // 2, size - 96, size - 1}:
                if 0 <= places < size:
                    self.paged(min(number, 2), PageCall(n, *given, places))

    def test_buffers_of_pages(self) -> None:
        """Every length of a buffer for a small page, and both sides of others."""
        for problem, root, parents, wanted in PAGES:
            size = len(wanted)
            near = [*range(size - 3, size + 4), 0, size // 2, 95 * problem.n, 6_144]
            for places in range(2 * size) if problem.n < 3 else near:
                given = PageCall(problem.n, *problem, root, parents, places)
                self.paged(0 if places >= size else 2, given)

    def test_lists_of_pages(self) -> None:
        """Edge lists of unequal length, which the module never gives, are 2."""
        for place in range(1, 4):
            for size in (0, 1, 3):
                given = PageCall(3, PATH, [1, 0, 0], [0, 0, 1], 0, [0, 0, 1], 288)
                tables = page_tables(given)
                numbers = (tables[place][:] + [1])[:size]
                tables[place] = (ctypes.c_uint32 * size)(*numbers)
                for places in (0, 287, 288, 1000):
                    wanted = page_left(2, "", lent_bytes(places))
                    self.assertEqual(ask_page(tables, places), wanted, (place, size))

    def test_exception(self) -> None:
        with self.assertRaises(ValueError) as caught:
            wm.solve([], [3], [4])
        refusal = caught.exception
        self.assertIsInstance(refusal, wm.Refusal)
        self.assertEqual(str(refusal), "refused 7: the two totals differ")
        again = pickle.loads(pickle.dumps(refusal))
        self.assertEqual((again.number, again.text), (7, "the two totals differ"))


class Header(unittest.TestCase):
    """The module says what hosts/c/mover.h says."""

    def setUp(self) -> None:
        with open(HEADER, encoding="utf-8") as file:
            self.text = file.read()

    def test_texts(self) -> None:
        block = re.search(r"texts\[18\] = \{(.*?)\};", self.text, re.S)
        assert block is not None
        texts = re.findall(r'"(.*)"', block.group(1))
        self.assertEqual(len(texts), 18)
        self.assertEqual([wm.refusal_text(k) for k in range(18)], texts)
        for number in (18, 19, 2**32 - 1, -1):
            self.assertEqual(wm.refusal_text(number), "no such number")

    def test_constants(self) -> None:
        numbers = dict(re.findall(r"#define MOVER_(\w+) (\d+)", self.text))
        self.assertEqual(int(numbers["MAX_VERTICES"]), wm.MAX_VERTICES)
        self.assertEqual(int(numbers["MAX_EDGES"]), wm.MAX_EDGES)
        self.assertEqual(int(numbers["MAX_LENGTH"]), wm.MAX_LENGTH)
        self.assertEqual(int(numbers["MAX_TOTAL"]), wm.MAX_TOTAL)
        self.assertEqual(int(numbers["NO_VERTEX"]), wm._NO_VERTEX)
        self.assertEqual(int(numbers["TALLY_PLACES"]), wm._TALLY_PLACES)
        self.assertEqual(int(numbers["RECORD_MAX"]), wm._RECORD_MAX)
        self.assertEqual(int(numbers["IMAGE_HEADER"]), wm._HEADER)
        self.assertEqual(int(numbers["IMAGE_WRITTEN_MAX"]), wm._WRITTEN_MAX)
        self.assertEqual(int(numbers["PAGE_LINE"]), wm._LINE)
        major, minor, patch = map(int, wm.__version__.split("."))
        self.assertEqual(int(numbers["VERSION"]), 10_000 * major + 100 * minor + patch)

    def test_signatures(self) -> None:
        kinds: Dict[str, Any] = {
            "bool": ctypes.c_bool,
            "float": ctypes.c_float,
            "uint8_t": ctypes.c_uint8,
            "int32_t": ctypes.c_int32,
            "uint32_t": ctypes.c_uint32,
            "uint64_t": ctypes.c_uint64,
            "size_t": ctypes.c_size_t,
            "mover_edge": wm._Edge,
            "mover_tree": wm._Tree,
        }
        found = {}
        calls = re.findall(r"^(\w+) (mover_\w+)\(([^)]*)\);", self.text, re.M)
        for result, name, parameters in calls:
            arguments = []
            for parameter in parameters.split(","):
                kind, _, rest = parameter.replace("const ", "").strip().partition(" ")
                pointer = rest.startswith("*")
                arguments.append(
                    ctypes.POINTER(kinds[kind]) if pointer else kinds[kind]
                )
            found[name] = (kinds[result], arguments)
        self.assertEqual(found, wm._SIGNATURES)


# ---- What may be given


class Inputs(unittest.TestCase):
    """Sequences, iterables and buffers pass; what does not fit is an error."""

    def test_edges_in_any_order(self) -> None:
        case = MARKED["B"]
        draw = random.Random(1)
        for _ in range(50):
            edges = [draw.choice([(a, b, c), (b, a, c)]) for a, b, c in RING]
            draw.shuffle(edges)
            given = list(edges), list(case.problem.mu), list(case.problem.nu)
            self.assertEqual(wm.solve(*given).cost, case.best)
            got = wm.evaluate(*given, case.root, case.parents)
            self.assertEqual(got.cost, case.cost)
            self.assertFalse(wm.is_optimal(*given, case.root, case.parents))
            page = wm.write_page(*given, case.root, case.parents)
            self.assertEqual(page, page_of(case.problem, case.root, case.parents))
            self.assertEqual(wm.distances(4, edges)[0], [0, 1, 2, 1])
            self.assertEqual(wm.vertices_within(4, edges, 3, 1), [0, 2, 3])
            self.assertEqual(wm.nearest_vertex(edges, 3, [1, 1, 1, 0]), 0)
            self.assertEqual(wm.read(wm.write(*given)).edges, RING)
            self.assertEqual(given, (edges, case.problem.mu, case.problem.nu))

    def test_sequences_and_buffers(self) -> None:
        (edges, mu, nu), wanted = MARKED["A"].problem, MARKED["A"].cost
        kinds: List[Callable[[List[int]], Any]] = [
            tuple,
            iter,
            bytes,
            lambda numbers: array.array("H", numbers),
            lambda numbers: memoryview(array.array("q", numbers)),
            lambda numbers: (ctypes.c_uint16 * len(numbers))(*numbers),
        ]
        for kind in kinds:
            rows = (kind(list(edge)) for edge in edges)
            got = wm.evaluate(rows, kind(mu), kind(nu), 3, kind([1, 2, 3, 3]))
            self.assertEqual(got.cost, wanted)
            rows = (kind(list(edge)) for edge in edges)
            image = wm.write(rows, kind(mu), kind(nu), 3, kind([1, 2, 3, 3]))
            self.assertEqual(image, IMAGE_A)
            masks = wm.mark_ancestors(4, 3, kind([1, 2, 3, 3]), 1, kind([0, 0, 0, 8]))
            self.assertEqual(masks, [0, 2, 2, 10])
            rows = (kind(list(edge)) for edge in edges)
            self.assertEqual(wm.vertices_within(4, rows, 1, 3), [0, 1, 2])
            rows = (kind(list(edge)) for edge in edges)
            self.assertEqual(wm.nearest_vertex(rows, 3, kind([5, 1, 0, 0])), 1)
            self.assertEqual(wm.to_weights(kind([5, 0])), [5 * GRAIN, 0])
            self.assertEqual(wm.to_amounts(kind([1, 0])), [FULL, 0])
        columns: Any = memoryview(bytes(sum(edges, ()))).cast("B", [len(edges), 3])
        self.assertEqual(wm.solve(columns, mu, nu).cost, wanted)
        self.assertEqual(wm.vertices_within(4, columns, 1, 3), [0, 1, 2])
        self.assertEqual(wm.nearest_vertex(columns, True, [True, 0, 0, 7]), 0)

    def test_images(self) -> None:
        """Bytes, and buffers of them, which are not changed."""
        case, image = MARKED["A"], IMAGE_A + b"tail"
        whole = wm.Patch(4, *case.problem, case.root, case.parents)
        doubled = bytes(byte for byte in image for _ in range(2))
        forms: List[Any] = [
            image,
            bytearray(image),
            array.array("B", image),
            array.array("b", memoryview(image).cast("b")),
            (ctypes.c_uint8 * len(image))(*image),
        ]
        views = [memoryview(form) for form in forms] + [memoryview(doubled)[::2]]
        for form in forms + views:
            self.assertEqual(wm.run(form).cost, case.cost)
            self.assertEqual(wm.read(form), whole)
            self.assertEqual(wm.rewrite(form), IMAGE_A)
            self.assertEqual(bytes(memoryview(form)), image)

    def test_reels(self) -> None:
        """Bytes, and buffers of them, which are not changed."""
        images = [b"", TREES["B"], REFUSED[7][0], TREES["A"]]
        reel = reel_of(images, [b"", b"gap", b"", b"", b"tail"])
        sheet = wm.Report(2, [2, *6 * [0], 1, 0, 0, 0, 1, *12 * [0]], 34, 22, 3)
        doubled = bytes(byte for byte in reel for _ in range(2))
        forms: List[Any] = [
            reel,
            bytearray(reel),
            array.array("B", reel),
            array.array("b", memoryview(reel).cast("b")),
            (ctypes.c_uint8 * len(reel))(*reel),
        ]
        views = [memoryview(form) for form in forms] + [memoryview(doubled)[::2]]
        for form in forms + views:
            self.assertEqual(wm.report(form), sheet)
            self.assertEqual(bytes(memoryview(form)), reel)

    def test_copies(self) -> None:
        """Bytes are read where they are, and one copy is made of other buffers, since
        they might change while the library works."""
        reel = wm.pack([TREES["A"]]) + bytes(2**24)
        forms: List[Any] = [reel, bytearray(reel), memoryview(reel)]
        for form, copies in zip(forms, (0, 1, 1)):
            tracemalloc.start()
            self.assertEqual(wm.report(form).sum, 22)
            peak = tracemalloc.get_traced_memory()[1]
            tracemalloc.stop()
            self.assertEqual(round(peak / len(reel)), copies, type(form))

    def test_pack(self) -> None:
        """Images in bytes and buffers of them, which are not changed, in lists and
        iterables."""
        doubled = bytes(byte for byte in IMAGE_A for _ in range(2))
        images: List[Any] = [
            IMAGE_A,
            bytearray(IMAGE_A),
            array.array("B", IMAGE_A),
            array.array("b", memoryview(IMAGE_A).cast("b")),
            (ctypes.c_uint8 * len(IMAGE_A))(*IMAGE_A),
            memoryview(IMAGE_A),
            memoryview(doubled)[::2],
        ]
        reel = reel_of(7 * [IMAGE_A])
        kinds: List[Callable[[List[Any]], Any]] = [
            list,
            tuple,
            iter,
            lambda given: (image for image in given),
            lambda given: dict(enumerate(given)).values(),
        ]
        for kind in kinds:
            self.assertEqual(wm.pack(kind(images)), reel)
        self.assertEqual([bytes(memoryview(image)) for image in images], 7 * [IMAGE_A])
        self.assertEqual(wm.report(reel), sheet_of(7 * [(0, 22)]))

    def test_what_does_not_fit_a_reel(self) -> None:
        """Both sides of each bound; past it, nothing is put together."""
        self.assertEqual(wm.pack(65_535 * [b""]), reel_of(65_535 * [b""]))
        above: List[Any] = [65_536 * [b""], itertools.repeat(b"")]
        for images in above:
            with self.assertRaisesRegex(ValueError, "there are more than 65535"):
                wm.pack(images)
        block = bytes(2**26)
        with self.assertRaisesRegex(ValueError, r"images\[64\]: 67108864 bytes from"):
            wm.pack(65 * [block])
        with self.assertRaisesRegex(ValueError, r"images\[65\]: 0 bytes from"):
            wm.pack([b"x", bytes(2**26 - 530), *63 * [block], b""])
        most = 2**32 - 1
        heads: List[Tuple[List[int], List[int]]] = [
            ([most], [10, most]),
            ([most - 18, 0], [18, most - 18, most, 0]),
            ([most - 18, most], [18, most - 18, most, most]),
            ([5, most - 31, 7], [26, 5, 31, most - 31, most, 7]),
        ]
        for lengths, numbers in heads:
            head = b"".join(number.to_bytes(4, "little") for number in numbers)
            count = len(lengths).to_bytes(2, "little")
            self.assertEqual(wm._directory(lengths), count + head)
        others = [[most + 1], [most - 17, 0], [6, most - 31, 7], [5, most - 30, 7]]
        for lengths in others + [[0, most + 1], [2**64]]:
            self.assertRaises(ValueError, wm._directory, lengths)

    def test_weights(self) -> None:
        """Lists and buffers of floats are weights, for a painting too."""
        kinds: List[Callable[[List[float]], Any]] = [
            list,
            tuple,
            iter,
            lambda weights: array.array("f", weights),
            lambda weights: array.array("d", weights),
            lambda weights: memoryview(array.array("f", weights)),
            lambda weights: (ctypes.c_float * len(weights))(*weights),
            lambda weights: (ctypes.c_double * len(weights))(*weights),
        ]
        for kind in kinds:
            mu, nu = [0.5, 0.25, -0.0], [0.0, 0.125, 0.625]
            amounts = [FULL // 2, FULL // 4, 0], [0, FULL // 8, 5 * FULL // 8]
            self.assertEqual(wm.to_amounts(kind(mu)), amounts[0])
            best = wm.solve(PATH, *amounts)
            self.assertEqual(wm.solve(PATH, kind(mu), kind(nu)), best)
            self.assertEqual(wm.solve(PATH, kind(mu), amounts[1]), best)
            self.assertEqual(wm.solve(PATH, amounts[0], kind(nu)), best)
            self.assertEqual(wm.nearest_vertex(PATH, 2, kind(mu)), 1)
            self.assertEqual(wm.nearest_vertex(PATH, 0, kind(nu)), 1)
            self.assertEqual((mu, nu), ([0.5, 0.25, -0.0], [0.0, 0.125, 0.625]))

    def test_mixtures(self) -> None:
        """Integers and floats in one painting: grains or weights?"""
        tree: Any = (0, [0, 0, 1])
        for wrong in ([3, 0.5, 0.5], [0.5, 0.5, 0], [True, 0.0, 0.0], [0.5, "1", 0.5]):
            for given in ((PATH, wrong, [0, 0, 1]), (PATH, [1.0, 0.0, 0.0], wrong)):
                calls: List[Tuple[Callable[..., Any], Any]] = [
                    (wm.solve, ()),
                    (wm.evaluate, tree),
                    (wm.is_optimal, tree),
                    (wm.write_page, tree),
                    (wm.write, ()),
                ]
                for call, more in calls:
                    with self.assertRaisesRegex(TypeError, "in one painting"):
                        call(*given, *more)
            with self.assertRaisesRegex(TypeError, "in one painting"):
                wm.nearest_vertex(PATH, 0, wrong)
        with self.assertRaisesRegex(TypeError, "nu: 3 and 0.5 in one painting"):
            wm.solve(PATH, [1, 0, 0], [0.5, 3, 7])

    def test_no_weights(self) -> None:
        others: List[Any] = ["0.5", b"1", None, [0.5], 0.5j, object(), array.array("f")]
        for wrong in others:
            for weights in ([wrong], [0.5, wrong], [wrong, 2.0]):
                with self.assertRaisesRegex(TypeError, "is not an integer or float"):
                    wm.to_amounts(weights)
        for other in (0.5, 1, None, {0: 1}, {1}):
            self.assertRaises(TypeError, wm.to_amounts, other)
            self.assertRaises(TypeError, wm.to_weights, other)

    def calls(self) -> List[Tuple[str, Callable[[Any], Any], int]]:
        """Each place for a number, a call with that number there, and the largest."""
        u32, u64 = 2**32 - 1, 2**64 - 1
        edges, mu, nu = [(0, 1, 1)], [1, 0], [0, 1]
        tree = wm.Tree(0, [0, 0])
        return [
            ("n", lambda x: wm.distances(x, edges), u64),
            ("n", lambda x: wm.distances_of_records(x, edges), u64),
            ("end", lambda x: wm.distances(2, [(0, x, 1)]), u32),
            ("end", lambda x: wm.distances_of_records(2, [(x, 0, 1)]), u32),
            ("length", lambda x: wm.distances(2, [(0, 1, x)]), u32),
            ("length", lambda x: wm.distances_of_records(2, [(0, 1, x)]), u32),
            ("end", lambda x: wm.solve([(x, 1, 1)], mu, nu), u32),
            ("mu", lambda x: wm.solve(edges, [x, 0], nu), u64),
            ("nu", lambda x: wm.solve(edges, mu, [x, 1]), u64),
            ("root", lambda x: wm.evaluate(edges, mu, nu, x, [0, 0]), u64),
            ("parent", lambda x: wm.evaluate(edges, mu, nu, 0, [0, x]), u32),
            ("root", lambda x: wm.is_optimal(edges, mu, nu, x, [0, 0]), u64),
            ("parent", lambda x: wm.is_optimal(edges, mu, nu, 0, [0, x]), u32),
            ("end", lambda x: wm.write_page([(0, x, 1)], mu, nu, 0, [0, 0]), u32),
            ("length", lambda x: wm.write_page([(0, 1, x)], mu, nu, 0, [0, 0]), u32),
            ("mu", lambda x: wm.write_page(edges, [x, 0], nu, 0, [0, 0]), u64),
            ("nu", lambda x: wm.write_page(edges, mu, [0, x], 0, [0, 0]), u64),
            ("root", lambda x: wm.write_page(edges, mu, nu, x, [0, 0]), u64),
            ("parent", lambda x: wm.write_page(edges, mu, nu, 0, [0, x]), u32),
            ("root of a Tree", lambda x: wm.Tree(x, [0, 0]), u64),
            ("parent of a Tree", lambda x: wm.Tree(0, [0, x]), u32),
            ("v", tree.depth, u64),
            ("v", tree.parent, u64),
            ("v", tree.subtree, u64),
            ("v", tree.below, u64),
            ("n", lambda x: wm.mark_ancestors(x, 0, [0, 0], 1, [0, 0]), u64),
            ("root", lambda x: wm.mark_ancestors(2, x, [0, 0], 1, [0, 0]), u64),
            ("parent", lambda x: wm.mark_ancestors(2, 0, [0, x], 1, [0, 0]), u32),
            ("y", lambda x: wm.mark_ancestors(2, 0, [0, 0], x, [0, 0]), u64),
            ("mask", lambda x: wm.mark_ancestors(2, 0, [0, 0], 1, [0, x]), u64),
            ("n", lambda x: wm.vertices_within(x, edges, 0, 1), u64),
            ("end", lambda x: wm.vertices_within(2, [(0, x, 1)], 0, 1), u32),
            ("length", lambda x: wm.vertices_within(2, [(0, 1, x)], 0, 1), u32),
            ("start", lambda x: wm.vertices_within(2, edges, x, 1), u64),
            ("reach", lambda x: wm.vertices_within(2, edges, 0, x), u32),
            ("end", lambda x: wm.nearest_vertex([(x, 1, 1)], 0, mu), u32),
            ("length", lambda x: wm.nearest_vertex([(0, 1, x)], 0, mu), u32),
            ("start", lambda x: wm.nearest_vertex(edges, x, mu), u64),
            ("painting", lambda x: wm.nearest_vertex(edges, 0, [0, x]), u64),
            ("amount", lambda x: wm.to_weights([0, x]), u64),
            ("end in an image", lambda x: wm.write([(0, x, 1)], mu, nu), u32),
            ("length in an image", lambda x: wm.write([(0, 1, x)], mu, nu), u32),
            ("mu in an image", lambda x: wm.write(edges, [x, 0], nu), u64),
            ("nu in an image", lambda x: wm.write(edges, mu, [0, x]), u64),
            ("root in an image", lambda x: wm.write(edges, mu, nu, x, [0, 0]), u64),
            ("parent in an image", lambda x: wm.write(edges, mu, nu, 0, [x, 0]), u32),
        ]

    def test_numbers_that_do_not_fit(self) -> None:
        for place, call, limit in self.calls():
            for wrong in (-1, limit + 1, 2**64, 2**64 + 1, -(2**64), 10**30):
                with self.subTest(place=place, number=wrong):
                    with self.assertRaisesRegex(OverflowError, f"{wrong} is not from"):
                        call(wrong)
            for other in (1.0, "1", None, [1], NAN, b"1", Fraction(1)):
                painted = place.startswith(("mu", "nu", "painting"))
                mixed = isinstance(other, float) and painted
                reason = "in one painting" if mixed else "is not an integer"
                with self.subTest(place=place, number=other):
                    with self.assertRaisesRegex(TypeError, reason):
                        call(other)
            with self.subTest(place=place), contextlib.suppress(wm.Refusal):
                call(limit)  # it fits, and the library is asked

    def test_other_things(self) -> None:
        two: Any = ([(0, 1, 1)], [1, 0], [0, 1])
        calls: List[Tuple[Callable[..., Any], Tuple[Any, ...]]] = [
            (wm.solve, (5, *two[1:])),
            (wm.solve, ([0, 1, 1], *two[1:])),
            (wm.solve, ([(0, 1)], *two[1:])),
            (wm.solve, ([(0, 1, 1, 1)], *two[1:])),
            (wm.solve, (two[0], None, two[2])),
            (wm.solve, (two[0], {0: 1, 1: 0}, two[2])),
            (wm.solve, (*two[:2], {0, 1})),
            (wm.evaluate, (*two, 0, {0: 0, 1: 0})),
            (wm.write_page, (*two, 0, {0: 0, 1: 0})),
            (wm.write_page, (*two, 0, None)),
            (wm.write_page, (*two, None, [0, 0])),
            (wm.write_page, ([(0, 1)], *two[1:], 0, [0, 0])),
            (wm.mark_ancestors, (2, 0, [0, 0], 1, 0)),
            (wm.mark_ancestors, (2, 0, [0, 0], 1, {0: 0, 1: 0})),
            (wm.vertices_within, (2, 5, 0, 1)),
            (wm.vertices_within, (2, [(0, 1)], 0, 1)),
            (wm.vertices_within, ([1, 0], two[0], 0, 1)),
            (wm.nearest_vertex, (5, 0, two[1])),
            (wm.nearest_vertex, ([(0, 1, 1, 1)], 0, two[1])),
            (wm.nearest_vertex, (two[0], 0, 2)),
            (wm.nearest_vertex, (two[0], 0, None)),
            (wm.nearest_vertex, (two[0], 0, {0: 1, 1: 0})),
            (wm.nearest_vertex, (two[0], 0, {0, 1})),
            (wm.write, (*two[:2], {0, 1})),
            (wm.write, (*two, 0, 0)),
            (wm.write, (*two, 0, {0: 0, 1: 0})),
            (wm.write, (*two, None, [0, 0])),
        ]
        for image in (36, "image", None, [0, 1], array.array("I", range(20))):
            calls += [(call, (image,)) for call in (wm.run, wm.read, wm.rewrite)]
            calls += [(wm.report, (image,)), (wm.pack, (image,))]
            calls += [(wm.pack, ([image],)), (wm.pack, ([IMAGE_A, image],))]
        for images in (IMAGE_A, range(3), {IMAGE_A}, {0: IMAGE_A}, {IMAGE_A: 0}):
            calls.append((wm.pack, (images,)))
        for call, arguments in calls:
            self.assertRaises(TypeError, call, *arguments)
        with self.assertRaisesRegex(TypeError, "reel: items of 4 bytes"):
            wm.report(array.array("I", range(20)))
        with self.assertRaisesRegex(TypeError, r"images\[1\]: items of 4 bytes"):
            wm.pack([IMAGE_A, array.array("I", range(20))])

    @unittest.skipUnless(np, "numpy is not installed")
    def test_numpy(self) -> None:
        case = MARKED["A"]
        edges, mu, nu = case.problem
        for kind in ("u1", "i2", ">i4", "<u4", "i8", "u8", "O"):
            columns = np.array(edges, dtype=kind)
            paintings = np.array(list(zip(mu, nu)), dtype=kind).T  # not contiguous
            parents = np.array(case.parents, dtype=kind)
            tree: Any = (parents[-1], parents)
            got = wm.evaluate(columns, *paintings, *tree)
            self.assertEqual(got, wm.evaluate(*case.problem, 3, case.parents))
            self.assertEqual(wm.solve(columns[::-1], *paintings).cost, case.best)
            self.assertTrue(wm.is_optimal(columns, *paintings, *tree))
            page = wm.write_page(columns[::-1], *paintings, *tree)
            self.assertEqual(page, page_of(case.problem, 3, case.parents))
            self.assertEqual(wm.distances(np.int64(4), columns)[0], [0, 2, 5, 6])
            self.assertEqual(wm.distances_of_records(4, columns)[0], [0, 2, 5, 6])
            self.assertEqual(wm.Tree(*tree).depth(parents[0]), 2)
            masks = wm.mark_ancestors(4, *tree, parents[0], np.zeros(4, dtype=kind))
            self.assertEqual(masks, [0, 2, 2, 2])
            near = wm.vertices_within(np.int64(4), columns, parents[0], columns[1, 2])
            self.assertEqual(near, [0, 1, 2])
            self.assertEqual(wm.nearest_vertex(columns, parents[2], paintings[0]), 2)
            self.assertEqual(wm.nearest_vertex(columns, np.uint8(0), paintings[1]), 1)
            image = wm.write(columns, *paintings, *tree)
            self.assertEqual(image, IMAGE_A)
            self.assertEqual(wm.run(np.frombuffer(image, dtype="u1")).cost, case.cost)
            spaced = np.frombuffer(image + b"tail", dtype="u1")
            self.assertEqual(wm.rewrite(spaced), IMAGE_A)
            self.assertEqual(wm.pack([spaced[:-4], b""]), reel_of([IMAGE_A, b""]))
        records = np.array(edges, dtype=[("a", "u4"), ("b", "u4"), ("length", "u4")])
        self.assertEqual(wm.solve(records, mu, nu).cost, case.best)
        self.assertEqual(wm.vertices_within(4, records, 3, 1), [2, 3])
        self.assertEqual(type(wm.nearest_vertex(records, 1, np.array(mu))), int)
        self.assertEqual(type(wm.solve(records, np.array(mu), nu).cost), int)

    @unittest.skipUnless(np, "numpy is not installed")
    def test_numpy_reels(self) -> None:
        images = [b"", TREES["B"], TREES["A"]]
        reel = reel_of(images, [b"", b"gap", b"", b"tail"])
        sheet = sheet_of([(11, 0), (0, 12), (0, 22)])
        for kind in ("u1", "i1", "S1", "V1"):
            table = np.frombuffer(reel, dtype=kind)  # its bytes cannot be changed
            forms = [table, table.copy(), np.repeat(table, 3)[::3], table[::-1][::-1]]
            for form in forms + [table.reshape(1, -1), table.reshape(-1, 1)]:
                self.assertEqual(wm.report(form), sheet)
                self.assertEqual(form.tobytes(), reel)
        rows = np.frombuffer(3 * IMAGE_A, dtype="u1").reshape(3, -1)
        self.assertEqual(wm.pack(rows), reel_of(3 * [IMAGE_A]))
        self.assertEqual(wm.pack(rows[:, ::-1]), reel_of(3 * [IMAGE_A[::-1]]))
        self.assertEqual(wm.pack(rows.T[:2]), reel_of([3 * b"\x04", bytes(3)]))

    @unittest.skipUnless(np, "numpy is not installed")
    def test_numpy_weights(self) -> None:
        mu, nu = [0.5, 0.25, -0.0], [0.0, 0.125, 0.625]
        best = wm.solve(PATH, mu, nu)
        for kind in ("f2", "f4", ">f4", "f8", "g", "O"):
            before, after = np.array(list(zip(mu, nu)), dtype=kind).T
            self.assertEqual(wm.to_amounts(before), [FULL // 2, FULL // 4, 0])
            self.assertEqual(wm.solve(PATH, before, after), best)
            self.assertEqual(wm.solve(PATH, list(before), nu), best)  # numpy's scalars
            self.assertEqual(wm.solve(PATH, wm.to_amounts(mu), after), best)
            self.assertEqual(wm.nearest_vertex(PATH, 2, before), 1)
            self.assertEqual(wm.nearest_vertex(PATH, 0, list(after)), 1)
        self.assertEqual(wm.to_amounts(np.array([1, 0], dtype="u1")), [FULL, 0])
        self.assertEqual(wm.to_amounts([np.int8(1), np.float32(GRAIN)]), [FULL, 1])
        weights = np.array(wm.to_weights(range(1000)), dtype="f4")
        self.assertEqual(wm.to_amounts(weights), list(range(1000)))
        for wrong, number in (
            (np.nextafter(np.longdouble(1), 2), 15), (np.longdouble("1e4000"), 15),
            (-np.longdouble("1e-4000"), 15), (np.float16(-1), 15), (np.int64(2), 15),
            (np.nextafter(np.longdouble(1), 0), 16), (np.longdouble("1e-4000"), 16),
            (np.float32(0.1), 16), (np.float64(0.1), 16), (np.float16(0.1), 0),
        ):  # fmt: skip
            self.assertEqual(outcome(wm.to_amounts, [wrong])[0], number, wrong)
        with self.assertRaisesRegex(TypeError, "in one painting"):
            wm.solve(PATH, [np.float32(1), np.int64(0), np.float32(0)], nu)
        with self.assertRaises(TypeError):
            wm.solve(PATH, np.array([mu]), nu)

    @unittest.skipUnless(np, "numpy is not installed")
    def test_numpy_that_does_not_fit(self) -> None:
        edges, mu, nu = MARKED["A"].problem
        with self.assertRaises(OverflowError):
            wm.solve(edges, np.array(mu) - 1, nu)
        with self.assertRaises(OverflowError):
            wm.distances(4, np.array(edges, dtype="i8") + 2**32)
        with self.assertRaises(OverflowError):
            wm.vertices_within(4, edges, np.int8(-1), 1)
        with self.assertRaises(OverflowError):
            wm.vertices_within(4, edges, 0, np.uint64(2**32))
        with self.assertRaises(OverflowError):
            wm.nearest_vertex(edges, 0, np.array(mu) - 1)
        with self.assertRaisesRegex(wm.Refusal, "refused 15"):
            wm.nearest_vertex(edges, 0, np.array(mu, dtype=float))
        with self.assertRaisesRegex(wm.Refusal, "refused 15"):  # floats are weights
            wm.solve(edges, np.array(mu, dtype=float), nu)
        for wrong in (np.array(mu, dtype=complex), np.array([mu]), np.array(5)):
            with self.assertRaises(TypeError):
                wm.solve(edges, wrong, nu)
            with self.assertRaises(TypeError):
                wm.nearest_vertex(edges, 0, wrong)
        with self.assertRaises(TypeError):
            wm.vertices_within(4, edges, 0, np.float32(1))
        with self.assertRaises(TypeError):
            wm.solve(np.array(edges).T[:2].T, mu, nu)
        for call in (wm.run, wm.read, wm.rewrite, wm.report):
            with self.assertRaises(TypeError):
                call(np.zeros(36, dtype="i4"))
        for wrong in (np.zeros(36, dtype="u1"), np.zeros((2, 36), dtype="u2")):
            with self.assertRaises(TypeError):
                wm.pack(wrong)


class Surroundings(unittest.TestCase):
    """The example, the docstring, the shared library and threads."""

    def test_example(self) -> None:
        out = io.StringIO()
        with contextlib.redirect_stdout(out):
            example.main()
        lines = out.getvalue().splitlines()
        self.assertEqual(lines[0], "least cost 19.02, in weight times mm")
        self.assertIn("  vertex 7 gives 1 0.200 over 26.33 mm", lines)
        place = lines.index("  07" + 72 * " " + "900       2633     ") - 6
        order = [line.split()[0] for line in lines[place : place + 9]]
        self.assertEqual(order, ["01", "00", "02", "04", "03", "05", "07", "06", "08"])
        self.assertIn("of a stroke, vertex 0 gives 0.25 to 7 and 0.5 to 8", lines)
        self.assertIn("a brush of 13 mm at vertex 4 covers [1, 3, 4, 5]", lines)
        self.assertIn("the weight nearest to vertex 2 is at 5, 12.57 mm away", lines)
        self.assertIn("of 3 images 2 are accepted", lines)
        self.assertIn("  image 2 costs the most, 31.11", lines)
        self.assertIn("  1 refused by 7: the two totals differ", lines)
        self.assertEqual(len(lines), 33)
        self.assertEqual(lines[-1], "refused 7: the two totals differ")

    def test_docstring(self) -> None:
        result = doctest.testmod(wm)
        self.assertGreater(result.attempted, 0)
        self.assertEqual(result.failed, 0)

    def test_names(self) -> None:
        """Each call can be imported; those on trees are methods."""
        calls = {name[len("mover_") :] for name in wm._SIGNATURES}
        names = {name for name in calls if not name.startswith("tree_")}
        names = names - {"write_image"} | {"write", "pack", "Tree"}
        self.assertEqual(names - set(wm.__all__), set())
        self.assertTrue(all(hasattr(wm, name) for name in wm.__all__))

    def test_help(self) -> None:
        """All that can be imported is shown, and reels and pages are told of at the
        top."""
        text = pydoc.plain(pydoc.render_doc(wm))
        for name in wm.__all__:
            kind = getattr(wm, name)
            shown = f"class {name}(" if isinstance(kind, type) else f"    {name}("
            self.assertIn(shown if callable(kind) else f"    {name} = ", text)
        self.assertIn(wm.__version__, text)
        for name in ("reel", "`pack`", "`report`", "page", "`write_page`"):
            self.assertIn(name, wm.__doc__)

    def test_library_elsewhere(self) -> None:
        load = wm._library.__wrapped__
        with mock.patch.dict(os.environ, WEIGHT_MOVER_LIB="./nowhere.so"):
            with self.assertRaisesRegex(OSError, "WEIGHT_MOVER_LIB"):
                load()
        with mock.patch.dict(os.environ, WEIGHT_MOVER_LIB="libc.so.6"):
            with self.assertRaisesRegex(OSError, "mover_distances"):
                load()
        path = os.path.relpath(wm._library()._name)
        with mock.patch.dict(os.environ, WEIGHT_MOVER_LIB=os.path.join(".", path)):
            self.assertEqual(load()._name, os.path.join(".", path))

    def test_threads(self) -> None:
        given = [problem for _, _, problem in problems("threads", CASES // 10)]
        alone = [wm.solve(*problem) for problem in given]
        with ThreadPoolExecutor(8) as pool:
            for _ in range(3):
                at_once = list(pool.map(lambda problem: wm.solve(*problem), given))
                self.assertEqual(at_once, alone)

    def test_threads_with_one_reel(self) -> None:
        reel = wm.pack([wm.write(*problem) for _, _, problem in problems("reel", 100)])
        with ThreadPoolExecutor(8) as pool:
            at_once = list(pool.map(wm.report, 40 * [reel]))
        self.assertEqual(at_once, 40 * [wm.report(reel)])


# ---- Random patches


class ByDefinition(unittest.TestCase):
    """Random patches, each answer held to the definitions of reference.py."""

    def test_solve(self) -> None:
        for name, _, problem in problems("solve", CASES // 2):
            apart = wm.distances(problem.n, problem.edges)
            self.assertEqual(faults(problem, wm.solve(*problem), apart), [], name)

    def test_evaluate(self) -> None:
        for name, draw, problem in problems("evaluate", CASES // 2):
            root, parents = random_tree(draw, problem)
            got = wm.evaluate(*problem, root, parents)
            wanted = weigh(problem, parents)
            parts = got.imbalance, got.potential, got.cost, got.table
            self.assertEqual(parts, tuple(wanted), name)
            self.assertEqual(got.plan, entries(wanted.table), name)
            self.assertEqual(got.moves, moves(wanted.table), name)
            self.assertEqual((got.root, got.parents), (root, parents), name)

    def test_images(self) -> None:
        for name, draw, problem in problems("images", CASES // 4):
            edges = sorted((min(a, b), max(a, b), c) for a, b, c in problem.edges)
            root, parents = random_tree(draw, problem)
            image = wm.write(*problem, root, parents)
            whole = wm.Patch(problem.n, edges, problem.mu, problem.nu, root, parents)
            self.assertEqual(wm.read(image), whole, name)
            self.assertEqual(wm.read(spread(draw, image)), whole, name)
            weighed, got = wm.evaluate(*problem, root, parents), wm.run(image)
            for part in dataclasses.fields(got):
                wanted = getattr(weighed, part.name)
                self.assertEqual(getattr(got, part.name), wanted, name)
            apart = wm.distances(problem.n, problem.edges)
            best = wm.run(spread(draw, wm.write(*problem)))
            self.assertEqual(faults(problem, best, apart), [], name)

    def test_write_image(self) -> None:
        """By the module, which puts the edges in order, and by the call as they are."""
        for name, _, given in patches("write"):
            ordered = given._replace(edges=in_order(given.edges))
            wanted = image_of(*ordered)
            image = wm.write(*given)
            self.assertEqual(image, wanted, name)
            self.assertEqual(wm.read(image), wm.Patch(len(given.mu), *ordered), name)
            buffer, length = (ctypes.c_uint8 * len(wanted))(), ctypes.c_size_t()
            results = buffer, ctypes.byref(length)
            number = wm._call("mover_write_image", *as_tables(given), *results)
            self.assertEqual((number, length.value), (0, len(wanted)), name)
            self.assertEqual(bytes(buffer), image_of(*given), name)

    def test_one_image_for_one_patch(self) -> None:
        """Equal patches have equal images. A changed bit, an edge or a vertex more, a
        tree more or less: each gives another."""
        for name, draw, given in patches("pairs"):
            edges, mu, nu, root, parents = given
            other_tree: Any = (0, [0] * len(mu)) if parents is None else ()
            others = [
                given,
                changed(draw, given),
                Contents(edges[1:] if edges else [(0, 0, 0)], *given[1:]),
                Contents(edges, mu, nu, *other_tree),
            ]
            if len(mu) < 64:
                more = None if parents is None else parents + [0]
                others.append(Contents(edges, mu + [0], nu + [0], root, more))
            images = [wm.write(*other) for other in others]
            self.assertEqual(len(set(images)), len(others), name)
            again = [(b, a, length) for a, b, length in edges]
            draw.shuffle(again)
            self.assertEqual(wm.write(again, *given[1:]), images[0], name)

    def test_rewrite(self) -> None:
        """The gaps are gone, and nothing else changes: read and run say the same."""
        sizes, accepted = set(), 0
        for name, draw, given in patches("rewrite"):
            if draw.random() < 0.8:
                given = given._replace(edges=in_order(given.edges))
            image = image_of(*given)
            spaced = spread(draw, image)
            result = wm.rewrite(spaced)
            self.assertEqual(result, image, name)
            self.assertEqual(wm.rewrite(result), image, name)
            self.assertEqual(wm.read(result), wm.Patch(len(given.mu), *given), name)
            self.assertEqual(wm.read(spaced), wm.read(result), name)
            answer = outcome(wm.run, spaced)
            self.assertEqual(outcome(wm.run, result), answer, name)
            sizes.add(len(spaced))
            accepted += answer[0] == 0
        self.assertGreater(len(sizes), CASES // 10)
        self.assertEqual(max(sizes), 65_536)
        self.assertGreater(accepted, CASES // 10)

    def test_damaged_images(self) -> None:
        """Rewriting and reading refuse by the same number, or not at all."""
        met = {0: 0, 1: 0, 2: 0, 11: 0, 12: 0, 13: 0}
        for name, draw in draws("damaged", CASES):
            image = random_image(draw)
            number, wanted = rewritten(image)
            self.assertEqual(outcome(wm.rewrite, image), (number, wanted), name)
            self.assertEqual(outcome(wm.read, image)[0], number, name)
            met[number] += 1
        self.assertGreater(min(met.values()), CASES // 100)

    def test_report(self) -> None:
        """By the module and by the call. What `run` says of each image makes the same
        sheet, and so do the images without their gaps."""
        numbers = {number: 0 for number in NUMBERS}
        met = {"refused before": 0, "a tie": 0, "costless": 0, "none": 0, "large": 0}
        for name, draw in draws("reels", 100 + CASES // 10):
            reel = random_reel(draw)
            wanted = report(reel)[1]
            self.assertEqual(wm.report(reel), wanted, name)
            places = draw.choice([24, 24, 25, 30, 100])
            found = ask_report(reel, places)
            self.assertEqual(found, left(0, wanted, lent_tally(places)), name)
            images = images_of(reel)
            self.assertEqual(wm.report(wm.pack(images)), wanted, name)
            runs = [outcome(wm.run, image) for image in images]
            answers = [(number, run.cost if run else 0) for number, run in runs]
            self.assertEqual(sheet_of(answers), wanted, name)
            for number in numbers:
                numbers[number] += wanted.tally[number]
            met["refused before"] += 0 < wanted.first < len(images) and runs[0][0] != 0
            met["a tie"] += answers.count((0, wanted.greatest)) > 1
            met["costless"] += wanted.accepted > 0 == wanted.greatest
            met["none"] += wanted.accepted == 0
            met["large"] += wanted.sum >= 2**32
        self.assertGreater(min(numbers.values()), CASES // 200, numbers)
        self.assertGreater(min(met.values()), CASES // 200, met)

    def test_damaged_reels(self) -> None:
        """With one pair or two, the count or the size changed, and tallies that are too
        short."""
        met = {0: 0, 2: 0, 14: 0}
        for name, draw in draws("damaged reels", CASES // 2):
            reel = damaged_reel(draw, small_reel(draw))
            places = draw.choice([0, 18, 23, 24, 24, 24, 24, 25, 30])
            number, sheet = report(reel, places)
            wanted = left(number, sheet, lent_tally(places))
            self.assertEqual(ask_report(reel, places), wanted, name)
            self.assertEqual(outcome(wm.report, reel), report(reel), name)
            met[number] += 1
        self.assertGreater(min(met.values()), CASES // 100, met)

    def test_pack(self) -> None:
        """Images of a random reel, back to back; they are read back as they were."""
        for name, draw in draws("packs", CASES // 20):
            images = images_of(draw.choice([random_reel, small_reel])(draw))
            packed = wm.pack(images)
            self.assertEqual(packed, reel_of(images), name)
            self.assertTrue(in_place(packed), name)
            self.assertEqual(images_of(packed), images, name)

    def test_write_page(self) -> None:
        """By the module and by the call. The figures are those that `evaluate` and the
        tree's methods give."""
        met = dict.fromkeys(["alone", "deep", "wide", "flat", "below 0", "large"], 0)
        for name, draw in draws("pages", 100 + CASES // 2):
            problem, root, parents = random_page(draw)
            n, wanted = problem.n, page_of(problem, root, parents)
            page = wm.write_page(*problem, root, parents)
            self.assertEqual(page, wanted, name)
            given = page_call(draw, problem, root, parents)
            found = ask_page(page_tables(given), given.places)
            lent = lent_bytes(given.places)
            self.assertEqual(found, page_left(0, wanted, lent), name)
            tree, got = wm.Tree(root, parents), wm.evaluate(*problem, root, parents)
            lines = page.splitlines()
            order = [int(line[:68]) for line in lines]
            self.assertEqual(sorted(order), list(range(n)), name)
            for place, (x, line) in enumerate(zip(order, lines)):
                depth = len(line) - len(line.lstrip())
                figures = depth, int(line[68:79]), int(line[79:90])
                known = tree.depth(x), got.imbalance[x], got.potential[x]
                self.assertEqual(figures, known, name)
                subtree = tree.below(x)
                self.assertEqual(sorted(order[place : place + len(subtree)]), subtree)
            pairs = problem.pairs()
            ways = [(x, parents[x]) for x in range(n) if x != root]
            met["alone"] += n == 1
            met["deep"] += max(map(tree.depth, range(n))) >= 32
            met["wide"] += max(map(parents.count, parents)) > 3
            met["flat"] += any(
                got.imbalance[way[0]] == 0 and pairs[way] > 0 for way in ways
            )
            met["below 0"] += min(got.imbalance) < 0 and min(got.potential) < 0
            met["large"] += max(map(abs, got.imbalance)) >= 10**7
        self.assertGreater(min(met.values()), CASES // 200, met)

    def test_faulty_pages(self) -> None:
        """With up to three faults, and buffers that are too short."""
        met = {number: 0 for number in range(11)}
        for name, draw in draws("faulty pages", 200 + CASES):
            given = faulty_page(draw, page_call(draw, *random_page(draw)))
            number, page = tree_page(given)
            found = ask_page(page_tables(given), given.places)
            wanted = page_left(number, page, lent_bytes(given.places))
            self.assertEqual(found, wanted, name)
            met[number] += 1
        self.assertGreater(min(met.values()), CASES // 400, met)

    def test_trees(self) -> None:
        """Trees, and trees with a wrong parent or root."""
        damaged = 0
        for name, draw, problem in problems("trees", CASES // 2):
            n = problem.n
            root, parents = random_tree(draw, problem)
            if draw.random() < 0.5:
                parents[draw.randrange(n)] = draw.randint(0, n)
            if draw.random() < 0.1:
                root = draw.randint(0, n)
            tree = wm.Tree(root, parents)
            wanted = tree_figures(root, parents)
            damaged += wanted[n // 2] == (0, 64, 0)
            for v in range(n + 2):
                got = tree.depth(v), tree.parent(v), tree.subtree(v)
                self.assertEqual(got, wanted[v] if v < n else (0, 64, 0), name)
        self.assertGreater(damaged, CASES // 20)

    def test_mark_ancestors(self) -> None:
        """Climbs from all vertices in any order, on words of 0 and on others."""
        for name, draw, problem in problems("climbs", CASES // 5):
            n, (root, parents) = problem.n, random_tree(draw, problem)
            zeros = draw.random() < 0.5
            words = [0 if zeros else draw.getrandbits(64) for _ in range(n)]
            rest = [draw.getrandbits(64) for _ in range(draw.choice([0, 0, 1, 9]))]
            masks, order = words + rest, draw.sample(range(n), n)
            for place, y in enumerate(order):
                words = marked(parents, y, words)
                again = draw.choice(order[: place + 1])
                beyond = draw.choice([n, n + 1, 64, order[-1] + 64, 2**64 - 1])
                for vertex in (y, again, beyond):
                    masks = wm.mark_ancestors(n, root, parents, vertex, masks)
                    self.assertEqual(masks, words + rest, name)
            if zeros:
                figures, tree = tree_figures(root, parents), wm.Tree(root, parents)
                self.assertEqual(masks[:n], [word for _, _, word in figures], name)
                self.assertEqual(masks[:n], [tree.subtree(x) for x in range(n)], name)

    def test_vertices_within(self) -> None:
        met = {"all": 0, "some": 0, "the start alone": 0, "one just reached": 0}
        for name, draw in draws("within", CASES // 2):
            n, edges, start, reach, _ = random_query(draw)
            wanted = within(n, edges, start, reach)[1]
            shuffled = draw.sample(edges, len(edges))
            found = wm.vertices_within(n, shuffled, start, reach)
            self.assertEqual(found, wanted, name)
            got = ask("vertices_within", n, edge_tables(edges), start, reach)
            self.assertEqual(got, (0, as_word(wanted)), name)
            met["all"] += 1 < n == len(wanted)
            met["some"] += 1 < len(wanted) < n
            met["the start alone"] += len(wanted) == 1 < n
            met["one just reached"] += reach in lengths_from(edges, start).values()
        self.assertGreater(min(met.values()), CASES // 40, met)

    def test_nearest_vertex(self) -> None:
        met = {"none": 0, "the start": 0, "a tie": 0, "one that is welded": 0}
        for name, draw in draws("nearest", CASES // 2):
            n, edges, start, _, painting = random_query(draw)
            wanted = nearest(n, edges, start, painting)[1]
            shuffled = draw.sample(edges, len(edges))
            weights = [x * GRAIN for x in painting]
            given: List[Any] = [painting, weights]
            for amounts in given:
                found = wm.nearest_vertex(shuffled, start, amounts)
                self.assertEqual(found, wanted, name)
            got = ask("nearest_vertex", n, edge_tables(edges), start, painting)
            self.assertEqual(got, (0, as_word(wanted)), name)
            apart = lengths_from(edges, start)
            painted = [apart[x] for x in range(n) if painting[x] > 0]
            met["none"] += wanted is None
            met["the start"] += wanted == start
            met["a tie"] += painted.count(min(painted, default=0)) > 1
            met["one that is welded"] += wanted != start and apart.get(wanted) == 0
        self.assertGreater(min(met.values()), CASES // 40, met)

    def test_faulty_queries(self) -> None:
        """By the call, with edges as they stand, and by the module where they are in
        order and the painting is n long."""
        met = {number: 0 for number in (0, 1, 2, 3, 4, 5, 6, 17)}
        for name, draw in draws("faulty", CASES):
            n, edges, start, reach, painting = faulty(draw, random_query(draw))
            tables, ordered = edge_tables(edges), edges == in_order(edges)
            number, answer = within(n, edges, start, reach)
            got = ask("vertices_within", n, tables, start, reach)
            self.assertEqual(got, (number, as_word(answer)), name)
            if ordered:
                found = outcome(wm.vertices_within, n, edges, start, reach)
                self.assertEqual(found, (number, answer), name)
            number, answer = nearest(n, edges, start, painting)
            got = ask("nearest_vertex", n, tables, start, painting)
            self.assertEqual(got, (number, as_word(answer)), name)
            if ordered and len(painting) == n:
                found = outcome(wm.nearest_vertex, edges, start, painting)
                self.assertEqual(found, (number, answer), name)
            met[number] += 1
        self.assertGreater(min(met.values()), CASES // 100, met)

    def test_queries_and_distances(self) -> None:
        """From each vertex of a patch the queries say what the distances say."""
        for name, draw, problem in problems("starts", CASES // 10):
            edges, painting, _ = problem
            for start, row in enumerate(wm.distances(problem.n, edges)):
                reach = max(draw.choice(row) - draw.randrange(2), 0)
                near = [x for x, length in enumerate(row) if length <= reach]
                found = wm.vertices_within(problem.n, edges, start, reach)
                self.assertEqual(found, near, name)
                painted = [(row[x], x) for x, amount in enumerate(painting) if amount]
                wanted = min(painted)[1] if painted else None
                found = wm.nearest_vertex(edges, start, painting)
                self.assertEqual(found, wanted, name)

    def weights(self) -> Iterator[Tuple[str, List[float]]]:
        """Floats next to powers of two, of any bits, and lists with faults."""
        for bits in range(2**23, 2**32, 2**23):
            for near in (-1, 0, 1):
                yield "a power of two", [single(bits + near)]
        for name, draw in draws("weights", CASES // 10):
            yield name, random_weights(draw)
            yield from ((name, [random_single(draw)]) for _ in range(100))
            yield from ((name, [random_double(draw)]) for _ in range(10))

    def test_to_amounts(self) -> None:
        met = {0: 0, 15: 0, 16: 0}
        for name, weights in self.weights():
            number, amounts = outcome(wm.to_amounts, weights)
            self.assertEqual((number, amounts), in_grains(weights), (name, weights))
            met[number] += 1
        self.assertGreater(min(met.values()), CASES // 2)

    def test_to_weights(self) -> None:
        """Each weight has the value, is a 32-bit float and gives the amount again."""
        met = {0: 0, 15: 0}
        for name, draw in draws("amounts", CASES // 2):
            amounts = random_amounts(draw)
            number, weights = outcome(wm.to_weights, amounts)
            wanted = as_weights(amounts)
            self.assertEqual((number, list(map(Fraction, weights))), wanted, name)
            met[number] += 1
            if number == 0:
                self.assertEqual(array.array("f", weights).tolist(), weights, name)
                self.assertEqual(wm.to_amounts(weights), amounts, name)
        self.assertGreater(min(met.values()), CASES // 10)

    def test_all_amounts(self) -> None:
        """Every amount but 0 and the largest out and in again. From one power of two to
        the next, the bits of their weights rise by one step."""
        for power in range(24):
            step, least = 2 ** (23 - power), (103 + power) * 2**23
            for first in range(0, 2**power, 2**16):
                n = min(2**16, 2**power - first)
                start, places = 2**power + first, least + step * first
                amounts = array.array("Q", range(start, start + n))
                bits = array.array("I", range(places, places + step * n, step))
                given = (ctypes.c_uint64 * n).from_buffer(amounts)
                weights, again = (ctypes.c_float * n)(), (ctypes.c_uint64 * n)()
                self.assertEqual(wm._call("mover_to_weights", given, weights), 0, start)
                self.assertEqual(bytes(weights), bits.tobytes(), start)
                self.assertEqual(wm._call("mover_to_amounts", weights, again), 0, start)
                self.assertEqual(bytes(again), amounts.tobytes(), start)

    def test_paintings(self) -> None:
        """Paintings as weights are the same paintings."""
        for name, draw, problem in problems("paintings", CASES // 20):
            edges, mu, nu = problem
            before, after = ([x * GRAIN for x in painting] for painting in (mu, nu))
            best, image = wm.solve(*problem), wm.write(*problem)
            tree: Any = random_tree(draw, problem)
            weighed = wm.evaluate(*problem, *tree)
            judged = wm.is_optimal(*problem, *tree)
            pairs: List[Any] = [(before, after), (before, nu), (mu, after)]
            for given in pairs:
                self.assertEqual(wm.solve(edges, *given), best, name)
                self.assertEqual(wm.evaluate(edges, *given, *tree), weighed, name)
                self.assertIs(wm.is_optimal(edges, *given, *tree), judged, name)
                self.assertEqual(wm.write(edges, *given), image, name)


# From n, edges as they stand, a start and a reach or a painting: the number that is
# returned, and the vertices, or the vertex or None.
Query = Callable[[int, List[wm.Edge], int, Any], Tuple[int, Any]]


class WrongAnswers(unittest.TestCase):
    """Answers that are spoiled on purpose: the tests above would notice."""

    def test_faults(self) -> None:
        problem = MARKED["G"].problem
        best = wm.solve(*problem)
        apart = wm.distances(problem.n, problem.edges)
        self.assertEqual(faults(problem, best, apart), [])
        crossing = [row[:] for row in best.table]  # 0 and 5 change what they send
        crossing[0][2:4], crossing[5][2:4] = [0, 1], [3, 1]
        short = [row[:] for row in best.table]
        short[5][2] = 0
        spoiled: List[Tuple[str, Dict[str, Any]]] = [
            ("tree", {"root": 1}),
            ("tree", {"parents": [0, 0, 1, 2, 3, 3]}),
            ("tree", {"parents": [0, 0, 1, 2, 5, 4]}),
            ("tree", {"parents": [1, 1, 1, 2, 3, 4]}),
            ("tree cost", {"cost": best.cost - 1}),
            ("plan by the rule", {"table": crossing, "plan": entries(crossing)}),
            ("plan cost", {"table": crossing, "plan": entries(crossing)}),
            ("plan as a list", {"plan": best.plan[::-1]}),
            ("plan as a list", {"plan": best.plan + [(5, 5, 0)]}),
            ("rows", {"table": short}),
            ("columns", {"table": short}),
            ("moves", {"moves": best.moves + 1}),
            ("potential at 0", {"potential": [u + 1 for u in best.potential]}),
            ("edge", {"potential": [2 * u for u in best.potential]}),
            ("worth", {"potential": [0, 0, 0, 0, 0, 0]}),
        ]
        for name, change in spoiled:
            wrong = dataclasses.replace(best, **change)
            self.assertIn(name, faults(problem, wrong, apart), change)

    def test_calls(self) -> None:
        """One number that a call hands out is one too large, and a test fails."""
        at_end = [(place, -1) for place in range(-5, 0)]
        record = [(-1, byte) for byte in (0, 8, 12, 13, 13 + 1, 13 + 5)]
        lists = [(place, 0) for place in range(-10, 0)]
        image = [(-2, byte) for byte in (*range(40), -1)] + [(-1, 0)]
        sheet = [(-5, k) for k in range(24)] + [(place, 0) for place in range(-4, 0)]
        page = [(-2, byte) for byte in (*range(96), -1)] + [(-1, 0)]
        tests: List[Tuple[Type[unittest.TestCase], str, List[Tuple[int, int]]]] = [
            (MarkedCases, "solve", at_end),
            (ByDefinition, "solve", at_end),
            (MarkedCases, "evaluate", at_end),
            (ByDefinition, "evaluate", at_end),
            (MarkedCases, "is_optimal", [(-1, 0)]),
            (MarkedCases, "distances", [(-1, -1)]),
            (MarkedCases, "mark_ancestors", [(-1, 0), (-1, -1)]),
            (ByDefinition, "mark_ancestors", [(-1, 0), (-1, -1)]),
            (MarkedCases, "vertices_within", [(-1, 0)]),
            (ByDefinition, "vertices_within", [(-1, 0)]),
            (MarkedCases, "nearest_vertex", [(-1, 0)]),
            (ByDefinition, "nearest_vertex", [(-1, 0)]),
            (MarkedCases, "to_amounts", [(-1, 0), (-1, -1)]),
            (ByDefinition, "to_amounts", [(-1, 0), (-1, -1)]),
            (MarkedCases, "to_weights", [(-1, 0), (-1, -1)]),
            (ByDefinition, "to_weights", [(-1, 0), (-1, -1)]),
            (MarkedCases, "run", record),
            (MarkedCases, "read", lists),
            (MarkedCases, "write_image", image),
            (ByDefinition, "write_image", image),
            (MarkedCases, "rewrite", image),
            (ByDefinition, "rewrite", image),
            (MarkedCases, "report", sheet),
            (ByDefinition, "report", sheet),
            (MarkedCases, "write_page", page),
            (ByDefinition, "write_page", page),
        ]
        for test, name, places in tests:
            for place, item in places:
                result = unittest.TestResult()
                with mock.patch.object(wm, "_call", spoil(name, place, item)):
                    test(f"test_{name}").run(result)
                self.assertTrue(result.failures, (test, name, place, item))

    def test_images(self) -> None:
        """A writer, rewriter or packer that is wrong in another way, and a test
        fails."""

        def tail_off(image: bytes) -> bytes:
            at, length = directory(image)[3]
            return image[: at + length]

        def sorting(image: bytes) -> bytes:
            patch = wm.read(image)
            return write(patch.edges, patch.mu, patch.nu, patch.root, patch.parents)

        def from_the_directory(images: List[bytes]) -> bytes:
            begin, reel = 2 + 8 * len(images), reel_of(images)
            return with_pairs(reel, [(at - begin, n) for at, n in pairs_in(reel)])

        def padded(images: List[bytes]) -> bytes:
            gaps = [bytes(-len(image) % 4) for image in images]
            return reel_of(images, [b"", *gaps])

        write = wm.write
        wrong: List[Tuple[str, str, Callable[..., Any]]] = [
            ("rewrite", "rewrite", bytes),
            ("rewrite", "rewrite", tail_off),
            ("rewrite", "rewrite", sorting),
            ("write", "write_image", lambda a, mu, *rest: write(a, mu, mu, *rest[1:])),
            ("write", "write_image", lambda a, mu, nu, *tree: write(a, mu, nu)),
            ("write", "write_image", image_of),
            ("pack", "pack", from_the_directory),
            ("pack", "pack", padded),
            ("pack", "pack", lambda images: reel_of(images[::-1])),
            ("pack", "pack", lambda images: reel_of(sorted(images))),
            ("pack", "pack", lambda images: reel_of([x for x in images if x])),
            ("pack", "pack", lambda images: reel_of(list(dict.fromkeys(images)))),
        ]
        for name, test, call in wrong:
            tests: List[Type[unittest.TestCase]] = [ByDefinition]
            for kind in tests + ([MarkedCases] if name == "pack" else []):
                result = unittest.TestResult()
                with mock.patch.object(wm, name, call):
                    kind(f"test_{test}").run(result)
                self.assertTrue(result.failures, (name, call, kind))

    def passes(
        self, library: Callable[..., Any], test: unittest.TestCase, cases: int = 2000
    ) -> bool:
        """Whether a test passes when a call is answered otherwise. The patches are
        many, since some faults show on few of them; the first that does ends a test.
        What is answered otherwise may be a refusal, but raises nothing else."""
        result = unittest.TestResult()
        with mock.patch.object(wm, "_call", library):
            with mock.patch.dict(globals(), CASES=cases):
                test.run(result)
        errors = [error for _, error in result.errors]
        self.assertEqual([error for error in errors if "Refusal: " not in error], [])
        return result.wasSuccessful()

    def test_right_queries(self) -> None:
        """The definitions in place of the library pass the tests of both queries."""
        for call, query in RIGHT.items():
            for test in (
                MarkedCases(f"test_{call}"),
                ByDefinition(f"test_{call}"),
                Refusals("test_queries"),
                Refusals("test_lists_of_queries"),
                Refusals("test_6_total"),
                ByDefinition("test_faulty_queries"),
            ):
                library = answering(call, query)
                self.assertTrue(self.passes(library, test, 200), (call, test))

    def test_queries(self) -> None:
        """A query that goes by other distances or answers otherwise, and tests fail."""
        for call, others in (
            ("vertices_within", wrong_within()),
            ("nearest_vertex", wrong_nearest()),
        ):
            for name, query in {**wrong_distances(call), **others}.items():
                library = answering(call, query)
                for test in (MarkedCases(f"test_{call}"), ByDefinition(f"test_{call}")):
                    self.assertFalse(self.passes(library, test), (call, name, test))

    def test_refusals_of_queries(self) -> None:
        """A query that refuses otherwise, and tests fail."""
        for call, by_hand, wrong in (
            ("vertices_within", "test_queries", wrong_refusals("vertices_within")),
            ("nearest_vertex", "test_queries", wrong_refusals("nearest_vertex")),
            ("nearest_vertex", "test_6_total", wrong_totals()),
            ("nearest_vertex", "test_lists_of_queries", wrong_lists()),
        ):
            for name, query in wrong.items():
                library = answering(call, query)
                for test in (Refusals(by_hand), ByDefinition("test_faulty_queries")):
                    self.assertFalse(self.passes(library, test), (call, name, test))

    def test_right_reports(self) -> None:
        """The definition in place of the library passes the tests of reports."""
        for test in (
            MarkedCases("test_report"),
            MarkedCases("test_report_of_each"),
            MarkedCases("test_images_with_a_gap_behind"),
            ByDefinition("test_report"),
            Refusals("test_14_reels"),
            Refusals("test_14_pairs"),
            Refusals("test_tallies"),
            ByDefinition("test_damaged_reels"),
        ):
            library = reporting(right_report)
            self.assertTrue(self.passes(library, test, 200), test)

    def test_reports(self) -> None:
        """A report that counts, sums or chooses otherwise, or takes other bytes for an
        image, and tests fail."""
        for name, wrong in {**wrong_sheets(), **wrong_images()}.items():
            for test in (MarkedCases("test_report"), ByDefinition("test_report")):
                passed = self.passes(reporting(wrong), test)
                self.assertFalse(passed, (name, test))

    def test_refusals_of_reports(self) -> None:
        """A report that refuses otherwise, or not, or leaves something, and tests
        fail."""
        for by_hand, group in (
            ("test_14_reels", wrong_reels()),
            ("test_14_pairs", wrong_pairs()),
            ("test_tallies", wrong_tallies()),
        ):
            for name, wrong in group.items():
                for test in (Refusals(by_hand), ByDefinition("test_damaged_reels")):
                    passed = self.passes(reporting(wrong), test)
                    self.assertFalse(passed, (name, test))

    def test_right_pages(self) -> None:
        """The definition in place of the library passes the tests of pages."""
        for test in (
            MarkedCases("test_write_page"),
            ByDefinition("test_write_page"),
            Refusals("test_pages"),
            Refusals("test_buffers_of_pages"),
            Refusals("test_lists_of_pages"),
            ByDefinition("test_faulty_pages"),
        ):
            self.assertTrue(self.passes(paging(right_page), test, 400), test)

    def test_pages(self) -> None:
        """A page with other lines, figures or bytes around it, or in another order, and
        tests fail."""
        wrong = {**wrong_lines(), **wrong_orders(), **wrong_figures(), **wrong_rests()}
        for name, page in wrong.items():
            for kind in (MarkedCases, ByDefinition):
                test = kind("test_write_page")
                self.assertFalse(self.passes(paging(page), test), (name, test))

    def test_refusals_of_pages(self) -> None:
        """A page that refuses otherwise, or not, or leaves something, and tests
        fail."""
        for by_hand, group in (
            ("test_pages", wrong_page_refusals()),
            ("test_buffers_of_pages", wrong_buffers()),
        ):
            for name, page in group.items():
                for test in (Refusals(by_hand), ByDefinition("test_faulty_pages")):
                    self.assertFalse(self.passes(paging(page), test), (name, test))


def spoil(spoiled: str, place: int, item: int) -> Callable[..., Any]:
    """The library with one result of a call one too large: an item of a table, or the
    number behind a pointer."""
    real = wm._call

    def call(name: str, *arguments: Any) -> Any:
        number = real(name, *arguments)
        if name == f"mover_{spoiled}" and number == 0:
            result = arguments[place]
            if isinstance(result, ctypes.Array):
                result[item] += 1
            else:
                result._obj.value += 1
        return number

    return call


RIGHT: Dict[str, Query] = {"vertices_within": within, "nearest_vertex": nearest}
KEPT = -1  # in place of an answer: the single result is not written


def answering(call: str, query: Query) -> Callable[..., Any]:
    """The library with another query. Edge lists of unequal length are given to it as
    too many edges, since both are refused by 2."""
    real = wm._call

    def other(name: str, *arguments: Any) -> Any:
        if name != f"mover_{call}":
            return real(name, *arguments)
        n, a, b, lengths, start, more, result = arguments
        equal = len(a) == len(b) == len(lengths)
        edges = list(zip(a, b, lengths)) if equal else 513 * [(0, 0, 0)]
        given = list(more) if isinstance(more, ctypes.Array) else more
        number, answer = query(n, edges, start, given)
        if answer != KEPT:
            result._obj.value = as_word(answer)
        return number

    return other


def swept(edges: List[wm.Edge], start: int, sweeps: int) -> Dict[int, int]:
    """Lengths that are not yet the least: after so many sweeps over the edges, from the
    lower end to the higher by rising number and back, in turn."""
    least = {start: 0}
    for sweep in range(sweeps):
        for a, b, length in edges if sweep % 2 == 0 else edges[::-1]:
            x, y = (a, b) if sweep % 2 == 0 else (b, a)
            if x in least and least[x] + length < least.get(y, INFINITY):
                least[y] = least[x] + length
    return least


def own_lengths(edges: List[wm.Edge], start: int) -> Dict[int, int]:
    """The length of each edge at the start, by its other end."""
    ends = {a + b - start: length for a, b, length in edges if start in (a, b)}
    return {start: 0, **ends}


def wrong_distances(call: str) -> Dict[str, Query]:
    """A query by other lengths from the start. Its refusals are right."""

    def other(lengths: Callable[[List[wm.Edge], int], Dict[int, int]]) -> Query:
        def query(n: int, edges: List[wm.Edge], start: int, more: Any) -> Any:
            number, answer = RIGHT[call](n, edges, start, more)
            if number != 0:
                return number, answer
            found = lengths(edges, start)
            apart = [found.get(x, INFINITY) for x in range(n)]
            if call == "vertices_within":
                return 0, [x for x in range(n) if apart[x] <= more]
            painted = (x for x in range(n) if more[x] > 0)
            return 0, min(painted, key=lambda x: apart[x], default=None)

        return query

    def changed_lengths(change: Callable[[int], int]) -> Query:
        return other(
            lambda edges, x: lengths_from([(a, b, change(c)) for a, b, c in edges], x)
        )

    return {
        "an edge's own length": other(own_lengths),
        "edges counted": changed_lengths(lambda c: 1),
        "a seam 1 long": changed_lengths(lambda c: max(c, 1)),
        "a seam 65,535 long": changed_lengths(lambda c: c or 65_535),
        "no seams": other(
            lambda edges, x: lengths_from([edge for edge in edges if edge[2] > 0], x)
        ),
        "from vertex 0": other(lambda edges, x: lengths_from(edges, 0)),
        "16 bits of a length": other(
            lambda edges, x: {y: c % 2**16 for y, c in lengths_from(edges, x).items()}
        ),
        "one sweep": other(lambda edges, x: swept(edges, x, 1)),
        "two sweeps": other(lambda edges, x: swept(edges, x, 2)),
        "three sweeps": other(lambda edges, x: swept(edges, x, 3)),
    }


def wrong_within() -> Dict[str, Query]:
    """Other vertices within a reach. The refusals are right."""

    def kept(keep: Callable[[int, int, int], bool]) -> Query:
        def query(n: int, edges: List[wm.Edge], start: int, reach: int) -> Any:
            number, answer = within(n, edges, start, reach)
            return number, [x for x in answer if keep(x, n, start)]

        return query

    return {
        "below the reach": lambda n, edges, x, reach: within(n, edges, x, reach - 1),
        "past the reach": lambda n, edges, x, reach: within(n, edges, x, reach + 1),
        "16 bits of reach": lambda n, edges, x, r: within(n, edges, x, r % 2**16),
        "the start left out": kept(lambda x, n, start: x != start),
        "the last left out": kept(lambda x, n, start: x != n - 1),
        "32 bits": kept(lambda x, n, start: x < 32),
    }


def wrong_nearest() -> Dict[str, Query]:
    """Another vertex as the nearest, by another key or without one. The refusals are
    right."""

    def least(key: Callable[[int, int, int], Any]) -> Query:
        def query(n: int, edges: List[wm.Edge], start: int, amounts: List[int]) -> Any:
            apart = lengths_from(edges, start)
            painted = (x for x in range(n) if amounts[x] > 0)
            answer = min(
                painted, key=lambda x: key(apart[x], x, amounts[x]), default=None
            )
            number, right = nearest(n, edges, start, amounts)
            return number, right if number != 0 else answer

        return query

    def repainted(change: Callable[[int, int], int]) -> Query:
        def query(n: int, edges: List[wm.Edge], start: int, amounts: List[int]) -> Any:
            painting = [change(amount, x - start) for x, amount in enumerate(amounts)]
            return nearest(n, edges, start, painting)

        return query

    def none_as(answer: Callable[[int], int]) -> Query:
        def query(n: int, *given: Any) -> Any:
            number, found = nearest(n, *given)
            return number, answer(n) if found is None else found

        return query

    return {
        "the highest of a tie": least(lambda length, x, amount: (length, -x)),
        "the most paint of a tie": least(lambda length, x, amount: (length, -amount)),
        "the lowest number": least(lambda length, x, amount: x),
        "the most paint": least(lambda length, x, amount: -amount),
        "the farthest": least(lambda length, x, amount: -length),
        "amounts ignored": repainted(lambda amount, ahead: 1),
        "a single grain ignored": repainted(lambda amount, ahead: amount // 2),
        "the start left out": repainted(lambda amount, ahead: amount if ahead else 0),
        "none as 0": none_as(lambda n: 0),
        "none as n": none_as(lambda n: n),
    }


def wrong_refusals(call: str) -> Dict[str, Query]:
    """A query that refuses by another number, or not, or does not clear its result."""
    painted = call == "nearest_vertex"
    order = [1, 2, 3, 4, 5, 6, 17] if painted else [1, 2, 3, 4, 5, 17]

    def refusing(choose: Callable[[List[int]], Tuple[int, Any]]) -> Query:
        def query(n: int, edges: List[wm.Edge], start: int, more: Any) -> Any:
            numbers = failing(n, edges, start, more if painted else None)
            return choose(numbers) if numbers else RIGHT[call](n, edges, start, more)

        return query

    def without(number: int) -> Query:
        return refusing(
            lambda numbers: (next((k for k in numbers if k != number), 0), [])
        )

    def before(first: int, number: int) -> Query:
        other = sorted(order, key=lambda k: (first, 0) if k == number else (k, 1))
        return refusing(lambda numbers: (min(numbers, key=other.index), []))

    return {
        **{f"{number} left out": without(number) for number in order},
        **{f"{k} before {j}": before(j, k) for j, k in zip(order, order[1:])},
        "17 first": before(1, 17),
        "the result kept": refusing(lambda numbers: (numbers[0], KEPT)),
        "the result 1": refusing(lambda numbers: (numbers[0], 1)),
        **wrong_starts(RIGHT[call]),
    }


def wrong_starts(right: Query) -> Dict[str, Query]:
    """A query that takes a start that is no vertex for one."""

    def other(change: Callable[[int, int], int]) -> Query:
        return lambda n, edges, start, more: right(n, edges, change(n, start), more)

    return {
        "a start of n": other(lambda n, start: start - (start == n)),
        "32 bits of a start": other(lambda n, start: start % 2**32),
        "8 bits of a start": other(lambda n, start: start % 2**8),
        "6 bits of a start": other(lambda n, start: start % 2**6),
    }


def wrong_lists() -> Dict[str, Query]:
    """A nearest vertex that takes a painting which is not n long."""

    def other(change: Callable[[int, List[int]], List[int]]) -> Query:
        return lambda n, edges, x, more: nearest(n, edges, x, change(n, more))

    return {
        "cut off": other(lambda n, amounts: amounts[:n]),
        "filled up": other(lambda n, amounts: amounts + (n - len(amounts)) % 65 * [0]),
    }


def wrong_totals() -> Dict[str, Query]:
    """A nearest vertex with another bound on the painting's total."""

    def taken(accept: Callable[[List[int]], bool]) -> Query:
        def query(n: int, edges: List[wm.Edge], start: int, amounts: List[int]) -> Any:
            few = [min(amount, 1) for amount in amounts]
            most = [2**24 + 1 for _ in amounts]
            return nearest(n, edges, start, few if accept(amounts) else most)

        return query

    return {
        "64 bits of a total": taken(lambda amounts: sum(amounts) % 2**64 <= FULL),
        "each amount alone": taken(lambda amounts: max(amounts, default=0) <= FULL),
        "a total of 16,777,216 refused": taken(lambda amounts: sum(amounts) < FULL),
        "a total of 16,777,217 taken": taken(lambda amounts: sum(amounts) <= FULL + 1),
    }


# From a reel and the tally that is lent: what the report leaves.
Reporting = Callable[[bytes, List[int]], Left]
Answers = List[Tuple[int, int]]  # the numbers and costs of images


def reporting(wrong: Reporting) -> Callable[..., Any]:
    """The library with another report."""
    real = wm._call

    def other(name: str, *arguments: Any) -> Any:
        if name != "mover_report":
            return real(name, *arguments)
        reel, tally, *results = arguments
        number, tally[:], values = wrong(bytes(reel), list(tally))
        for result, value in zip(results, values):
            if value != KEPT:
                result._obj.value = value
        return number

    return other


def right_report(reel: bytes, tally: List[int]) -> Left:
    return left(*report(reel, len(tally)), tally)


def answers_in(reel: bytes) -> Answers:
    return [answer_to(image) for image in images_of(reel)]


def wrong_sheets() -> Dict[str, Reporting]:
    """Other sheets of the right answers. The refusals are right."""

    def parts(change: Callable[[wm.Report, Answers], Dict[str, Any]]) -> Reporting:
        def other(reel: bytes, tally: List[int]) -> Left:
            number, sheet = report(reel, len(tally))
            if number == 0:
                new = change(sheet, answers_in(reel))
                sheet = dataclasses.replace(sheet, **new)
            return left(number, sheet, tally)

        return other

    def first(choose: Callable[[List[int], Answers], int]) -> Reporting:
        """Another first, from the images that have the greatest cost."""

        def change(sheet: wm.Report, answers: Answers) -> Dict[str, Any]:
            have = [x for x, a in enumerate(answers) if a == (0, sheet.greatest)]
            return {"first": choose(have, answers)} if have else {}

        return parts(change)

    def none(choose: Callable[[int], int]) -> Reporting:
        """Another first where no image is accepted."""
        return parts(
            lambda sheet, answers: {
                "first": sheet.first if sheet.accepted else choose(len(answers))
            }
        )

    def greatest(key: Callable[[int], int]) -> Reporting:
        """Another greatest, and the first image that has it."""

        def change(sheet: wm.Report, answers: Answers) -> Dict[str, Any]:
            costs = {x: cost for x, (number, cost) in enumerate(answers) if number == 0}
            if not costs:
                return {}
            first = max(costs, key=lambda x: (key(costs[x]), -x))
            return {"first": first, "greatest": costs[first]}

        return parts(change)

    def tallied(change: Callable[[List[int], List[int]], List[int]]) -> Reporting:
        """Another tally, from what was lent and what is right."""

        def other(reel: bytes, tally: List[int]) -> Left:
            number, right, results = right_report(reel, tally)
            return number, change(tally, right) if number == 0 else tally, results

        return other

    return {
        "the last": first(lambda have, answers: have[-1]),
        "the first accepted": first(
            lambda have, answers: [number for number, _ in answers].index(0)
        ),
        "counted from 1": first(lambda have, answers: have[0] + 1),
        "counted among the accepted": first(
            lambda have, answers: [number for number, _ in answers[: have[0]]].count(0)
        ),
        "a refused image that costs 0": first(
            lambda have, answers: [cost for _, cost in answers].index(
                answers[have[0]][1]
            )
        ),
        "image 0 if none costs anything": first(
            lambda have, answers: have[0] if answers[have[0]][1] > 0 else 0
        ),
        "none if none costs anything": first(
            lambda have, answers: have[0] if answers[have[0]][1] > 0 else len(answers)
        ),
        "8 bits of an index": first(lambda have, answers: have[0] % 256),
        "image 0 if none is accepted": none(lambda count: 0),
        "the last if none is accepted": none(lambda count: max(count - 1, 0)),
        "all bits if none is accepted": none(lambda count: 2**64 - 1),
        "the least": greatest(lambda cost: -cost),
        "32 bits compared": greatest(lambda cost: cost % 2**32),
        "32 bits of the greatest": parts(
            lambda sheet, answers: {"greatest": sheet.greatest % 2**32}
        ),
        "32 bits of the sum": parts(lambda sheet, answers: {"sum": sheet.sum % 2**32}),
        "each cost once in the sum": parts(
            lambda sheet, answers: {"sum": sum({cost for _, cost in answers})}
        ),
        "all as accepted": parts(lambda sheet, answers: {"accepted": len(answers)}),
        "added to what was lent": tallied(
            lambda lent, right: [a + b for a, b in zip(lent[:24], right)] + right[24:]
        ),
        "18 places written": tallied(lambda lent, right: right[:18] + lent[18:]),
        "places without an image kept": tallied(
            lambda lent, right: [b if b > 0 else a for a, b in zip(lent, right)]
        ),
        "the rest made 0": tallied(
            lambda lent, right: right[:24] + len(right[24:]) * [0]
        ),
    }


def wrong_images() -> Dict[str, Reporting]:
    """Sheets of other images, or of other answers to them. But for an image's 2, the
    refusals are right."""

    def answered(answers: Callable[[bytes], Answers]) -> Reporting:
        def other(reel: bytes, tally: List[int]) -> Left:
            number, _ = report(reel, len(tally))
            return left(number, number or sheet_of(answers(reel)), tally)

        return other

    def each(answer: Callable[[bytes], Tuple[int, int]]) -> Reporting:
        return answered(lambda reel: [answer(image) for image in images_of(reel)])

    def cut(change: Callable[[int, int, int], Tuple[int, int]]) -> Reporting:
        """Other bytes, from an image's start and end and where the next one starts."""

        def answers(reel: bytes) -> Answers:
            pairs = pairs_in(reel)
            after = [at for at, _ in pairs[1:]] + [len(reel)]
            places = [
                slice(*change(at, at + n, end)) for (at, n), end in zip(pairs, after)
            ]
            return [answer_to(reel[place]) for place in places]

        return answered(answers)

    def without_tree(image: bytes) -> Tuple[int, int]:
        number, cost = answer_to(image)
        if number in (0, 8, 9, 10):
            return answer_to(image_of(*contents_of(image)[:3]))
        return number, cost

    def kept_record(reel: bytes) -> Answers:
        """A refused image costs what was accepted last."""
        cost, found = 0, []
        for number, own in answers_in(reel):
            cost = own if number == 0 else cost
            found.append((0, cost))
        return found

    def until_refused(reel: bytes) -> Answers:
        answers = answers_in(reel)
        return list(itertools.takewhile(lambda answer: answer[0] == 0, answers))

    def own_two(reel: bytes, tally: List[int]) -> Left:
        number, sheet = report(reel, len(tally))
        return left(2 if number == 0 and sheet.tally[2] > 0 else number, sheet, tally)

    return {
        "the best cost for a tree": each(
            lambda image: without_tree(image)
            if answer_to(image)[0] == 0
            else answer_to(image)
        ),
        "trees not looked at": each(without_tree),
        "a record that is kept": answered(kept_record),
        "an image's 2": own_two,
        "until one is refused": answered(until_refused),
        "empty images left out": answered(
            lambda reel: [answer_to(image) for image in images_of(reel) if image]
        ),
        "each image once": answered(
            lambda reel: [answer_to(image) for image in dict.fromkeys(images_of(reel))]
        ),
        "the first left out": answered(lambda reel: answers_in(reel)[1:]),
        "the last left out": answered(lambda reel: answers_in(reel)[:-1]),
        "8 bits of the count": answered(lambda reel: answers_in(reel)[: reel[0]]),
        "up to the next": cut(lambda at, end, after: (at, after)),
        "a byte less": cut(lambda at, end, after: (at, max(at, end - 1))),
        "16 bits of an offset": cut(
            lambda at, end, after: (at % 2**16, at % 2**16 + end - at)
        ),
        "16 bits of a length": cut(
            lambda at, end, after: (at, at + (end - at) % 2**16)
        ),
        "65,536 bytes": cut(lambda at, end, after: (at, min(end, at + 65_536))),
    }


def refusing(images: Callable[[bytes], Optional[List[bytes]]]) -> Reporting:
    """A report with another check 14, from what gives the images or None."""

    def other(reel: bytes, tally: List[int]) -> Left:
        found = images(reel)
        if found is None or len(tally) < 24:
            return left(14 if found is None else 2, [], tally)
        return left(0, sheet_of([answer_to(image) for image in found]), tally)

    return other


def wrong_reels() -> Dict[str, Reporting]:
    """Reels of other sizes and counts, or in another order, refused or not."""

    def right(reel: bytes) -> Optional[List[bytes]]:
        return images_of(reel) if in_place(reel) else None

    def some(keep: Callable[[bytes], bool]) -> Reporting:
        return refusing(
            lambda reel: images_of(reel) if in_place(reel) and keep(reel) else None
        )

    def in_any_order(reel: bytes) -> Optional[List[bytes]]:
        if len(reel) < 2 or len(reel) < directory_end(reel):
            return None
        pairs = pairs_in(reel)
        return images_of(reel) if in_place(with_pairs(reel, sorted(pairs))) else None

    return {
        "no bytes taken": refusing(lambda reel: right(reel or bytes(2))),
        "one byte taken": refusing(lambda reel: right(reel + bytes(len(reel) == 1))),
        "no images refused": some(lambda reel: reel[:2] != bytes(2)),
        "8 bits of the count": refusing(
            lambda reel: right(reel[:1] + bytes(1) + reel[2:])
        ),
        "over 65,536 bytes refused": some(lambda reel: len(reel) <= 65_536),
        "a tail refused": some(
            lambda reel: len(reel) == max([2, *map(sum, pairs_in(reel))])
        ),
        "in any order": refusing(in_any_order),
    }


class Place(NamedTuple):
    """A pair of a reel, with what it is compared with."""

    at: int
    end: int
    before: int  # its forerunner's end, or for the first pair the directory's
    forerunner: int  # its forerunner's start, or for the first pair the directory's end
    begin: int  # the directory's end
    size: int
    last: bool


def wrong_pairs() -> Dict[str, Reporting]:
    """Another check of the pairs, each in its turn."""

    def walking(fine: Callable[[Place], bool], bits: int = 64) -> Reporting:
        def images(reel: bytes) -> Optional[List[bytes]]:
            if len(reel) < 2 or len(reel) < directory_end(reel):
                return None
            begin, pairs = directory_end(reel), pairs_in(reel)
            before = forerunner = begin
            for x, (at, length) in enumerate(pairs, 1):
                end = (at + length) % 2**bits
                given = at, end, before, forerunner, begin, len(reel), x == len(pairs)
                if not fine(Place(*given)):
                    return None
                before, forerunner = end, at
            return images_of(reel)

        return refusing(images)

    def starting(fine: Callable[[Place], bool]) -> Reporting:
        return walking(lambda pair: fine(pair) and pair.end <= pair.size)

    def ending(fine: Callable[[Place], bool]) -> Reporting:
        return walking(lambda pair: pair.before <= pair.at and fine(pair))

    def unless(free: Callable[[Place], bool]) -> Reporting:
        return walking(
            lambda pair: free(pair) or pair.before <= pair.at and pair.end <= pair.size
        )

    def inside(bound: Callable[[int], int]) -> Reporting:
        """Where the first pair may start, from the directory's end."""
        return starting(
            lambda pair: pair.at
            >= (bound(pair.begin) if pair.forerunner == pair.begin else pair.before)
        )

    return {
        "no pair looked at": walking(lambda pair: True),
        "inside the directory": inside(lambda begin: 0),
        "inside the directory, not the count": inside(lambda begin: 2),
        "inside the last pair": inside(lambda begin: begin - 8),
        "at the directory's last byte": inside(lambda begin: begin - 1),
        "not right behind the directory": inside(lambda begin: begin + 1),
        "the forerunner not looked at": starting(lambda pair: pair.begin <= pair.at),
        "behind the forerunner's start": starting(
            lambda pair: pair.begin <= pair.at and pair.forerunner <= pair.at
        ),
        "on the forerunner's last byte": starting(
            lambda pair: max(pair.before - 1, pair.begin) <= pair.at
        ),
        "not right behind the forerunner": starting(
            lambda pair: pair.before < pair.at or pair.begin == pair.at
        ),
        "without a gap": starting(lambda pair: pair.before == pair.at),
        "the end not looked at": ending(lambda pair: True),
        "a byte past the end": ending(lambda pair: pair.end <= pair.size + 1),
        "not up to the end": ending(lambda pair: pair.end < pair.size),
        "starts before the end": ending(lambda pair: pair.at <= pair.size),
        "32 bits of an end": walking(
            lambda pair: pair.before <= pair.at and pair.end <= pair.size, 32
        ),
        "empty ones not looked at": unless(lambda pair: pair.at == pair.end),
        "the first not looked at": unless(lambda pair: pair.forerunner == pair.begin),
        "the last not looked at": unless(lambda pair: pair.last),
    }


def wrong_tallies() -> Dict[str, Reporting]:
    """Other lengths of a tally that are refused, 2 and 14 in another order, and
    refusals that leave something."""

    def wanting(places: int) -> Reporting:
        def other(reel: bytes, tally: List[int]) -> Left:
            number, sheet = report(reel)
            if number == 0 and len(tally) < places:
                return left(2, [], tally)
            number, new, results = left(number, sheet, tally)
            return number, new[: len(tally)], results

        return other

    def leaving(change: Callable[[int, bytes, List[int]], Left]) -> Reporting:
        def other(reel: bytes, tally: List[int]) -> Left:
            number, sheet = report(reel, len(tally))
            if number == 0:
                return left(number, sheet, tally)
            return change(number, reel, tally)

        return other

    def results(values: Callable[[bytes], List[int]]) -> Reporting:
        return leaving(lambda number, reel, tally: (number, tally, values(reel)))

    def so_far(number: int, reel: bytes, tally: List[int]) -> Left:
        """The sheet of the images before the pair that is refused."""
        if len(reel) < 2 or len(reel) < directory_end(reel):
            return left(number, [], tally)
        answers, end = [], directory_end(reel)
        for (at, length), image in zip(pairs_in(reel), images_of(reel)):
            if at < end or at + length > len(reel):
                break
            answers.append(answer_to(image))
            end = at + length
        _, new, results = left(0, sheet_of(answers), tally)
        return number, new[: len(tally)], results

    return {
        "any places": wanting(0),
        "18 places": wanting(18),
        "23 places": wanting(23),
        "25 places": wanting(25),
        "2 before 14": lambda reel, tally: left(
            *(report(reel) if len(tally) >= 24 else (2, [])), tally
        ),
        "refused after the images": leaving(so_far),
        "the tally of the images left": leaving(
            lambda *given: (given[0], so_far(*given)[1], [0, 0, 0, 0])
        ),
        "the results of the images left": leaving(
            lambda *given: (given[0], given[2], so_far(*given)[2])
        ),
        "the tally made 0": leaving(
            lambda number, reel, tally: (number, len(tally) * [0], [0, 0, 0, 0])
        ),
        "accepted kept": results(lambda reel: [KEPT, 0, 0, 0]),
        "the sum kept": results(lambda reel: [0, KEPT, 0, 0]),
        "the greatest kept": results(lambda reel: [0, 0, KEPT, 0]),
        "the first kept": results(lambda reel: [0, 0, 0, KEPT]),
        "the count as the first": results(
            lambda reel: [0, 0, 0, int.from_bytes(reel[:2], "little")]
        ),
    }


# From what a page is asked with and the buffer that is lent: what the page leaves.
Paging = Callable[[PageCall, bytes], PageLeft]


def paging(wrong: Paging) -> Callable[..., Any]:
    """The library with another page. Edge lists of unequal length are given to it as
    too many edges, since both are refused by 2."""
    real = wm._call

    def other(name: str, *arguments: Any) -> Any:
        if name != "mover_write_page":
            return real(name, *arguments)
        n, a, b, lengths, mu, nu, root, parents, buffer, length = arguments
        equal = len(a) == len(b) == len(lengths)
        edges = list(zip(a, b, lengths)) if equal else 513 * [(0, 0, 0)]
        tables = edges, list(mu), list(nu), root, list(parents)
        given = PageCall(n, *tables, len(buffer))
        number, buffer[:], value = wrong(given, bytes(buffer))
        if value != KEPT:
            length._obj.value = value
        return number

    return other


def right_page(given: PageCall, lent: bytes) -> PageLeft:
    return page_left(*tree_page(given), lent)


def accepted(page: Callable[[PageCall], str]) -> Paging:
    """Another page where one is accepted, cut off where the right one ends."""

    def other(given: PageCall, lent: bytes) -> PageLeft:
        number, right = tree_page(given)
        return page_left(number, page(given)[: len(right)] if right else "", lent)

    return other


def right_lines(given: PageCall) -> List[Tuple[int, int, int, int]]:
    """Number, depth, imbalance and potential of each line."""
    weighed = weigh(Problem(given.edges, given.mu, given.nu), given.parents)
    return [
        (x, depth, weighed.imbalance[x], weighed.potential[x])
        for x, depth in preorder(given.root, given.parents)
    ]


def wrong_lines() -> Dict[str, Paging]:
    """Lines of another form, from their number, depth, imbalance and potential. The
    refusals are right."""

    def lines(line: Callable[[int, int, int, int], str]) -> Paging:
        return accepted(
            lambda given: "".join(line(*parts) for parts in right_lines(given))
        )

    def indented(indent: Callable[[int, int], str]) -> Paging:
        """Another start, from the number and the depth."""
        return lines(
            lambda x, depth, *figures: indent(x, depth).ljust(68)[:68]
            + line_of(x, depth, *figures)[68:]
        )

    def fields(form: Callable[[int], str]) -> Paging:
        """Other fields for both figures."""
        return lines(
            lambda x, depth, *figures: line_of(x, depth, *figures)[:68]
            + "".join(map(form, figures))
            + "     \n"
        )

    def changed_line(change: Callable[[str], str]) -> Paging:
        return lines(lambda *parts: change(line_of(*parts)))

    return {
        "67 columns": changed_line(lambda line: line[:67] + line[68:]),
        "67 columns, six spaces": changed_line(
            lambda line: line[:67] + line[68:90] + "      \n"
        ),
        "69 columns, four spaces": changed_line(
            lambda line: line[:68] + " " + line[68:94] + "\n"
        ),
        "four spaces": changed_line(lambda line: line[:94] + "\n"),
        "six spaces": changed_line(lambda line: line[:95] + " \n"),
        "no newline": changed_line(lambda line: line[:95] + " "),
        "a zero for the newline": changed_line(lambda line: line[:95] + "\0"),
        "a return before the newline": changed_line(lambda line: line[:94] + "\r\n"),
        "potential before imbalance": lines(
            lambda x, depth, imbalance, u: line_of(x, depth, u, imbalance)
        ),
        "minus in the field's first column": fields(lambda z: f"{z:=11}"),
        "minus two before the digits": fields(
            lambda z: f"{'- ' if z < 0 else ''}{abs(z)}".rjust(11)
        ),
        "minus left out": fields(lambda z: f"{abs(z):11}"),
        "plus signs": fields(lambda z: f"{z:+11}"),
        "left-aligned": fields(lambda z: f"{z:<11}"),
        "filled with 0": fields(lambda z: f"{z:011}"),
        "0 left out": fields(lambda z: f"{z or '':>11}"),
        "0 with a minus": fields(lambda z: f"{z or '-0':>11}"),
        "seven digits": fields(lambda z: f"{abs(z) % 10**7 * (z > 0 or -1):11}"),
        "fields of ten and twelve": changed_line(
            lambda line: line[:68] + line[69:79] + " " + line[79:]
        ),
        "numbers without a 0 before": indented(lambda x, depth: depth * " " + f"{x}"),
        "numbers from 1": indented(lambda x, depth: depth * " " + f"{x + 1:02}"),
        "numbers to base 16": indented(lambda x, depth: depth * " " + f"{x:02x}"),
        "depth + 2 per level": indented(lambda x, depth: 2 * depth * " " + f"{x:02}"),
        "the root at 1": indented(lambda x, depth: (depth + 1) * " " + f"{x:02}"),
        "not indented": indented(lambda x, depth: f"{x:02}"),
        "indented by 31 at most": indented(
            lambda x, depth: min(depth, 31) * " " + f"{x:02}"
        ),
        "dots for spaces": indented(lambda x, depth: depth * "." + f"{x:02}"),
    }


def wrong_orders() -> Dict[str, Paging]:
    """Right lines in another order, or not each of them once. The refusals are
    right."""

    def lines(order: Callable[[PageCall, List[Any]], List[Any]]) -> Paging:
        """From the right lines, each as its number, depth and figures."""
        return accepted(
            lambda given: "".join(
                line_of(*parts) for parts in order(given, right_lines(given))
            )
        )

    def walked(
        children: Callable[[List[int]], List[int]], last: bool = False
    ) -> Paging:
        """Other children, or a vertex behind its own."""

        def page(given: PageCall) -> str:
            known = {x: line_of(x, *rest) for x, *rest in right_lines(given)}

            def below(x: int) -> str:
                own = [y for y, up in enumerate(given.parents) if up == x != y]
                subtrees = "".join(map(below, children(own)))
                return subtrees + known[x] if last else known[x] + subtrees

            return below(given.root)

        return accepted(page)

    return {
        "only the first child": walked(lambda children: children[:1]),
        "only the last child": walked(lambda children: children[-1:]),
        "no grandchildren": lines(
            lambda given, right: [line for line in right if line[1] < 2]
        ),
        "children by falling number": walked(lambda children: children[::-1]),
        "the first child last": walked(lambda children: children[1:] + children[:1]),
        "children before their parent": walked(lambda children: children, last=True),
        "by number": lines(lambda given, right: sorted(right)),
        "by depth": lines(lambda given, right: sorted(right, key=lambda line: line[1])),
        "vertex 0 first": lines(
            lambda given, right: sorted(right, key=lambda line: line[0] != 0)
        ),
        "a line twice": lines(lambda given, right: right[:2] + right[1:]),
        "the last line twice": lines(lambda given, right: right[:-2] + 2 * right[-1:]),
        "the root as its own child": lines(
            lambda given, right: right[:1]
            + sorted([(given.root, 1, 0, 0), *right[1:2]])
            + right[2:]
        ),
        "the first line left out": lines(lambda given, right: right[1:]),
        "the last line left out": lines(lambda given, right: right[:-1]),
        "63 lines at most": lines(lambda given, right: right[:63]),
    }


def wrong_figures() -> Dict[str, Paging]:
    """Other figures in right lines. The refusals are right."""

    def figures(other: Callable[[PageCall, int, int, int], Tuple[int, int]]) -> Paging:
        """From the vertex, its imbalance and its potential."""
        return accepted(
            lambda given: "".join(
                line_of(x, depth, *other(given, x, imbalance, u))
                for x, depth, imbalance, u in right_lines(given)
            )
        )

    def signed(zero: int) -> Paging:
        """Another sign of 0."""

        def page(given: PageCall) -> str:
            lengths = Problem(given.edges, given.mu, given.nu).pairs()
            potential, text = {}, ""
            for x, depth, imbalance, _ in right_lines(given):
                up = given.parents[x]
                sign = (imbalance > 0) - (imbalance < 0) or zero
                slope = 0 if x == up else sign * lengths[x, up]
                potential[x] = potential.get(up, 0) + slope
                text += line_of(x, depth, imbalance, potential[x])
            return text

        return accepted(page)

    return {
        "the sign of 0 taken as plus": signed(1),
        "the sign of 0 taken as minus": signed(-1),
        "the vertex's own difference": figures(
            lambda given, x, imbalance, u: (given.mu[x] - given.nu[x], u)
        ),
        "nu - mu": figures(lambda given, x, imbalance, u: (-imbalance, u)),
        "the imbalance's size": figures(
            lambda given, x, imbalance, u: (abs(imbalance), u)
        ),
        "the potential turned round": figures(
            lambda given, x, imbalance, u: (imbalance, -u)
        ),
        "the best answer's potential": figures(
            lambda given, x, imbalance, u: (
                imbalance,
                wm.solve(given.edges, given.mu, given.nu).potential[x],
            )
        ),
        "24 bits of the imbalance": figures(
            lambda given, x, imbalance, u: ((imbalance + 2**23) % 2**24 - 2**23, u)
        ),
        "16 bits of the potential": figures(
            lambda given, x, imbalance, u: (imbalance, (u + 2**15) % 2**16 - 2**15)
        ),
    }


def wrong_rests() -> Dict[str, Paging]:
    """The right page with another length, or with other bytes behind it. The refusals
    are right."""

    def leaving(change: Callable[[bytes, bytes], Tuple[bytes, int]]) -> Paging:
        """The buffer and the length, from the page and the rest of the buffer."""

        def other(given: PageCall, lent: bytes) -> PageLeft:
            number, buffer, size = right_page(given, lent)
            if number != 0:
                return number, buffer, size
            return (0, *change(buffer[:size], buffer[size:]))

        return other

    return {
        "length 0": leaving(lambda page, rest: (page + rest, 0)),
        "length kept": leaving(lambda page, rest: (page + rest, KEPT)),
        "the number of lines": leaving(
            lambda page, rest: (page + rest, len(page) // 96)
        ),
        "95 for each": leaving(lambda page, rest: (page + rest, len(page) // 96 * 95)),
        "the buffer's length": leaving(
            lambda page, rest: (page + rest, len(page + rest))
        ),
        "the rest cleared": leaving(
            lambda page, rest: (page + bytes(len(rest)), len(page))
        ),
        "spaces for the rest": leaving(
            lambda page, rest: (page + len(rest) * b" ", len(page))
        ),
        "a zero behind": leaving(
            lambda page, rest: (page + bytes(len(rest[:1])) + rest[1:], len(page))
        ),
        "at the buffer's end": leaving(lambda page, rest: (rest + page, len(page))),
    }


def wrong_page_refusals() -> Dict[str, Paging]:
    """A page that refuses by another number, or not."""

    def refusing(choose: Callable[[List[int]], int]) -> Paging:
        def other(given: PageCall, lent: bytes) -> PageLeft:
            numbers = failing_page(given)
            if not numbers:
                return right_page(given, lent)
            return choose(numbers), lent, 0

        return other

    def without(number: int) -> Paging:
        return refusing(lambda numbers: next((k for k in numbers if k != number), 0))

    def before(number: int) -> Paging:
        """With the forerunner's check behind its own."""
        order = [*range(1, number - 1), number, number - 1, *range(number + 1, 11)]
        return refusing(lambda numbers: min(numbers, key=order.index))

    def buffer_after(number: int) -> Paging:
        """A short buffer is refused after the checks up to the number."""

        def other(given: PageCall, lent: bytes) -> PageLeft:
            numbers = failing_page(given._replace(places=96 * given.n))
            if numbers and numbers[0] <= number:
                return numbers[0], lent, 0
            return right_page(given, lent)

        return other

    return {
        **{f"{number} left out": without(number) for number in range(1, 11)},
        "a short buffer refused after 3": buffer_after(3),
        "a short buffer refused last": buffer_after(10),
        **{f"{k - 1} after {k}": before(k) for k in range(2, 11)},
        "the last that fails": refusing(max),
    }


def wrong_buffers() -> Dict[str, Paging]:
    """Other lengths of a buffer that are refused, and refusals that leave something."""

    def wanting(fits: Callable[[int, int], bool]) -> Paging:
        """From n and the buffer's length; what fits of the page is written."""

        def other(given: PageCall, lent: bytes) -> PageLeft:
            fitting = fits(given.n, given.places)
            places = 96 * given.n if fitting else -1
            number, page = tree_page(given._replace(places=places))
            _, buffer, size = page_left(number, page, lent)
            return number, buffer[: len(lent)], size

        return other

    def leaving(change: Callable[[PageCall, bytes], Tuple[bytes, int]]) -> Paging:
        """After a refusal."""

        def other(given: PageCall, lent: bytes) -> PageLeft:
            number, buffer, size = right_page(given, lent)
            if number == 0:
                return number, buffer, size
            return (number, *change(given, lent))

        return other

    def lines_that_fit(given: PageCall, lent: bytes) -> Tuple[bytes, int]:
        """Of a page that is refused for its buffer alone."""
        _, page = tree_page(given._replace(places=96 * given.n))
        new = page[: len(lent) // 96 * 96].encode("ascii")
        return new + lent[len(new) :], 0

    return {
        "a short buffer accepted": wanting(lambda n, places: True),
        "one byte short accepted": wanting(lambda n, places: places >= 96 * n - 1),
        "95 bytes for each accepted": wanting(lambda n, places: places >= 95 * n),
        "a line less accepted": wanting(lambda n, places: places >= 96 * (n - 1)),
        "one byte more wanted": wanting(lambda n, places: places > 96 * n),
        "a longer buffer refused": wanting(lambda n, places: places == 96 * n),
        "6,144 bytes wanted": wanting(lambda n, places: places >= 6_144),
        "the buffer written after a refusal": leaving(
            lambda given, lent: (len(lent) * b" ", 0)
        ),
        "the buffer cleared after a refusal": leaving(
            lambda given, lent: (bytes(len(lent)), 0)
        ),
        "a byte written after a refusal": leaving(
            lambda given, lent: (b" "[: len(lent)] + lent[1:], 0)
        ),
        "the lines that fit left": leaving(lines_that_fit),
        "the length kept": leaving(lambda given, lent: (lent, KEPT)),
        "the length wanted": leaving(
            lambda given, lent: (lent, min(96 * given.n, 2**64 - 1))
        ),
    }


@unittest.skipUnless(nx, "networkx is not installed")
class AgainstNetworkx(unittest.TestCase):
    """Random patches, each answer compared with networkx's."""

    def least_cost(self, problem: Problem) -> int:
        """By network simplex. No edge need carry more than the total. Without that
        bound networkx 2 takes much flow on an edge for a cycle of negative cost."""
        graph = nx.DiGraph()
        for x, amount in enumerate(problem.difference):
            graph.add_node(x, demand=-amount)
        for a, b, length in problem.edges:
            for pair in ((a, b), (b, a)):
                graph.add_edge(*pair, weight=length, capacity=sum(problem.mu))
        return int(nx.network_simplex(graph)[0])

    def test_costs_and_judging(self) -> None:
        """The best answer, and trees that are best, nearly best and not."""
        judged = {True: 0, False: 0}
        for name, draw, problem in problems("networkx"):
            least = self.least_cost(problem)
            best = wm.solve(*problem)
            self.assertEqual(best.cost, least, name)
            apart = wm.distances(problem.n, problem.edges)
            self.assertEqual(faults(problem, best, apart), [], name)
            for root, parents in (
                rerooted(draw, best.parents),
                swapped(draw, problem, best.parents),
                random_tree(draw, problem),
            ):
                optimal = weigh(problem, parents).cost == least
                judgment = wm.is_optimal(*problem, root, parents)
                self.assertIs(judgment, optimal, name)
                judged[optimal] += 1
        print(f"judged best {judged[True]}, not best {judged[False]}", flush=True)
        self.assertGreater(min(judged.values()), CASES // 4)

    def test_least_cost(self) -> None:
        """The costs that reports are held to."""
        for name, _, problem in problems("least", CASES // 10):
            self.assertEqual(least_cost(problem), self.least_cost(problem), name)

    def graph(self, n: int, edges: List[wm.Edge]) -> Any:
        graph = nx.Graph()
        graph.add_nodes_from(range(n))
        graph.add_weighted_edges_from(edges)
        return graph

    def test_queries(self) -> None:
        for name, draw in draws("brushes", CASES // 2):
            n, edges, start, reach, painting = random_query(draw)
            apart, _ = nx.single_source_dijkstra(self.graph(n, edges), start)
            near = [x for x in range(n) if apart[x] <= reach]
            self.assertEqual(wm.vertices_within(n, edges, start, reach), near, name)
            painted = [(apart[x], x) for x in range(n) if painting[x] > 0]
            wanted = min(painted)[1] if painted else None
            self.assertEqual(wm.nearest_vertex(edges, start, painting), wanted, name)

    def test_distances(self) -> None:
        for name, _, problem in problems("distances", CASES // 2):
            n, graph = problem.n, self.graph(problem.n, problem.edges)
            if n <= 10:
                found = nx.floyd_warshall(graph)
            else:
                found = dict(nx.all_pairs_dijkstra_path_length(graph))
            wanted = [[found[i][j] for j in range(n)] for i in range(n)]
            self.assertEqual(wm.distances(n, problem.edges), wanted, name)
            self.assertEqual(wm.distances_of_records(n, problem.edges), wanted, name)


class Tally(unittest.TextTestResult):
    """Counts the tests that passed."""

    passed = 0

    def addSuccess(self, test: unittest.TestCase) -> None:
        super().addSuccess(test)
        self.passed += 1


def main() -> int:
    print(f"seed {SEED}, {CASES} patches", flush=True)
    runner = unittest.TextTestRunner(resultclass=Tally)
    result: Any = unittest.main(testRunner=runner, exit=False).result
    sys.stderr.flush()
    for module, name in ((nx, "networkx"), (np, "numpy")):
        if module is None:
            print(f"{name} is not installed: the tests with it are left out")
    wrong = [getattr(test, "test_case", test) for test, _ in result.failures]
    wrong += [getattr(test, "test_case", test) for test, _ in result.errors]
    print(f"{result.passed} passed, {len(set(map(str, wrong)))} failed")
    return 0 if result.wasSuccessful() and result.passed > 0 else 1


if __name__ == "__main__":
    sys.exit(main())
