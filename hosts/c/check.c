/* What the header promises and the example does not show: tables between guard places, every refusal number of every call with all
 * tables as lent, empty tables without an address, images at odd addresses, images written and rewritten against images that are built
 * here without the library, damaged images and trees, climbs in any order on any words, every amount as a weight and back, weights of
 * any bits, what is within reach and nearest against ways that are found here, reports on sequences against reports that are made here
 * image by image, reels damaged at every place, pages of trees against pages that are printed here, and the stack that a call uses.
 * A line for each group, and "N passed, M failed" last. */
#define _POSIX_C_SOURCE 200112L
#include "mover.h"

#include <fcntl.h>
#include <limits.h>
#include <pthread.h>
#include <stdio.h>
#include <stdlib.h>
#include <string.h>
#include <sys/mman.h>
#include <unistd.h>

static unsigned looked, faults; /* of the group that runs */

static void expect(int holds, const char *what, const char *where, unsigned number) {
  looked++;
  if (holds) return;
  faults++;
  printf("not so: %s, %s %u\n", what, where, number);
  fflush(stdout); /* a wrong call may be the last one */
}

/* ---- a lent table: a block of bytes that no call would write, of which the middle is lent */

enum { GUARD = 64, ROOM = 4 * 70 * 70 };

typedef struct lent {
  uint64_t block[(GUARD + ROOM + GUARD) / 8]; /* aligned for every type */
} lent;

static uint8_t mark(size_t i) {
  return (uint8_t)(i * 89 + 41);
}

static void *lend(lent *table) {
  uint8_t *bytes = (uint8_t *)table->block;
  size_t i;
  for (i = 0; i < sizeof table->block; i++) bytes[i] = mark(i);
  return bytes + GUARD;
}

/* Is all of it as it was, but for `written` bytes from byte `start` of what was lent? */
static int kept_but(const lent *table, size_t start, size_t written) {
  const uint8_t *bytes = (const uint8_t *)table->block;
  size_t first = GUARD + start, i;
  for (i = 0; i < sizeof table->block; i++)
    if ((i < first || i >= first + written) && bytes[i] != mark(i)) return 0;
  return 1;
}

/* Is all of it as it was, but for the first `written` bytes of what was lent? */
static int kept_past(const lent *table, size_t written) {
  return kept_but(table, 0, written);
}

/* ---- numbers drawn */

/* A generator of numbers (SplitMix64), from the same seed in every run. */
static uint64_t draw(void) {
  static uint64_t state = 204;
  uint64_t z = state += 0x9e3779b97f4a7c15u;
  z = (z ^ z >> 30) * 0xbf58476d1ce4e5b9u;
  z = (z ^ z >> 27) * 0x94d049bb133111ebu;
  return z ^ z >> 31;
}

static size_t draw_below(size_t bound) {
  return (size_t)(draw() % bound);
}

/* ---- problems: document 01's examples of refusals, and cases that are accepted */

enum { V = 66, E = 520 };

typedef struct problem {
  const char *name;
  uint32_t number; /* what all calls that look so far return */
  size_t n, a_len, b_len, lengths_len;
  uint32_t a[E], b[E], lengths[E];
  size_t mu_len, nu_len;
  uint64_t mu[V], nu[V];
  size_t root, parents_len;
  uint32_t parents[V];
} problem;

static const problem problems[] = {
    {"case A", 0, 4, 3, 3, 3, {0, 1, 2}, {1, 2, 3}, {2, 3, 1}, 4, 4, {5, 0, 1, 0}, {0, 2, 1, 3}, 3, 4, {1, 2, 3, 3}},
    {"case B", 0, 4, 4, 4, 4, {0, 0, 1, 2}, {1, 3, 2, 3}, {1, 1, 1, 1}, 4, 4, {4}, {0, 0, 0, 4}, 0, 4, {0, 0, 1, 2}},
    {"a seam", 0, 4, 4, 4, 4, {0, 0, 1, 2}, {1, 2, 2, 3}, {0, 0, 0, 5}, 4, 4, {3}, {0, 1, 0, 2}, 0, 4, {0, 0, 1, 2}},
    {"case E", 0, 1, 0, 0, 0, {0}, {0}, {0}, 1, 1, {7}, {7}, 0, 1, {0}},
    {"no vertex", 1, 0, 0, 0, 0, {0}, {0}, {0}, 0, 0, {0}, {0}, 0, 0, {0}},
    {"65 vertices", 1, 65, 1, 1, 1, {0}, {1}, {1}, 65, 65, {0}, {0}, 0, 65, {0}},
    {"a short", 2, 2, 0, 1, 1, {0}, {1}, {1}, 2, 2, {1}, {0, 1}, 0, 2, {0, 0}},
    {"b long", 2, 2, 1, 2, 1, {0}, {1, 1}, {1}, 2, 2, {1}, {0, 1}, 0, 2, {0, 0}},
    {"lengths long", 2, 2, 1, 1, 2, {0}, {1}, {1, 1}, 2, 2, {1}, {0, 1}, 0, 2, {0, 0}},
    {"513 edges", 2, 2, 513, 513, 513, {0}, {1}, {1}, 2, 2, {1}, {0, 1}, 0, 2, {0, 0}},
    {"edge (1, 0)", 3, 2, 1, 1, 1, {1}, {0}, {1}, 2, 2, {1}, {0, 1}, 0, 2, {0, 0}},
    {"edge (0, 2)", 3, 2, 1, 1, 1, {0}, {2}, {1}, 2, 2, {1}, {0, 1}, 0, 2, {0, 0}},
    {"an edge twice", 3, 2, 2, 2, 2, {0, 0}, {1, 1}, {1, 1}, 2, 2, {1}, {0, 1}, 0, 2, {0, 0}},
    {"length 0", 0, 2, 1, 1, 1, {0}, {1}, {0}, 2, 2, {1}, {0, 1}, 0, 2, {0, 0}},
    {"length 65536", 4, 2, 1, 1, 1, {0}, {1}, {65536}, 2, 2, {1}, {0, 1}, 0, 2, {0, 0}},
    {"vertex 2 alone", 5, 3, 1, 1, 1, {0}, {1}, {1}, 3, 3, {1}, {0, 1}, 0, 3, {0, 0, 0}},
    {"total 16777217", 6, 1, 0, 0, 0, {0}, {0}, {0}, 1, 1, {16777217}, {16777217}, 0, 1, {0}},
    {"total past 64 bits", 6, 2, 1, 1, 1, {0}, {1}, {1}, 2, 2, {UINT64_MAX, 2}, {1, 0}, 0, 2, {0, 0}},
    {"3 and 4", 7, 1, 0, 0, 0, {0}, {0}, {0}, 1, 1, {3}, {4}, 0, 1, {0}},
    {"parents 1 0", 8, 2, 1, 1, 1, {0}, {1}, {1}, 2, 2, {1}, {0, 1}, 0, 2, {1, 0}},
    {"root n", 8, 2, 1, 1, 1, {0}, {1}, {1}, 2, 2, {1}, {0, 1}, 2, 2, {0, 0}},
    {"parents 0 0 0", 9, 3, 2, 2, 2, {0, 1}, {1, 2}, {1, 1}, 3, 3, {1}, {0, 0, 1}, 0, 3, {0, 0, 0}},
    {"parents 0 2 1", 10, 3, 2, 2, 2, {0, 1}, {1, 2}, {1, 1}, 3, 3, {1}, {0, 0, 1}, 0, 3, {0, 2, 1}},
};
enum { CASE_A = 0, CASE_B = 1, CASE_E = 3, NO_VERTEX = 4, MANY_VERTICES = 5, MANY_EDGES = 9, EDGE_TWICE = 12 };
enum { PROBLEMS = sizeof problems / sizeof problems[0], CYCLE = PROBLEMS - 1 };

static uint32_t up_to(uint32_t number, uint32_t last) {
  return number <= last ? number : 0;
}

/* Expects a call's number, and its tables kept: past their answers, or whole after a refusal. */
static void expect_outcome(const char *call, const problem *p, uint32_t number, uint32_t wanted, const lent *tables, const size_t *written,
                           size_t count) {
  size_t i;
  expect(number == wanted, p->name, call, number);
  for (i = 0; i < count; i++) expect(kept_past(&tables[i], number == MOVER_OK ? written[i] : 0), "a table's guards", call, number);
}

static void check_distances(const problem *p) {
  lent out;
  uint32_t *places = (uint32_t *)lend(&out), number;
  size_t room = p->n * p->n, written = 4 * room, i;
  mover_edge records[E];
  number = mover_distances(p->n, p->a, p->a_len, p->b, p->b_len, p->lengths, p->lengths_len, places, room);
  expect_outcome("mover_distances", p, number, up_to(p->number, 5), &out, &written, 1);
  if (room > 0 && number == MOVER_OK) {
    lend(&out);
    number = mover_distances(p->n, p->a, p->a_len, p->b, p->b_len, p->lengths, p->lengths_len, places, room - 1);
    expect_outcome("mover_distances, short table", p, number, 2, &out, &written, 1);
  }
  if (p->a_len != p->b_len || p->a_len != p->lengths_len) return;
  for (i = 0; i < p->a_len; i++) {
    records[i].a = p->a[i];
    records[i].b = p->b[i];
    records[i].length = p->lengths[i];
  }
  lend(&out);
  number = mover_distances_of_records(p->n, records, p->a_len, places, room);
  expect_outcome("mover_distances_of_records", p, number, up_to(p->number, 5), &out, &written, 1);
  if (room > 0 && number == MOVER_OK) {
    lend(&out);
    number = mover_distances_of_records(p->n, records, p->a_len, places, room - 1);
    expect_outcome("mover_distances_of_records, short table", p, number, 2, &out, &written, 1);
  }
}

/* One run; `lacks` makes one of the answer tables too short by one place, or none. */
static void check_evaluate(const problem *p, size_t lacks, uint32_t wanted) {
  lent tables[3];
  size_t room[3], written[3], k;
  uint64_t cost = 99;
  uint32_t moves = 99, number;
  room[0] = room[1] = p->n;
  room[2] = p->n * p->n;
  for (k = 0; k < 3; k++) {
    written[k] = 4 * room[k];
    if (k == lacks) room[k]--;
  }
  number = mover_evaluate(p->n, p->a, p->a_len, p->b, p->b_len, p->lengths, p->lengths_len, p->mu, p->mu_len, p->nu, p->nu_len, p->root,
                          p->parents, p->parents_len, (int32_t *)lend(&tables[0]), room[0], (int32_t *)lend(&tables[1]), room[1],
                          (uint32_t *)lend(&tables[2]), room[2], &cost, &moves);
  expect_outcome("mover_evaluate", p, number, wanted, tables, written, 3);
  if (number != MOVER_OK) expect(cost == 0 && moves == 0, "results 0", "mover_evaluate", number);
}

static void check_solve(const problem *p, size_t lacks, uint32_t wanted) {
  lent tables[3];
  size_t room[3], written[3], k;
  uint64_t cost = 99;
  uint32_t moves = 99, number;
  room[0] = room[1] = p->n;
  room[2] = p->n * p->n;
  for (k = 0; k < 3; k++) {
    written[k] = 4 * room[k];
    if (k == lacks) room[k]--;
  }
  number = mover_solve(p->n, p->a, p->a_len, p->b, p->b_len, p->lengths, p->lengths_len, p->mu, p->mu_len, p->nu, p->nu_len,
                       (uint32_t *)lend(&tables[0]), room[0], (int32_t *)lend(&tables[1]), room[1], (uint32_t *)lend(&tables[2]), room[2],
                       &cost, &moves);
  expect_outcome("mover_solve", p, number, wanted, tables, written, 3);
  if (number != MOVER_OK) expect(cost == 0 && moves == 0, "results 0", "mover_solve", number);
}

static void check_is_optimal(const problem *p) {
  uint32_t optimal = 99;
  uint32_t number = mover_is_optimal(p->n, p->a, p->a_len, p->b, p->b_len, p->lengths, p->lengths_len, p->mu, p->mu_len, p->nu, p->nu_len,
                                     p->root, p->parents, p->parents_len, &optimal);
  expect(number == p->number, p->name, "mover_is_optimal", number);
  if (number == MOVER_OK)
    expect(optimal == (p != &problems[CASE_B]), "the judgment of", p->name, optimal); /* B's tree is not best */
  else
    expect(optimal == 0, "result 0", "mover_is_optimal", number);
}

/* A climb from the last vertex, in a table that lacks so many words. */
static void check_mark_ancestors(const problem *p, size_t lacks, uint32_t wanted) {
  lent masks;
  size_t written = 8 * p->n;
  uint32_t number = mover_mark_ancestors(p->n, p->root, p->parents, p->parents_len, p->n - 1, (uint64_t *)lend(&masks), p->n - lacks);
  expect_outcome("mover_mark_ancestors", p, number, wanted, &masks, &written, 1);
}

/* A page, in a buffer that lacks so many bytes. */
static void check_write_page(const problem *p, size_t lacks, uint32_t wanted) {
  lent buffer;
  size_t written = 96 * p->n, length = 99;
  uint32_t number = mover_write_page(p->n, p->a, p->a_len, p->b, p->b_len, p->lengths, p->lengths_len, p->mu, p->mu_len, p->nu, p->nu_len,
                                     p->root, p->parents, p->parents_len, (uint8_t *)lend(&buffer), written - lacks, &length);
  expect_outcome("mover_write_page", p, number, wanted, &buffer, &written, 1);
  expect(length == (number == MOVER_OK ? written : 0), "the length", "mover_write_page", number);
}

static void check_problem(const problem *p) {
  size_t k;
  problem longer = *p;
  check_distances(p);
  check_evaluate(p, 3, p->number);
  check_solve(p, 3, up_to(p->number, 7));
  check_is_optimal(p);
  check_write_page(p, 0, p->number);
  check_mark_ancestors(p, 0, p->number == 1 || p->number == 8 || p->number == 10 ? p->number : 0); /* no edges, no amounts */
  if (p->number != 0) return;
  check_mark_ancestors(p, 1, 2);
  check_write_page(p, 1, 2);
  check_write_page(p, 96, 2);
  for (k = 0; k < 3; k++) {
    check_evaluate(p, k, 2);
    check_solve(p, k, 2);
  }
  longer.number = 2;
  longer.mu_len++;
  check_evaluate(&longer, 3, 2);
  check_solve(&longer, 3, 2);
  check_is_optimal(&longer);
  check_write_page(&longer, 0, 2);
  longer.mu_len--;
  longer.nu_len--;
  check_evaluate(&longer, 3, 2);
  check_solve(&longer, 3, 2);
  check_is_optimal(&longer);
  check_write_page(&longer, 0, 2);
  longer.nu_len++;
  longer.parents_len++;
  check_evaluate(&longer, 3, 2);
  check_solve(&longer, 3, 0);
  check_is_optimal(&longer);
  check_write_page(&longer, 0, 2);
  check_mark_ancestors(&longer, 0, 2);
}

/* Figures of case A and B, and tables that are longer than is asked. */
static void check_figures(void) {
  static const int32_t imbalance[4] = {5, 3, 3, 0}, potential[4] = {6, 4, 1, 0};
  static const uint32_t plan[16] = {0, 2, 0, 3, 0, 0, 0, 0, 0, 0, 1, 0, 0, 0, 0, 0};
  const problem *p = &problems[CASE_A];
  lent tables[3];
  int32_t *xi = (int32_t *)lend(&tables[0]), *u = (int32_t *)lend(&tables[1]);
  uint32_t *entries = (uint32_t *)lend(&tables[2]), moves;
  uint64_t cost;
  size_t written[3] = {16, 16, 64};
  uint32_t number = mover_evaluate(4, p->a, 3, p->b, 3, p->lengths, 3, p->mu, 4, p->nu, 4, 3, p->parents, 4, xi, 5, u, 64, entries, 4096,
                                   &cost, &moves);
  expect_outcome("mover_evaluate, long tables", p, number, 0, tables, written, 3);
  expect(cost == 22 && moves == 2, "cost 22, moves 2", "case A", moves);
  expect(!memcmp(xi, imbalance, sizeof imbalance), "the imbalance", "case A", 0);
  expect(!memcmp(u, potential, sizeof potential), "the potential", "case A", 0);
  expect(!memcmp(entries, plan, sizeof plan), "the plan", "case A", 0);
  p = &problems[CASE_B];
  xi = (int32_t *)lend(&tables[1]);
  entries = (uint32_t *)lend(&tables[0]);
  number = mover_solve(4, p->a, 4, p->b, 4, p->lengths, 4, p->mu, 4, p->nu, 4, entries, 64, xi, 7, (uint32_t *)lend(&tables[2]), 17, &cost,
                       &moves);
  expect_outcome("mover_solve, long tables", p, number, 0, tables, written, 3);
  expect(cost == 4 && moves == 1, "cost 4, moves 1", "case B", moves);
}

/* An image of one vertex from no edges and, without a tree, no parents; no buffer is refused last, no image first. */
static void check_empty_images(void) {
  const uint64_t seven = 7;
  uint8_t image[44], again[44];
  size_t length = 99;
  expect(mover_write_image(1, NULL, 0, NULL, 0, NULL, 0, &seven, 1, &seven, 1, false, 0, NULL, 0, image, 44, &length) == 0 && length == 44,
         "no edges, no parents", "mover_write_image", (unsigned)length);
  expect(mover_rewrite(image, 44, again, 44, &length) == 0 && length == 44 && !memcmp(image, again, 44), "no edges, no parents",
         "mover_rewrite", (unsigned)length);
  expect(mover_rewrite(image, 44, NULL, 0, &length) == 2 && length == 0, "no buffer", "mover_rewrite", (unsigned)length);
  length = 99;
  expect(mover_write_image(1, NULL, 0, NULL, 0, NULL, 0, &seven, 1, &seven, 1, false, 0, NULL, 0, NULL, 0, &length) == 2 && length == 0,
         "no buffer", "mover_write_image", (unsigned)length);
  length = 99;
  expect(mover_write_image(1, NULL, 0, NULL, 0, NULL, 0, &seven, 1, &seven, 1, true, 0, NULL, 0, image, 44, &length) == 2 && length == 0,
         "a tree without parents", "mover_write_image", (unsigned)length);
  length = 99;
  expect(mover_write_image(0, NULL, 0, NULL, 0, NULL, 0, NULL, 0, NULL, 0, true, 0, NULL, 0, NULL, 0, &length) == 1 && length == 0,
         "nothing at all", "mover_write_image", (unsigned)length);
  length = 99;
  expect(mover_rewrite(NULL, 0, NULL, 0, &length) == 11 && length == 0, "nothing at all", "mover_rewrite", (unsigned)length);
}

/* A page of one vertex without edges; no buffer, no parents, no paintings, nothing at all. */
static void check_empty_pages(void) {
  const uint64_t seven = 7;
  const uint32_t zero = 0;
  uint8_t page[96];
  size_t length = 99;
  expect(mover_write_page(1, NULL, 0, NULL, 0, NULL, 0, &seven, 1, &seven, 1, 0, &zero, 1, page, 96, &length) == 0 && length == 96,
         "no edges", "mover_write_page", (unsigned)length);
  expect(page[0] == '0' && page[1] == '0' && page[95] == 10, "no edges", "mover_write_page, byte", page[0]);
  expect(mover_write_page(1, NULL, 0, NULL, 0, NULL, 0, &seven, 1, &seven, 1, 0, &zero, 1, NULL, 0, &length) == 2 && length == 0,
         "no buffer", "mover_write_page", (unsigned)length);
  length = 99;
  expect(mover_write_page(1, NULL, 0, NULL, 0, NULL, 0, &seven, 1, &seven, 1, 0, NULL, 0, page, 96, &length) == 2 && length == 0,
         "no parents", "mover_write_page", (unsigned)length);
  length = 99;
  expect(mover_write_page(1, NULL, 0, NULL, 0, NULL, 0, NULL, 0, NULL, 0, 0, &zero, 1, page, 96, &length) == 2 && length == 0,
         "no paintings", "mover_write_page", (unsigned)length);
  length = 99;
  expect(mover_write_page(0, NULL, 0, NULL, 0, NULL, 0, NULL, 0, NULL, 0, 0, NULL, 0, NULL, 0, &length) == 1 && length == 0,
         "nothing at all", "mover_write_page", (unsigned)length);
}

/* One vertex without edges, no painting, two vertices apart, nothing at all. */
static void check_empty_brushes(void) {
  const uint64_t amounts[2] = {7, 7};
  uint64_t mask = 99;
  uint32_t vertex = 99;
  expect(mover_vertices_within(1, NULL, 0, NULL, 0, NULL, 0, 0, 0, &mask) == 0 && mask == 1, "no edges",
         "mover_vertices_within", (unsigned)mask);
  expect(mover_nearest_vertex(1, NULL, 0, NULL, 0, NULL, 0, 0, amounts, 1, &vertex) == 0 && vertex == 0, "no edges",
         "mover_nearest_vertex", vertex);
  vertex = 99;
  expect(mover_nearest_vertex(1, NULL, 0, NULL, 0, NULL, 0, 0, NULL, 0, &vertex) == 2 && vertex == 0, "no painting",
         "mover_nearest_vertex", vertex);
  mask = vertex = 99;
  expect(mover_vertices_within(2, NULL, 0, NULL, 0, NULL, 0, 1, 0, &mask) == 5 && mask == 0, "no edges, two vertices",
         "mover_vertices_within", (unsigned)mask);
  expect(mover_nearest_vertex(2, NULL, 0, NULL, 0, NULL, 0, 1, amounts, 2, &vertex) == 5 && vertex == 0,
         "no edges, two vertices", "mover_nearest_vertex", vertex);
  mask = vertex = 99;
  expect(mover_vertices_within(0, NULL, 0, NULL, 0, NULL, 0, 0, 0, &mask) == 1 && mask == 0, "nothing at all",
         "mover_vertices_within", (unsigned)mask);
  expect(mover_nearest_vertex(0, NULL, 0, NULL, 0, NULL, 0, 0, NULL, 0, &vertex) == 1 && vertex == 0, "nothing at all",
         "mover_nearest_vertex", vertex);
}

/* No reel, no count, no tally, and no images. */
static void check_empty_reports(void) {
  static const uint8_t none[2] = {0, 0};
  uint32_t places[24], accepted = 99;
  uint64_t sum = 99, greatest = 99;
  size_t first = 99;
  expect(mover_report(NULL, 0, NULL, 0, &accepted, &sum, &greatest, &first) == 14, "nothing at all",
         "mover_report", 14);
  expect(accepted == 0 && sum == 0 && greatest == 0 && first == 0, "results 0", "mover_report", 14);
  expect(mover_report(NULL, 0, places, 24, &accepted, &sum, &greatest, &first) == 14, "no reel",
         "mover_report", 14);
  expect(mover_report(none, 1, NULL, 0, &accepted, &sum, &greatest, &first) == 14, "half a count",
         "mover_report", 14);
  accepted = 99;
  sum = greatest = first = 99;
  expect(mover_report(none, 2, NULL, 0, &accepted, &sum, &greatest, &first) == 2, "no tally",
         "mover_report", 2);
  expect(accepted == 0 && sum == 0 && greatest == 0 && first == 0, "results 0", "mover_report", 2);
  accepted = 99;
  sum = greatest = first = 99;
  expect(mover_report(none, 2, places, 24, &accepted, &sum, &greatest, &first) == 0, "no images",
         "mover_report", 0);
  expect(accepted == 0 && sum == 0 && greatest == 0 && first == 0, "results 0", "mover_report", 0);
}

/* Tables of length 0 need no address. */
static void check_empty(void) {
  uint64_t seven = 7, cost = 99;
  uint32_t zero = 0, parent = 9, plan = 9, moves = 99, optimal = 99, distance = 9;
  int32_t u = 9;
  float weight = 0.5f;
  mover_tree tree;
  expect(mover_distances(1, NULL, 0, NULL, 0, NULL, 0, &distance, 1) == 0 && distance == 0, "no edges", "mover_distances", 0);
  distance = 9;
  expect(mover_distances_of_records(1, NULL, 0, &distance, 1) == 0 && distance == 0, "no edges", "mover_distances_of_records", 0);
  expect(mover_solve(1, NULL, 0, NULL, 0, NULL, 0, &seven, 1, &seven, 1, &parent, 1, &u, 1, &plan, 1, &cost, &moves) == 0, "no edges",
         "mover_solve", 0);
  expect(cost == 0 && moves == 0 && parent == 0 && u == 0 && plan == 7, "one vertex", "mover_solve", plan);
  expect(mover_is_optimal(1, NULL, 0, NULL, 0, NULL, 0, &seven, 1, &seven, 1, 0, &zero, 1, &optimal) == 0 && optimal == 1, "no edges",
         "mover_is_optimal", optimal);
  expect(mover_distances(0, NULL, 0, NULL, 0, NULL, 0, NULL, 0) == 1, "nothing at all", "mover_distances", 0);
  expect(mover_evaluate(0, NULL, 0, NULL, 0, NULL, 0, NULL, 0, NULL, 0, 0, NULL, 0, NULL, 0, NULL, 0, NULL, 0, &cost, &moves) == 1,
         "nothing at all", "mover_evaluate", 0);
  expect(mover_mark_ancestors(0, 0, NULL, 0, 0, NULL, 0) == 1, "nothing at all", "mover_mark_ancestors", 0);
  expect(mover_mark_ancestors(1, 0, NULL, 0, 0, NULL, 0) == 2, "no parents, no words", "mover_mark_ancestors", 0);
  expect(mover_to_amounts(NULL, 0, NULL, 0) == 0 && mover_to_weights(NULL, 0, NULL, 0) == 0, "nothing at all", "mover_to_...", 0);
  expect(mover_to_amounts(NULL, 0, &cost, 1) == 0 && mover_to_weights(NULL, 0, &weight, 1) == 0, "nothing given", "mover_to_...", 0);
  expect(cost == 0 && weight == 0.5f, "nothing written", "mover_to_...", 0);
  expect(mover_to_amounts(&weight, 1, NULL, 0) == 2 && mover_to_weights(&cost, 1, NULL, 0) == 2, "no room", "mover_to_...", 0);
  expect(mover_run(NULL, 0, NULL, 0) == 11, "nothing at all", "mover_run", 0);
  check_empty_images();
  check_empty_pages();
  check_empty_brushes();
  check_empty_reports();
  tree = mover_tree_new(3, 1, NULL, 0);
  expect(tree.n == 3 && tree.root == 1 && tree.parents[2] == 0 && mover_tree_parent(tree, 1) == 64, "no parents", "mover_tree_new", 0);
}

/* ---- images built from the header's words, without the library: also such as no call writes */

enum { BUILT = MOVER_IMAGE_MAX + 64 }; /* room for each of them */

/* Bytes before each section and behind the last, what they are filled with, and by how many bytes each section is longer than n and m
 * ask, or shorter. */
typedef struct layout {
  size_t before[4], behind;
  uint8_t fill;
  int more[4];
} layout;

static const layout back_to_back = {{0}, 0, 0, {0}};

/* A number in so many bytes, the least one first. */
static void put(uint8_t *to, uint64_t value, size_t bytes) {
  size_t i;
  for (i = 0; i < bytes; i++) to[i] = (uint8_t)(value >> 8 * i);
}

static size_t put_filler(uint8_t *to, size_t bytes, uint8_t fill) {
  size_t i;
  for (i = 0; i < bytes; i++) to[i] = (uint8_t)(fill + 167 * i);
  return bytes;
}

/* The edges, mu, nu or the tree; returns the section's length. */
static size_t put_section(const problem *p, bool tree, size_t section, uint8_t *to) {
  const uint64_t *amounts = section == 1 ? p->mu : p->nu;
  size_t i;
  if (section == 0) {
    for (i = 0; i < p->a_len; i++) {
      put(to + 4 * i, p->a[i], 1);
      put(to + 4 * i + 1, p->b[i], 1);
      put(to + 4 * i + 2, p->lengths[i], 2);
    }
    return 4 * p->a_len;
  }
  if (section < 3) {
    for (i = 0; i < p->n; i++) put(to + 4 * i, amounts[i], 4);
    return 4 * p->n;
  }
  if (!tree) return 0;
  put(to, p->root, 1);
  for (i = 0; i < p->n; i++) put(to + 1 + i, p->parents[i], 1);
  return 1 + p->n;
}

/* The image of a problem, with its tree or without; returns its length. */
static size_t build_image(const problem *p, bool tree, const layout *l, uint8_t *image) {
  size_t at = 36, length, k;
  put(image, p->n, 1);
  put(image + 1, 0, 1);
  put(image + 2, p->a_len, 2);
  for (k = 0; k < 4; k++) {
    at += put_filler(image + at, l->before[k], l->fill);
    length = put_section(p, tree, k, image + at);
    if (l->more[k] > 0) put_filler(image + at + length, (size_t)l->more[k], l->fill);
    length += (size_t)l->more[k];
    put(image + 4 + 8 * k, at, 4);
    put(image + 8 + 8 * k, length, 4);
    at += length;
  }
  return at + put_filler(image + at, l->behind, l->fill);
}

/* ---- the reader and the entry */

typedef struct tables {
  lent a, b, lengths, mu, nu, parents;
} tables;

/* Reads into lists of these lengths, in the order of the call, and looks at what was written. */
static void check_read(const char *name, const uint8_t *image, size_t length, const size_t room[6], uint32_t wanted, size_t n, size_t m,
                       size_t root, uint32_t tree) {
  static tables t;
  size_t got_n = 99, got_m = 99, got_root = 99;
  uint32_t got_tree = 99;
  uint32_t *a = (uint32_t *)lend(&t.a), *b = (uint32_t *)lend(&t.b), *lengths = (uint32_t *)lend(&t.lengths);
  uint64_t *mu = (uint64_t *)lend(&t.mu), *nu = (uint64_t *)lend(&t.nu);
  uint32_t *parents = (uint32_t *)lend(&t.parents);
  uint32_t number = mover_read(image, length, a, room[0], b, room[1], lengths, room[2], mu, room[3], nu, room[4], parents, room[5], &got_n,
                               &got_m, &got_root, &got_tree);
  expect(number == wanted, name, "mover_read", number);
  expect(got_n == n && got_m == m && got_root == root && got_tree == tree, "the counts of", name, number);
  expect(kept_past(&t.a, 4 * m) && kept_past(&t.b, 4 * m) && kept_past(&t.lengths, 4 * m), "the edge lists' guards", name, number);
  expect(kept_past(&t.mu, 8 * n) && kept_past(&t.nu, 8 * n), "the paintings' guards", name, number);
  expect(kept_past(&t.parents, tree ? 4 * n : 0), "the parents' guards", name, number);
}

static void check_reader(void) {
  static const size_t exact[6] = {3, 3, 3, 4, 4, 4}, longer[6] = {3, 9, 512, 64, 5, 6}, ample[6] = {E, E, E, V, V, V};
  static uint8_t image[BUILT];
  size_t length = build_image(&problems[CASE_A], true, &back_to_back, image), short_by_one[6], k;
  check_read("case A", image, length, exact, 0, 4, 3, 3, 1);
  check_read("case A, long lists", image, length, longer, 0, 4, 3, 3, 1);
  for (k = 0; k < 6; k++) {
    memcpy(short_by_one, exact, sizeof exact);
    short_by_one[k]--;
    check_read("case A, a short list", image, length, short_by_one, 2, 0, 0, 0, 0);
  }
  check_read("35 bytes", image, 35, exact, 11, 0, 0, 0, 0);
  image[4] = 35;
  check_read("first offset 35", image, length, exact, 12, 0, 0, 0, 0);
  image[4] = 36;
  image[1] = 1;
  check_read("byte 1", image, length, exact, 13, 0, 0, 0, 0);
  image[1] = 0;
  image[16] = 15;
  check_read("mu of 15 bytes", image, length, exact, 13, 0, 0, 0, 0);
  length = build_image(&problems[CASE_A], false, &back_to_back, image);
  check_read("case A without its tree", image, length, exact, 0, 4, 3, 0, 0);
  length = build_image(&problems[NO_VERTEX], false, &back_to_back, image);
  check_read("no vertex", image, length, exact, 1, 0, 0, 0, 0);
  length = build_image(&problems[MANY_VERTICES], true, &back_to_back, image);
  check_read("65 vertices", image, length, ample, 1, 0, 0, 0, 0);
  length = build_image(&problems[MANY_EDGES], true, &back_to_back, image);
  check_read("513 edges", image, length, ample, 2, 0, 0, 0, 0);
}

/* The entry, with image and record at every place of eight bytes. */
static void check_run(void) {
  static uint8_t first[MOVER_RECORD_SIZE(4)];
  const size_t size = MOVER_RECORD_SIZE(4);
  uint8_t block[136];
  size_t shift, length;
  lent record;
  uint8_t *at = (uint8_t *)lend(&record);
  length = build_image(&problems[CASE_A], true, &back_to_back, block);
  expect(mover_run(block, length, first, size) == 0 && mover_cost(first) == 22 && mover_moves(first) == 2, "case A", "mover_run", 0);
  expect(mover_root(first) == 3 && mover_parent(first, 0) == 1 && mover_potential(first, 4, 0) == 6 && mover_amount(first, 4, 0, 3) == 3,
         "the record", "mover_run", 0);
  expect(mover_run(block, length, at, size - 1) == 2 && kept_past(&record, 0), "a short buffer", "mover_run", 2);
  expect(mover_run(block, length, at, size) == 0 && kept_past(&record, size), "the record's guards", "mover_run", 0);
  for (shift = 1; shift < 8; shift++) {
    uint8_t moved[136 + MOVER_RECORD_SIZE(4)];
    memcpy(moved + shift, block, length);
    expect(mover_run(moved + shift, length, moved + 128 + shift, size) == 0, "an odd address", "mover_run", (unsigned)shift);
    expect(!memcmp(moved + 128 + shift, first, size), "the record at an odd address", "mover_run", (unsigned)shift);
  }
  length = build_image(&problems[CYCLE], true, &back_to_back, block);
  lend(&record);
  expect(mover_run(block, length, at, ROOM) == 10 && kept_past(&record, 0), "parents 0 2 1", "mover_run", 10);
}

/* ---- images and pages that a call writes */

/* What a call left: its number, the length, and the block in which its buffer stands, from byte `shift` of what is lent. */
typedef struct outcome {
  uint32_t number;
  size_t length, shift;
  lent block;
} outcome;

static uint8_t *lend_buffer(outcome *w, size_t shift) {
  w->length = 99;
  w->shift = shift;
  return (uint8_t *)lend(&w->block) + shift;
}

/* What is not as wanted, or NULL: an image or a page of this length stands in the buffer, none after a refusal, and all round it is as
 * lent. */
static const char *wrong_in(const outcome *w, uint32_t number, const uint8_t *bytes, size_t length) {
  const uint8_t *buffer = (const uint8_t *)w->block.block + GUARD + w->shift;
  if (w->number != number) return "the number";
  if (w->length != length) return "the length";
  if (memcmp(buffer, bytes, length) != 0) return "the bytes";
  return kept_but(&w->block, w->shift, length) ? NULL : "the bytes round it";
}

static int expect_written(const char *name, const outcome *w, uint32_t number, const uint8_t *bytes, size_t length) {
  const char *wrong = wrong_in(w, number, bytes, length);
  expect(wrong == NULL, wrong ? wrong : "", name, w->number);
  return wrong == NULL;
}

/* What the reader finds in an image, in lists that are long enough for every one; their other places hold 0. */
typedef struct reading {
  uint32_t number, tree, a[512], b[512], lengths[512], parents[64];
  uint64_t mu[64], nu[64];
  size_t n, m, root;
} reading;

static void read_all(reading *r, const uint8_t *image, size_t length) {
  memset(r, 0, sizeof *r);
  r->number = mover_read(image, length, r->a, 512, r->b, 512, r->lengths, 512, r->mu, 64, r->nu, 64, r->parents, 64, &r->n, &r->m, &r->root,
                         &r->tree);
}

/* Does the reader find in an image just what was to be written? */
static int reads_as(const uint8_t *image, size_t length, const problem *p, bool tree) {
  static reading r;
  size_t edges = 4 * p->a_len, amounts = 8 * p->n;
  read_all(&r, image, length);
  if (r.number != 0 || r.n != p->n || r.m != p->a_len || r.tree != tree || r.root != (tree ? p->root : 0)) return 0;
  if (memcmp(r.a, p->a, edges) || memcmp(r.b, p->b, edges) || memcmp(r.lengths, p->lengths, edges)) return 0;
  if (memcmp(r.mu, p->mu, amounts) || memcmp(r.nu, p->nu, amounts)) return 0;
  return !tree || !memcmp(r.parents, p->parents, 4 * p->n);
}

/* ---- the writer */

/* The number that the writer is to give. */
static uint32_t writer_number(const problem *p, bool tree, size_t room) {
  size_t n = p->n, m = p->a_len, i;
  if (n == 0 || n > 64) return 1;
  if (m > 512 || p->b_len != m || p->lengths_len != m || p->mu_len != n || p->nu_len != n) return 2;
  if (tree && p->parents_len != n) return 2;
  if (room < 36 + 4 * m + 8 * n + (tree ? n + 1 : 0)) return 2;
  for (i = 0; i < m; i++)
    if (p->a[i] > 255 || p->b[i] > 255 || p->lengths[i] > 65535) return 13;
  for (i = 0; i < n; i++)
    if (p->mu[i] >> 32 != 0 || p->nu[i] >> 32 != 0 || (tree && p->parents[i] > 255)) return 13;
  return tree && p->root > 255 ? 13 : 0;
}

static uint32_t write_image(const problem *p, bool tree, uint8_t *buffer, size_t room, size_t *length) {
  return mover_write_image(p->n, p->a, p->a_len, p->b, p->b_len, p->lengths, p->lengths_len, p->mu, p->mu_len, p->nu, p->nu_len, tree,
                           p->root, p->parents, p->parents_len, buffer, room, length);
}

/* Writes into a buffer of so many bytes and compares with the built image; returns the number that is wanted. */
static uint32_t check_write(const char *name, const problem *p, bool tree, size_t shift, size_t room) {
  static outcome w;
  static problem given;
  static uint8_t image[BUILT];
  uint32_t wanted = writer_number(p, tree, room);
  size_t length = wanted == MOVER_OK ? build_image(p, tree, &back_to_back, image) : 0;
  uint8_t *buffer = lend_buffer(&w, shift);
  memcpy(&given, p, sizeof given);
  w.number = write_image(p, tree, buffer, room, &w.length);
  expect(!memcmp(&given, p, sizeof given), "what was given", name, w.number);
  if (!expect_written(name, &w, wanted, image, length) || wanted != MOVER_OK) return wanted;
  expect(reads_as(buffer, length, p, tree), "what was given, read", name, 0);
  expect(length == MOVER_IMAGE_SIZE(p->n, p->a_len) + (tree ? p->n + 1 : 0), "MOVER_IMAGE_SIZE", name, (unsigned)length);
  return wanted;
}

/* Every problem, at every place of eight bytes: buffers as long as the image, longer and too short. What only 3 to 10 refuse is written
 * as it is, but for two numbers that no image holds. */
static void check_written_problems(void) {
  size_t k, shift;
  for (k = 0; k < 2 * PROBLEMS; k++) {
    const problem *p = &problems[k / 2];
    bool tree = k % 2 == 1;
    size_t length = MOVER_IMAGE_SIZE(p->n, p->a_len) + (tree ? p->n + 1 : 0);
    uint32_t wanted = up_to(p->number, 2);
    if (p->lengths[0] == 65536 || p->mu[0] == UINT64_MAX) wanted = 13;
    for (shift = 0; shift < 8; shift++) {
      expect(check_write(p->name, p, tree, shift, length) == wanted, p->name, "the image's length", wanted);
      expect(check_write(p->name, p, tree, shift, length + 1) == wanted, p->name, "one byte more", wanted);
      expect(check_write(p->name, p, tree, shift, ROOM - shift) == wanted, p->name, "many more", wanted);
      expect(check_write(p->name, p, tree, shift, length - 1) == (wanted == 1 ? 1 : 2), p->name, "one byte too few", wanted);
      expect(check_write(p->name, p, tree, shift, 0) == (wanted == 1 ? 1 : 2), p->name, "no buffer", wanted);
    }
  }
}

/* Case A's image. */
static const uint8_t image_a[85] = {
    4, 0, 3, 0,                                     /* n, 0, m */
    36, 0, 0, 0, 12, 0, 0, 0,                       /* the edges: offset and length */
    48, 0, 0, 0, 16, 0, 0, 0,                       /* mu */
    64, 0, 0, 0, 16, 0, 0, 0,                       /* nu */
    80, 0, 0, 0, 5, 0, 0, 0,                        /* the tree */
    0, 1, 2, 0, 1, 2, 3, 0, 2, 3, 1, 0,             /* the edges: a, b, length */
    5, 0, 0, 0, 0, 0, 0, 0, 1, 0, 0, 0, 0, 0, 0, 0, /* mu */
    0, 0, 0, 0, 2, 0, 0, 0, 1, 0, 0, 0, 3, 0, 0, 0, /* nu */
    3, 1, 2, 3, 3,                                  /* root, parents */
};

/* Numbers whose bytes differ, and their image. */
static const problem problem_bytes = {"many bytes", 0, 1, 1, 1, 1, {254}, {253}, {0x201}, 1, 1, {0x6050403}, {0xfaf9f8f7}, 252, 1, {251}};
static const uint8_t image_bytes[50] = {
    1, 0, 1, 0,              /* n, 0, m */
    36, 0, 0, 0, 4, 0, 0, 0, /* the edges: offset and length */
    40, 0, 0, 0, 4, 0, 0, 0, /* mu */
    44, 0, 0, 0, 4, 0, 0, 0, /* nu */
    48, 0, 0, 0, 2, 0, 0, 0, /* the tree */
    254, 253, 1, 2,          /* the edge: a, b, length */
    3, 4, 5, 6,              /* mu */
    0xf7, 0xf8, 0xf9, 0xfa,  /* nu */
    252, 251,                /* root, parent */
};

/* The greatest numbers that an image holds, at unused places too. */
static void fill_greatest(problem *p) {
  size_t i;
  memset(p, 0, sizeof *p);
  p->name = "the greatest numbers";
  p->n = p->mu_len = p->nu_len = p->parents_len = 64;
  p->a_len = p->b_len = p->lengths_len = 512;
  p->root = 255;
  for (i = 0; i < E; i++) {
    p->a[i] = p->b[i] = 255;
    p->lengths[i] = 65535;
  }
  for (i = 0; i < V; i++) {
    p->mu[i] = p->nu[i] = 4294967295u;
    p->parents[i] = 255;
  }
}

/* The start of their image; all of its sections' bytes are 255. */
static const uint8_t image_greatest[36] = {
    64, 0, 0, 2,               /* n, 0, m */
    36, 0, 0, 0, 0, 8, 0, 0,   /* the edges: 36 and 2048 */
    36, 8, 0, 0, 0, 1, 0, 0,   /* mu: 2084 and 256 */
    36, 9, 0, 0, 0, 1, 0, 0,   /* nu: 2340 and 256 */
    36, 10, 0, 0, 65, 0, 0, 0, /* the tree: 2596 and 65 */
};

/* An image that stands here byte for byte: written, and built. */
static void check_literal(const problem *p, bool tree, const uint8_t *image, size_t length) {
  static outcome w;
  static uint8_t built[BUILT];
  w.number = write_image(p, tree, lend_buffer(&w, 0), ROOM, &w.length);
  expect_written(p->name, &w, MOVER_OK, image, length);
  expect(build_image(p, tree, &back_to_back, built) == length && !memcmp(built, image, length), p->name, "built", (unsigned)length);
}

static void check_literals(void) {
  static problem greatest;
  uint8_t image[MOVER_IMAGE_WRITTEN_MAX];
  check_literal(&problems[CASE_A], true, image_a, sizeof image_a);
  memcpy(image, image_a, 80);
  image[32] = 0; /* the length of the tree */
  check_literal(&problems[CASE_A], false, image, 80);
  check_literal(&problem_bytes, true, image_bytes, sizeof image_bytes);
  fill_greatest(&greatest);
  memset(image, 255, sizeof image);
  memcpy(image, image_greatest, sizeof image_greatest);
  check_literal(&greatest, true, image, 2661);
  image[32] = 0;
  check_literal(&greatest, false, image, 2596);
  expect(MOVER_IMAGE_SIZE(64, 512) + 65 == MOVER_IMAGE_WRITTEN_MAX, "MOVER_IMAGE_WRITTEN_MAX", "bytes", MOVER_IMAGE_WRITTEN_MAX);
}

/* The numbers that a patch with its paintings and tree is made of, and the lengths of its lists. */
typedef enum field {
  AT_N, AT_ROOT, AT_A, AT_B, AT_LENGTHS, AT_MU, AT_NU, AT_PARENTS,
  A_LEN, B_LEN, LENGTHS_LEN, MU_LEN, NU_LEN, PARENTS_LEN
} field;

/* Sets one of them, in a list that of place i. */
static void set_field(problem *p, field where, size_t i, uint64_t value) {
  switch (where) {
    case AT_N: p->n = value; break;
    case AT_ROOT: p->root = value; break;
    case AT_A: p->a[i] = (uint32_t)value; break;
    case AT_B: p->b[i] = (uint32_t)value; break;
    case AT_LENGTHS: p->lengths[i] = (uint32_t)value; break;
    case AT_MU: p->mu[i] = value; break;
    case AT_NU: p->nu[i] = value; break;
    case AT_PARENTS: p->parents[i] = (uint32_t)value; break;
    case A_LEN: p->a_len = value; break;
    case B_LEN: p->b_len = value; break;
    case LENGTHS_LEN: p->lengths_len = value; break;
    case MU_LEN: p->mu_len = value; break;
    case NU_LEN: p->nu_len = value; break;
    case PARENTS_LEN: p->parents_len = value; break;
  }
}

/* One of the greatest numbers changed, and what the writer then returns: without a tree, and with one. */
static const struct variant {
  const char *name;
  field where;
  uint64_t value;
  uint32_t without, with;
} variants[] = {
    {"n 0", AT_N, 0, 1, 1},
    {"n 63", AT_N, 63, 2, 2},
    {"n 65", AT_N, 65, 1, 1},
    {"n 256 + 64", AT_N, 320, 1, 1},
    {"n 2^32 + 64", AT_N, 4294967360u, 1, 1},
    {"n SIZE_MAX", AT_N, SIZE_MAX, 1, 1},
    {"no a", A_LEN, 0, 2, 2},
    {"a short", A_LEN, 511, 2, 2},
    {"a long", A_LEN, 513, 2, 2},
    {"no b", B_LEN, 0, 2, 2},
    {"b short", B_LEN, 511, 2, 2},
    {"b long", B_LEN, 513, 2, 2},
    {"no lengths", LENGTHS_LEN, 0, 2, 2},
    {"lengths short", LENGTHS_LEN, 511, 2, 2},
    {"lengths long", LENGTHS_LEN, 513, 2, 2},
    {"no mu", MU_LEN, 0, 2, 2},
    {"mu short", MU_LEN, 63, 2, 2},
    {"mu long", MU_LEN, 65, 2, 2},
    {"no nu", NU_LEN, 0, 2, 2},
    {"nu short", NU_LEN, 63, 2, 2},
    {"nu long", NU_LEN, 65, 2, 2},
    {"no parents", PARENTS_LEN, 0, 0, 2},
    {"parents short", PARENTS_LEN, 63, 0, 2},
    {"parents long", PARENTS_LEN, 65, 0, 2},
    {"an end a 0", AT_A, 0, 0, 0},
    {"an end a 256", AT_A, 256, 13, 13},
    {"an end a UINT32_MAX", AT_A, UINT32_MAX, 13, 13},
    {"an end b 0", AT_B, 0, 0, 0},
    {"an end b 256", AT_B, 256, 13, 13},
    {"an end b UINT32_MAX", AT_B, UINT32_MAX, 13, 13},
    {"a length 0", AT_LENGTHS, 0, 0, 0},
    {"a length 65536", AT_LENGTHS, 65536, 13, 13},
    {"a length UINT32_MAX", AT_LENGTHS, UINT32_MAX, 13, 13},
    {"an amount 0 before", AT_MU, 0, 0, 0},
    {"an amount 2^32 before", AT_MU, 4294967296u, 13, 13},
    {"an amount UINT64_MAX before", AT_MU, UINT64_MAX, 13, 13},
    {"an amount 0 after", AT_NU, 0, 0, 0},
    {"an amount 2^32 after", AT_NU, 4294967296u, 13, 13},
    {"an amount UINT64_MAX after", AT_NU, UINT64_MAX, 13, 13},
    {"root 0", AT_ROOT, 0, 0, 0},
    {"root 256", AT_ROOT, 256, 0, 13},
    {"root 2^32", AT_ROOT, 4294967296u, 0, 13},
    {"root SIZE_MAX", AT_ROOT, SIZE_MAX, 0, 13},
    {"a parent 0", AT_PARENTS, 0, 0, 0},
    {"a parent 256", AT_PARENTS, 256, 0, 13},
    {"a parent UINT32_MAX", AT_PARENTS, UINT32_MAX, 0, 13},
};
enum { VARIANTS = sizeof variants / sizeof variants[0] };

/* How many places the greatest numbers have for it. */
static size_t places_of(field where) {
  if (where == AT_A || where == AT_B || where == AT_LENGTHS) return 512;
  return where == AT_MU || where == AT_NU || where == AT_PARENTS ? 64 : 1;
}

/* Each variant, at every place of a list. */
static void check_variants(void) {
  static problem greatest, p;
  size_t k, i;
  fill_greatest(&greatest);
  for (k = 0; k < VARIANTS; k++) {
    const struct variant *c = &variants[k];
    for (i = 0; i < places_of(c->where); i++) {
      p = greatest;
      set_field(&p, c->where, i, c->value);
      expect(check_write(c->name, &p, false, 0, 2596) == c->without, c->name, "without a tree, at", (unsigned)i);
      expect(check_write(c->name, &p, true, 0, 2661) == c->with, c->name, "with a tree, at", (unsigned)i);
    }
  }
}

/* Of two numbers the one that comes first in the writer's order, which is 1, 2, 13. */
static uint32_t first_of(uint32_t one, uint32_t other) {
  return one == 0 || (other != 0 && other < one) ? other : one;
}

/* Each two variants in one, the latter at the end of its list; each variant with a buffer that is too short, and with 513 edges. */
static void check_two_variants(void) {
  static problem greatest, p;
  size_t k, l;
  fill_greatest(&greatest);
  for (k = 0; k < VARIANTS; k++) {
    const struct variant *c = &variants[k], *d;
    for (l = 0; l < VARIANTS; l++) {
      d = &variants[l];
      if (d->where == c->where) continue;
      p = greatest;
      set_field(&p, c->where, 0, c->value);
      set_field(&p, d->where, places_of(d->where) - 1, d->value);
      expect(check_write(c->name, &p, false, 1, ROOM - 1) == first_of(c->without, d->without), c->name, d->name, 0);
      expect(check_write(c->name, &p, true, 1, ROOM - 1) == first_of(c->with, d->with), c->name, d->name, 1);
    }
    p = greatest;
    set_field(&p, c->where, 0, c->value);
    expect(check_write(c->name, &p, false, 0, 2595) == first_of(c->without, 2), c->name, "a short buffer", 0);
    expect(check_write(c->name, &p, true, 0, 2660) == first_of(c->with, 2), c->name, "a short buffer", 1);
    p.a_len = p.b_len = p.lengths_len = 513;
    expect(check_write(c->name, &p, false, 0, ROOM) == first_of(c->without, 2), c->name, "513 edges", 0);
    expect(check_write(c->name, &p, true, 0, ROOM) == first_of(c->with, 2), c->name, "513 edges", 1);
  }
}

/* Without a tree there need be no parents, and root and parents change no byte. */
static void check_no_tree(void) {
  static const uint32_t parents[3] = {256, UINT32_MAX, 0};
  static outcome w;
  const problem *p = &problems[CASE_A];
  uint8_t image[80];
  memcpy(image, image_a, 80);
  image[32] = 0;
  w.number = mover_write_image(4, p->a, 3, p->b, 3, p->lengths, 3, p->mu, 4, p->nu, 4, false, SIZE_MAX, NULL, 0, lend_buffer(&w, 5), 80,
                               &w.length);
  expect_written("no parents", &w, MOVER_OK, image, 80);
  w.number = mover_write_image(4, p->a, 3, p->b, 3, p->lengths, 3, p->mu, 4, p->nu, 4, false, 256, parents, 3, lend_buffer(&w, 6), 80,
                               &w.length);
  expect_written("parents that no image holds", &w, MOVER_OK, image, 80);
}

/* A patch of any numbers that an image holds, often of few vertices and edges. */
static void draw_problem(problem *p) {
  size_t i;
  memset(p, 0, sizeof *p);
  p->name = "any numbers";
  p->n = p->mu_len = p->nu_len = p->parents_len = draw_below(4) == 0 ? 64 - draw_below(2) : 1 + draw_below(12);
  p->a_len = p->b_len = p->lengths_len = draw_below(8) == 0 ? 512 - draw_below(2) : draw_below(24);
  p->root = draw_below(256);
  for (i = 0; i < E; i++) {
    p->a[i] = (uint32_t)draw_below(256);
    p->b[i] = (uint32_t)draw_below(256);
    p->lengths[i] = (uint32_t)draw_below(65536);
  }
  for (i = 0; i < V; i++) {
    p->mu[i] = draw() >> 32;
    p->nu[i] = draw() >> 32;
    p->parents[i] = (uint32_t)draw_below(256);
  }
}

/* Any numbers, half of the times with one or two of them changed as in a variant, into buffers that are a little too short or not. */
static void check_drawn_images(void) {
  static problem p;
  unsigned numbers[14] = {0}, round;
  for (round = 0; round < 3000; round++) {
    bool tree = draw_below(2) == 0;
    size_t count, length;
    draw_problem(&p);
    length = MOVER_IMAGE_SIZE(p.n, p.a_len) + (tree ? p.n + 1 : 0);
    for (count = draw_below(2) * (1 + draw_below(2)); count > 0; count--) {
      const struct variant *c = &variants[draw_below(VARIANTS)];
      set_field(&p, c->where, draw_below(p.n < V ? p.n + 1 : 1), c->value);
    }
    numbers[check_write(p.name, &p, tree, draw_below(8), length - 2 + draw_below(20))]++;
  }
  expect(numbers[0] > 400 && numbers[1] > 100 && numbers[2] > 400 && numbers[13] > 100, "every number", "of the writer", numbers[13]);
}

/* A right answer, spoiled on purpose: each bit of the image and of the bytes round it, the length, the number. */
static void check_spoiled(void) {
  static outcome w;
  uint8_t *bytes = (uint8_t *)w.block.block;
  size_t i;
  w.number = write_image(&problems[CASE_A], true, lend_buffer(&w, 3), ROOM - 3, &w.length);
  expect(wrong_in(&w, MOVER_OK, image_a, 85) == NULL, "a right answer", "case A", 0);
  for (i = 0; i < 8 * (GUARD + 3 + 85 + GUARD); i++) {
    bytes[i / 8] ^= (uint8_t)(1 << i % 8);
    expect(wrong_in(&w, MOVER_OK, image_a, 85) != NULL, "a spoiled bit", "at", (unsigned)i);
    bytes[i / 8] ^= (uint8_t)(1 << i % 8);
  }
  expect(wrong_in(&w, 13, image_a, 0) != NULL && wrong_in(&w, MOVER_OK, image_a, 84) != NULL, "another number or length", "case A", 0);
  lend_buffer(&w, 3);
  w.number = 13;
  w.length = 0;
  expect(wrong_in(&w, 13, image_a, 0) == NULL && wrong_in(&w, 2, image_a, 0) != NULL, "a right refusal", "13 and not", 2);
  w.length = 85;
  expect(wrong_in(&w, 13, image_a, 0) != NULL, "a refusal with a length", "of", 85);
}

static void check_writer(void) {
  check_literals();
  check_written_problems();
  check_variants();
  check_two_variants();
  check_no_tree();
  check_drawn_images();
  check_spoiled();
}

/* ---- the rewriter */

/* The number that an image is refused by for its form. */
static uint32_t image_number(const uint8_t *image, size_t length) {
  size_t sizes[4], end = 36, n, m, k;
  if (length < 36 || length > 65536) return 11;
  for (k = 0; k < 4; k++) {
    size_t offset = mover_u32(image + 4 + 8 * k);
    sizes[k] = mover_u32(image + 8 + 8 * k);
    if (offset < end || offset + sizes[k] > length) return 12;
    end = offset + sizes[k];
  }
  n = image[0];
  m = image[2] + 256 * (size_t)image[3];
  if (image[1] != 0 || sizes[0] != 4 * m || sizes[1] != 4 * n || sizes[2] != 4 * n) return 13;
  if (sizes[3] != 0 && sizes[3] != n + 1) return 13;
  if (n == 0 || n > 64) return 1;
  return m > 512 ? 2 : 0;
}

/* An image's sections moved together, byte by byte; returns the length. */
static size_t close_gaps(const uint8_t *image, uint8_t *to) {
  size_t at = 36, k;
  memcpy(to, image, 4);
  for (k = 0; k < 4; k++) {
    size_t size = mover_u32(image + 8 + 8 * k);
    put(to + 4 + 8 * k, at, 4);
    put(to + 8 + 8 * k, size, 4);
    memcpy(to + at, image + mover_u32(image + 4 + 8 * k), size);
    at += size;
  }
  return at;
}

/* Rewrites an image into a buffer of so many bytes, where `result` is to stand, and reads and rewrites the result; returns the number that
 * is wanted. */
static uint32_t check_rewrite(const char *name, const uint8_t *image, size_t length, const uint8_t *result, size_t result_length,
                              size_t shift, size_t room) {
  static outcome w, again;
  static uint8_t given[BUILT];
  static reading one, other;
  uint32_t form = image_number(image, length), wanted = form == MOVER_OK && room < result_length ? 2 : form;
  uint8_t *buffer = lend_buffer(&w, shift);
  memcpy(given, image, length);
  w.number = mover_rewrite(image, length, buffer, room, &w.length);
  expect(!memcmp(given, image, length), "the image as it was", name, w.number);
  read_all(&one, image, length);
  expect(one.number == form, "the reader's number", name, one.number);
  if (!expect_written(name, &w, wanted, result, wanted == MOVER_OK ? result_length : 0) || wanted != MOVER_OK) return wanted;
  expect(w.length <= length, "no longer than the image", name, (unsigned)w.length);
  read_all(&other, buffer, w.length);
  expect(!memcmp(&one, &other, sizeof one), "the same reading", name, other.number);
  again.number = mover_rewrite(buffer, w.length, lend_buffer(&again, 7 - shift), w.length, &again.length);
  expect_written("rewritten again", &again, MOVER_OK, result, result_length);
  return wanted;
}

/* A problem's image in a layout, rewritten into a buffer of so many bytes more than the built image without gaps has, or fewer. */
static uint32_t check_laid_out(const problem *p, bool tree, const layout *l, size_t shift, int spare) {
  static uint8_t block[8 + BUILT], result[BUILT];
  size_t length = build_image(p, tree, l, block + shift), result_length = build_image(p, tree, &back_to_back, result);
  return check_rewrite(p->name, block + shift, length, result, result_length, 7 - shift, result_length + (size_t)spare);
}

/* So many bytes before a section, behind the last one if `where` is 4, or spread over all these places if it is 5. */
static layout gap_at(size_t where, size_t bytes, uint8_t fill) {
  layout l = back_to_back;
  size_t k;
  l.fill = fill;
  if (where < 4) l.before[where] = bytes;
  if (where == 4) l.behind = bytes;
  if (where < 5) return l;
  for (k = 0; k < 4; k++) l.before[k] = bytes / 5;
  l.behind = bytes - 4 * (bytes / 5);
  return l;
}

/* Every problem that an image holds, and the greatest numbers, with gaps in each place and of two contents. */
static void check_gaps(void) {
  static const size_t gaps[6] = {0, 1, 2, 5, 36, 1000};
  static problem greatest;
  size_t k, i, where;
  fill_greatest(&greatest);
  for (k = 0; k < 2 * (PROBLEMS + 1); k++) {
    const problem *p = k / 2 < PROBLEMS ? &problems[k / 2] : &greatest;
    bool tree = k % 2 == 1;
    if (writer_number(p, tree, ROOM) != MOVER_OK) continue;
    for (i = 0; i < 6; i++)
      for (where = 0; where < 6; where++) {
        layout l = gap_at(where, gaps[i], 0), other = gap_at(where, gaps[i], 201);
        expect(check_laid_out(p, tree, &l, where, 0) == 0, p->name, "a gap of", (unsigned)gaps[i]);
        expect(check_laid_out(p, tree, &other, 7 - where, 9) == 0, p->name, "a gap of", (unsigned)gaps[i]);
        expect(check_laid_out(p, tree, &l, where, -1) == 2, p->name, "one byte too few", (unsigned)gaps[i]);
      }
  }
}

/* Case A's image, filled up to so many bytes. */
static void check_image_length(size_t length, size_t where) {
  layout without = gap_at(where, length - 80, (uint8_t)length), with = gap_at(where, length - 85, (uint8_t)length);
  uint32_t wanted = length > 65536 ? 11 : 0;
  expect(check_laid_out(&problems[CASE_A], false, &without, length % 8, 0) == wanted, "without a tree", "bytes", (unsigned)length);
  expect(check_laid_out(&problems[CASE_A], true, &with, length % 8, 0) == wanted, "with a tree", "bytes", (unsigned)length);
}

/* From the shortest image to the longest by steps, and one byte longer. */
static void check_image_lengths(void) {
  size_t length, where = 0;
  for (length = 85; length < 65535; length += 97) check_image_length(length, where++ % 6);
  for (length = 65535; length <= 65537; length++)
    for (where = 0; where < 6; where++) check_image_length(length, where);
}

/* Case A's image with so many bytes cut off and two bytes changed, and its number; byte 0 is 4 as it is. */
static const struct damage {
  const char *name;
  uint32_t number;
  size_t cut, at;
  uint8_t byte;
  size_t other_at;
  uint8_t other_byte;
} damages[] = {
    {"as it is", 0, 0, 0, 4, 0, 4},
    {"35 bytes", 11, 50, 0, 4, 0, 4},
    {"36 bytes", 12, 49, 0, 4, 0, 4},
    {"the last byte cut off", 12, 1, 0, 4, 0, 4},
    {"edges from 35", 12, 0, 4, 35, 0, 4},
    {"edges from 2^24 + 36", 12, 0, 7, 1, 0, 4},
    {"mu from inside the edges", 12, 0, 12, 47, 0, 4},
    {"nu from inside mu", 12, 0, 20, 63, 0, 4},
    {"a tree from inside nu", 12, 0, 28, 79, 0, 4},
    {"a tree up to past the end", 12, 0, 28, 81, 0, 4},
    {"edges up to inside mu", 12, 0, 8, 13, 0, 4},
    {"mu up to inside nu", 12, 0, 16, 17, 0, 4},
    {"nu up to inside the tree", 12, 0, 24, 17, 0, 4},
    {"a tree of 6 bytes", 12, 0, 32, 6, 0, 4},
    {"a tree of 2^24 + 5 bytes", 12, 0, 35, 1, 0, 4},
    {"an empty tree from inside nu", 12, 0, 28, 79, 32, 0},
    {"an empty tree from past the end", 12, 0, 28, 86, 32, 0},
    {"an empty tree from the end", 0, 0, 28, 85, 32, 0},
    {"an empty tree", 0, 0, 32, 0, 0, 4},
    {"byte 1", 13, 0, 1, 1, 0, 4},
    {"n 0", 13, 0, 0, 0, 0, 0},
    {"n 3", 13, 0, 0, 3, 0, 3},
    {"n 65", 13, 0, 0, 65, 0, 65},
    {"m 2", 13, 0, 2, 2, 0, 4},
    {"m 256 + 3", 13, 0, 3, 1, 0, 4},
    {"edges of 11 bytes", 13, 0, 8, 11, 0, 4},
    {"edges of 8 bytes", 13, 0, 8, 8, 0, 4},
    {"no edges", 13, 0, 8, 0, 0, 4},
    {"mu of 15 bytes", 13, 0, 16, 15, 0, 4},
    {"no mu", 13, 0, 16, 0, 0, 4},
    {"nu of 12 bytes", 13, 0, 24, 12, 0, 4},
    {"no nu", 13, 0, 24, 0, 0, 4},
    {"a tree of 4 bytes", 13, 0, 32, 4, 0, 4},
    {"a tree of 1 byte", 13, 0, 32, 1, 0, 4},
    {"11 and 12", 11, 50, 4, 35, 0, 4},
    {"11 and 13", 11, 50, 1, 1, 0, 4},
    {"12 and 13, byte 1", 12, 0, 4, 35, 1, 1},
    {"12 and 13, a tree", 12, 0, 32, 6, 8, 11},
    {"12 and 13, n 0", 12, 0, 0, 0, 28, 79},
};

/* Each damage, with buffers of any length: that of the buffer is looked at last. */
static void check_damages(void) {
  static uint8_t result[BUILT];
  size_t k, i;
  for (k = 0; k < sizeof damages / sizeof damages[0]; k++) {
    const struct damage *d = &damages[k];
    size_t length = sizeof image_a - d->cut, result_length = 0;
    uint8_t image[sizeof image_a];
    memcpy(image, image_a, sizeof image);
    image[d->at] = d->byte;
    image[d->other_at] = d->other_byte;
    if (d->number == 0) result_length = close_gaps(image, result);
    for (i = 0; i < 8; i++) {
      expect(check_rewrite(d->name, image, length, result, result_length, i, ROOM - i) == d->number, d->name, "mover_rewrite", d->number);
      expect(check_rewrite(d->name, image, length, result, result_length, i, 0) == (d->number == 0 ? 2 : d->number), d->name, "no buffer",
             d->number);
    }
  }
}

/* No vertex, 65, 513 edges and both; faults that come first, and buffers that are too short, which come last. */
static void check_refused_images(void) {
  static const uint32_t numbers[5] = {1, 1, 2, 1, 1};
  static const int more[3] = {1, 4, 256};
  static problem given[5];
  static uint8_t image[BUILT];
  size_t k, i, length;
  int spare;
  given[0] = problems[NO_VERTEX];
  given[1] = problems[MANY_VERTICES];
  given[2] = given[3] = given[4] = problems[MANY_EDGES];
  given[3].n = 0;
  given[4].n = 65;
  for (k = 0; k < 5; k++) {
    length = build_image(&given[k], true, &back_to_back, image);
    expect(check_rewrite(given[k].name, image, length - 1, image, 0, 0, ROOM) == 12, given[k].name, "the last byte cut off", (unsigned)k);
    for (spare = -1; spare < 2; spare++) {
      layout l = gap_at(5, 12, 3), longest = gap_at(5, 65537 - length, 3);
      expect(check_laid_out(&given[k], false, &l, k, spare) == numbers[k], given[k].name, "without a tree", (unsigned)k);
      expect(check_laid_out(&given[k], true, &l, k, spare) == numbers[k], given[k].name, "with a tree", (unsigned)k);
      expect(check_laid_out(&given[k], true, &longest, k, spare) == 11, given[k].name, "65537 bytes", (unsigned)k);
      for (i = 0; i < 12; i++) {
        l.more[i / 3] = more[i % 3];
        expect(check_laid_out(&given[k], true, &l, k, spare) == 13, given[k].name, "a section too long", (unsigned)i);
        l.more[i / 3] = 0;
      }
    }
  }
}

/* Do two patches get the same bytes: written, and rewritten from images with other gaps? */
static void check_pair(const char *name, const problem *p, bool p_tree, const problem *q, bool q_tree, int same) {
  static uint8_t image[BUILT], one[MOVER_IMAGE_WRITTEN_MAX], other[MOVER_IMAGE_WRITTEN_MAX];
  const layout before = gap_at(0, 9, 1), spread = gap_at(5, 23, 2);
  size_t one_length, other_length;
  uint32_t number = write_image(p, p_tree, one, sizeof one, &one_length);
  expect(number == 0, name, "mover_write_image", number);
  number = write_image(q, q_tree, other, sizeof other, &other_length);
  expect(number == 0, name, "mover_write_image", number);
  expect((one_length == other_length && !memcmp(one, other, one_length)) == same, name, "written", (unsigned)one_length);
  number = mover_rewrite(image, build_image(p, p_tree, &before, image), one, sizeof one, &one_length);
  expect(number == 0, name, "mover_rewrite", number);
  number = mover_rewrite(image, build_image(q, q_tree, &spread, image), other, sizeof other, &other_length);
  expect(number == 0, name, "mover_rewrite", number);
  expect((one_length == other_length && !memcmp(one, other, one_length)) == same, name, "rewritten", (unsigned)one_length);
}

/* Patches that differ in one bit of one number, in n, in m, in having a tree: other bytes, but for root and parents without a tree. */
static void check_pairs(void) {
  static const struct kind {
    const char *name;
    field where;
    size_t places, bits;
  } kinds[7] = {
      {"root", AT_ROOT, 1, 8},        {"an end a", AT_A, 3, 8},       {"an end b", AT_B, 3, 8},       {"a length", AT_LENGTHS, 3, 16},
      {"an amount mu", AT_MU, 4, 32}, {"an amount nu", AT_NU, 4, 32}, {"a parent", AT_PARENTS, 4, 8},
  };
  static problem p, q;
  size_t k, i, bit;
  for (k = 0; k < 7; k++)
    for (i = 0; i < kinds[k].places; i++)
      for (bit = 0; bit < kinds[k].bits; bit++) {
        int of_tree = kinds[k].where == AT_ROOT || kinds[k].where == AT_PARENTS;
        p = q = problems[CASE_A];
        set_field(&p, kinds[k].where, i, 0);
        set_field(&q, kinds[k].where, i, (uint64_t)1 << bit);
        check_pair(kinds[k].name, &p, true, &q, true, 0);
        check_pair(kinds[k].name, &p, false, &q, false, of_tree);
        check_pair("the same", &q, true, &q, true, 1);
      }
  p = q = problems[CASE_A];
  check_pair("a tree or none", &p, true, &q, false, 0);
  q.n = q.mu_len = q.nu_len = q.parents_len = 5;
  check_pair("n", &p, true, &q, true, 0);
  check_pair("n", &p, false, &q, false, 0);
  q = p;
  q.a_len = q.b_len = q.lengths_len = 4;
  check_pair("m", &p, true, &q, true, 0);
  check_pair("m", &p, false, &q, false, 0);
}

/* Any numbers with any gap, mostly damaged: n or m out of bounds, bytes cut off, bits of the header changed, a section too long. */
static void check_drawn_rewriting(void) {
  static problem p;
  static uint8_t image[BUILT], result[BUILT];
  unsigned numbers[14] = {0}, round;
  for (round = 0; round < 6000; round++) {
    layout l = gap_at(draw_below(6), draw_below(2) * draw_below(100), (uint8_t)draw());
    size_t damage = draw_below(6), length, result_length = 0, i;
    draw_problem(&p);
    if (damage == 1) p.n = draw_below(2) * 65;
    if (damage == 2) p.a_len = 512 + draw_below(3);
    if (damage == 3) l.more[draw_below(4)] = 1 + (int)draw_below(4);
    length = build_image(&p, draw_below(2) == 0, &l, image);
    if (damage == 4) length = draw_below(3) == 0 ? draw_below(44) : length - draw_below(10);
    for (i = 0; damage == 5 && i < 2; i++) image[draw_below(36)] ^= (uint8_t)(1 << draw_below(8));
    if (image_number(image, length) == 0) result_length = close_gaps(image, result);
    numbers[check_rewrite(p.name, image, length, result, result_length, draw_below(8), draw_below(8) ? 2661 : draw_below(400))]++;
  }
  expect(numbers[0] > 1000 && numbers[1] > 100 && numbers[2] > 100, "every number", "of the rewriter", numbers[1]);
  expect(numbers[11] > 100 && numbers[12] > 100 && numbers[13] > 100, "every number", "of the rewriter", numbers[11]);
}

static void check_rewriter(void) {
  check_gaps();
  check_image_lengths();
  check_damages();
  check_refused_images();
  check_pairs();
  check_drawn_rewriting();
}

/* ---- trees */

static void expect_unknown(const char *what, mover_tree tree, size_t v) {
  expect(mover_tree_depth(tree, v) == 0 && mover_tree_parent(tree, v) == 64 && mover_tree_subtree(tree, v) == 0, what, "at vertex",
         (unsigned)v);
}

static void check_trees(void) {
  static const uint32_t chain[4] = {1, 2, 3, 3};
  uint32_t line[65];
  mover_tree tree = mover_tree_new(4, 3, chain, 4);
  size_t x;
  expect(sizeof(mover_tree) == 272 && sizeof(mover_edge) == 12, "the structs", "bytes", (unsigned)sizeof(mover_tree));
  for (x = 0; x < 4; x++) {
    expect(mover_tree_depth(tree, x) == 3 - x, "the depth", "at vertex", (unsigned)x);
    expect(mover_tree_parent(tree, x) == chain[x], "the parent", "at vertex", (unsigned)x);
    expect(mover_tree_subtree(tree, x) == ((uint64_t)2 << x) - 1, "the vertices below", "at vertex", (unsigned)x);
  }
  for (x = 4; x < 64; x++) expect(tree.parents[x] == 0, "0 from n on", "at place", (unsigned)x);
  expect_unknown("no vertex", tree, 4);
  expect_unknown("no vertex", tree, SIZE_MAX);
  expect_unknown("another root", mover_tree_new(4, 0, chain, 4), 0);
  expect_unknown("root n", mover_tree_new(4, 4, chain, 4), 0);
  expect_unknown("n 0", mover_tree_new(0, 0, chain, 4), 0);
  expect_unknown("a list too short", mover_tree_new(4, 3, chain, 3), 0);
  tree.parents[1] = 0;
  expect_unknown("a chain that misses the root", tree, 3);
  tree.parents[1] = 1;
  expect_unknown("a second vertex its own parent", tree, 3);
  tree.parents[1] = 4;
  expect_unknown("a parent that is none", tree, 3);
  for (x = 0; x < 65; x++) line[x] = x == 0 ? 0 : (uint32_t)(x - 1);
  tree = mover_tree_new(64, 0, line, 65);
  expect(mover_tree_depth(tree, 63) == 63 && mover_tree_subtree(tree, 0) == UINT64_MAX, "64 vertices", "mover_tree", 0);
  expect_unknown("65 vertices", mover_tree_new(65, 0, line, 65), 0);
  expect_unknown("more vertices than a number holds", mover_tree_new(SIZE_MAX, SIZE_MAX, line, 65), 0);
}

/* ---- climbs */

/* The numbers below n in any order. */
static void draw_order(size_t n, uint32_t *order) {
  size_t i, j;
  for (i = 0; i < n; i++) {
    j = draw_below(i + 1);
    order[i] = order[j];
    order[j] = (uint32_t)i;
  }
}

/* The parents of a line, a star or any tree, its vertices in any order; returns the root. */
static size_t draw_tree(size_t n, uint32_t *parents) {
  uint32_t order[64];
  size_t shape = draw_below(4), i;
  draw_order(n, order);
  parents[order[0]] = order[0];
  for (i = 1; i < n; i++) parents[order[i]] = order[shape == 0 ? i - 1 : shape == 1 ? 0 : draw_below(i)];
  return order[0];
}

/* Sets y's bit where it belongs: x after x on the way up from y. */
static void climb(size_t root, const uint32_t *parents, size_t y, uint64_t *words) {
  size_t x = y;
  words[x] |= (uint64_t)1 << y;
  while (x != root) {
    x = parents[x];
    words[x] |= (uint64_t)1 << y;
  }
}

/* One climb, after which all of the block is as it is to be. */
static void check_climb(size_t n, size_t root, const uint32_t *parents, size_t y, lent *table, size_t room, const lent *wanted) {
  uint64_t *masks = table->block + GUARD / 8;
  uint32_t number = mover_mark_ancestors(n, root, parents, n, y, masks, room);
  expect(number == MOVER_OK, "a climb", "mover_mark_ancestors", number);
  expect(!memcmp(table, wanted, sizeof *table), "the words after a climb", "from vertex", (unsigned)y);
}

/* Climbs from all vertices of a tree in any order, and again from some, and from what is no vertex. On words of 0 they gather the
 * subtrees, on others they add to what is there. */
static void check_climbs_of(size_t n, int on_zeros) {
  static lent table, wanted;
  uint32_t parents[64], order[64];
  size_t root = draw_tree(n, parents), room = n + draw_below(3), beyond[5], i, x;
  uint64_t *masks = (uint64_t *)lend(&table), *words = wanted.block + GUARD / 8;
  mover_tree tree = mover_tree_new(n, root, parents, n);
  for (x = 0; x < n; x++) masks[x] = on_zeros ? 0 : draw();
  memcpy(&wanted, &table, sizeof table);
  beyond[0] = n;
  beyond[1] = n + 1;
  beyond[2] = 64;
  beyond[3] = n + 64;
  beyond[4] = SIZE_MAX;
  for (i = 0; i < 5; i++) check_climb(n, root, parents, beyond[i], &table, room, &wanted);
  draw_order(n, order);
  for (i = 0; i < n; i++) {
    climb(root, parents, order[i], words);
    check_climb(n, root, parents, order[i], &table, room, &wanted);
    check_climb(n, root, parents, order[draw_below(i + 1)], &table, room, &wanted);
  }
  if (!on_zeros) return;
  for (x = 0; x < n; x++) expect(masks[x] == mover_tree_subtree(tree, x), "the vertices below", "vertex", (unsigned)x);
}

/* What is accepted and what is refused, from whichever vertex; of two faults the first gives the number. */
static void check_refused_climbs(void) {
  static const struct given {
    const char *name;
    uint32_t number;
    size_t n, root, parents_len, masks_len;
    uint32_t parents[V];
  } given[] = {
      {"a tree", 0, 4, 3, 4, 4, {1, 2, 3, 3}},
      {"a tree, more words", 0, 4, 3, 4, 70, {1, 2, 3, 3}},
      {"no vertex", 1, 0, 0, 0, 4, {0}},
      {"65 vertices", 1, 65, 0, 65, 65, {0}},
      {"SIZE_MAX vertices", 1, SIZE_MAX, 3, 4, 4, {1, 2, 3, 3}},
      {"parents short", 2, 4, 3, 3, 4, {1, 2, 3, 3}},
      {"parents long", 2, 4, 3, 5, 4, {1, 2, 3, 3, 3}},
      {"words short", 2, 4, 3, 4, 3, {1, 2, 3, 3}},
      {"no words", 2, 4, 3, 4, 0, {1, 2, 3, 3}},
      {"root n", 8, 4, 4, 4, 4, {1, 2, 3, 3}},
      {"root SIZE_MAX", 8, 4, SIZE_MAX, 4, 4, {1, 2, 3, 3}},
      {"a parent n", 8, 4, 3, 4, 4, {1, 4, 3, 3}},
      {"a parent UINT32_MAX", 8, 4, 3, 4, 4, {1, UINT32_MAX, 3, 3}},
      {"the root's parent another", 8, 4, 3, 4, 4, {1, 2, 3, 2}},
      {"a second vertex its own parent", 8, 4, 3, 4, 4, {1, 1, 3, 3}},
      {"a cycle of two", 10, 4, 3, 4, 4, {1, 0, 3, 3}},
      {"a cycle of three", 10, 4, 3, 4, 4, {1, 2, 0, 3}},
      {"1 and 2", 1, 0, 0, 4, 4, {1, 2, 3, 3}},
      {"1 and 2, 65 vertices", 1, 65, 3, 4, 4, {1, 2, 3, 3}},
      {"1 and 8", 1, 65, 65, 65, 65, {0}},
      {"1 and 10", 1, 65, 0, 65, 65, {0, 2, 1}},
      {"2 and 8, parents long", 2, 4, 4, 5, 4, {1, 2, 3, 3, 3}},
      {"2 and 8, words short", 2, 4, 3, 4, 3, {1, 1, 3, 3}},
      {"2 and 10, parents short", 2, 4, 2, 3, 4, {1, 0, 2}},
      {"2 and 10, words short", 2, 4, 3, 4, 3, {1, 0, 3, 3}},
      {"8 and 10, a parent n", 8, 4, 3, 4, 4, {1, 0, 4, 3}},
      {"8 and 10, the root's parent another", 8, 4, 3, 4, 4, {1, 0, 3, 2}},
      {"8 and 10, a second vertex its own parent", 8, 4, 3, 4, 4, {1, 0, 2, 3}},
  };
  static const size_t from[6] = {0, 1, 3, 4, 64, SIZE_MAX};
  lent table;
  size_t k, i;
  for (k = 0; k < sizeof given / sizeof given[0]; k++) {
    const struct given *g = &given[k];
    for (i = 0; i < 6; i++) {
      uint64_t *masks = (uint64_t *)lend(&table);
      uint32_t number = mover_mark_ancestors(g->n, g->root, g->parents, g->parents_len, from[i], masks, g->masks_len);
      expect(number == g->number, g->name, "mover_mark_ancestors", number);
      expect(kept_past(&table, number == MOVER_OK && from[i] < g->n ? 8 * g->n : 0), "the words' guards", g->name, number);
    }
  }
}

static void check_climbs(void) {
  size_t n, k;
  for (n = 1; n <= 64; n++)
    for (k = 0; k < 6; k++) check_climbs_of(n, k % 2 == 0);
  check_refused_climbs();
}

/* ---- weights: floats by their bits */

enum { ALL = 16777216, LONGEST = 1000, ONE = 0x3f800000 };

/* The number that a weight is refused by, 0 if none, and its amount, told from the bits by whole numbers alone. A float with the exponent
 * e > 0 is its 24 bits m, of which the first is left out, divided by 2^(150 - e): that makes 2m / 2^(127 - e) grains, under one if e < 103.
 * Negative floats and what is no number have bits above those of 1. */
static uint32_t grains_of(uint32_t bits, uint64_t *amount) {
  uint32_t e = bits >> 23, doubled = 2 * (bits & 0x7fffff) + (e > 0 ? ALL : 0);
  *amount = 0;
  if (bits == 0 || bits == 0x80000000u) return 0;
  if (bits > ONE) return 15;
  if (e < 103 || doubled % (1u << (127 - e)) != 0) return 16;
  *amount = doubled >> (127 - e);
  return 0;
}

/* The bits of an amount's weight. */
static uint32_t bits_of(uint64_t amount) {
  uint32_t e = 127;
  if (amount == 0) return 0;
  for (; amount < ALL; amount *= 2) e--;
  return e << 23 | (uint32_t)(amount / 2 % 0x800000);
}

/* The given list and the one to be filled, both between guard places. */
static lent given, filled;

/* Expects a call's number, all of the given block as it was, and of the other one all but what the call fills. */
static void expect_turned(const char *name, uint32_t number, uint32_t wanted, const lent *before, size_t written) {
  expect(number == wanted, name, "a number", number);
  expect(!memcmp(&given, before, sizeof given), "the given list", name, number);
  expect(kept_past(&filled, number == MOVER_OK ? written : 0), "the filled list's guards", name, number);
}

/* Weights in, with room for so many amounts; returns the number that is wanted. */
static uint32_t check_to_amounts(const char *name, const uint32_t *bits, size_t count, size_t room) {
  static lent before;
  uint64_t *amounts = (uint64_t *)lend(&filled), amount;
  uint8_t *weights = (uint8_t *)lend(&given);
  uint32_t wanted = 0, number;
  size_t i;
  memcpy(weights, bits, 4 * count);
  before = given;
  for (i = 0; i < count && wanted != 15; i++) {
    number = grains_of(bits[i], &amount);
    if (number != 0) wanted = number;
  }
  if (room < count) wanted = 2;
  number = mover_to_amounts((const float *)weights, count, amounts, room);
  expect_turned(name, number, wanted, &before, 8 * count);
  for (i = 0; i < count && number == MOVER_OK; i++) {
    grains_of(bits[i], &amount);
    expect(amounts[i] == amount, "an amount", name, (unsigned)i);
  }
  return wanted;
}

/* Amounts in, with room for so many weights. */
static uint32_t check_to_weights(const char *name, const uint64_t *amounts, size_t count, size_t room) {
  static lent before;
  uint8_t *weights = (uint8_t *)lend(&filled);
  uint64_t *list = (uint64_t *)lend(&given);
  uint32_t wanted = 0, number, bits;
  size_t i;
  memcpy(list, amounts, 8 * count);
  before = given;
  for (i = 0; i < count; i++)
    if (amounts[i] > ALL) wanted = 15;
  if (room < count) wanted = 2;
  number = mover_to_weights(list, count, (float *)weights, room);
  expect_turned(name, number, wanted, &before, 4 * count);
  for (i = 0; i < count && number == MOVER_OK; i++) {
    memcpy(&bits, weights + 4 * i, 4);
    expect(bits == bits_of(amounts[i]), "a weight", name, (unsigned)i);
  }
  return wanted;
}

static const struct marked {
  const char *name;
  uint32_t bits, number;
  uint64_t amount;
} marked[] = {
    {"zero", 0, 0, 0},
    {"negative zero", 0x80000000, 0, 0},
    {"one grain", 0x33800000, 0, 1},
    {"three grains", 0x34400000, 0, 3},
    {"a half", 0x3f000000, 0, 8388608},
    {"the float before 1", ONE - 1, 0, ALL - 1},
    {"1", ONE, 0, ALL},
    {"the float after 1", ONE + 1, 15, 0},
    {"2", 0x40000000, 15, 0},
    {"the greatest float", 0x7f7fffff, 15, 0},
    {"infinity", 0x7f800000, 15, 0},
    {"no number", 0x7fc00000, 15, 0},
    {"no number that signals", 0x7f800001, 15, 0},
    {"no number with a sign", 0xffc00000, 15, 0},
    {"the negative subnormal next to 0", 0x80000001, 15, 0},
    {"minus one grain", 0xb3800000, 15, 0},
    {"-1", 0x80000000 + ONE, 15, 0},
    {"minus infinity", 0xff800000, 15, 0},
    {"the least subnormal", 1, 16, 0},
    {"the greatest subnormal", 0x007fffff, 16, 0},
    {"the least normal float", 0x00800000, 16, 0},
    {"half a grain", 0x33000000, 16, 0},
    {"the float before one grain", 0x337fffff, 16, 0},
    {"the float after one grain", 0x33800001, 16, 0},
    {"0.1", 0x3dcccccd, 16, 0},
    {"the float before a half", 0x3effffff, 16, 0},
};
enum { MARKED = sizeof marked / sizeof marked[0] };

/* Each marked weight alone, and each two of them among weights of amounts, first and last. */
static void check_marked_weights(void) {
  static const size_t lengths[4] = {2, 64, 65, LONGEST};
  uint32_t list[LONGEST];
  float tenth = 0.1f;
  uint64_t amount;
  size_t k, l, i, length;
  expect(!memcmp(&tenth, &marked[MARKED - 2].bits, 4), "the bits of", "0.1f", 0);
  for (k = 0; k < MARKED; k++) {
    const struct marked *w = &marked[k];
    expect(grains_of(w->bits, &amount) == w->number && amount == w->amount, "grains_of", w->name, (unsigned)amount);
    expect(check_to_amounts(w->name, &w->bits, 1, 1) == w->number, w->name, "alone", 0);
    expect(check_to_amounts(w->name, &w->bits, 1, 0) == 2, w->name, "and no room", 0);
    for (l = 0; l < MARKED; l++) {
      uint32_t one = w->number, other = marked[l].number;
      uint32_t wanted = one == 15 || other == 15 ? 15 : one == 16 || other == 16 ? 16 : 0;
      length = lengths[l % 4];
      for (i = 0; i < length; i++) list[i] = bits_of(i * 4099 % (ALL + 1));
      list[0] = w->bits;
      list[length - 1] = marked[l].bits;
      expect(check_to_amounts(w->name, list, length, length) == wanted, w->name, marked[l].name, (unsigned)length);
      expect(check_to_amounts(w->name, list, length, length + 3) == wanted, w->name, "a longer list", (unsigned)length);
      expect(check_to_amounts(w->name, list, length, length - 1) == 2, w->name, "a short list", (unsigned)length);
    }
  }
  expect(check_to_amounts("no weight", list, 0, 3) == 0, "no weight", "a longer list", 0);
}

/* Marked amounts, in lists of each length with one of them last, and a list that is as long, longer, too short. */
static void check_marked_amounts(void) {
  static const uint64_t last[8] = {0, 1, ALL - 1, ALL, ALL + 1, 4294967296u, ((uint64_t)1 << 32) + 1, UINT64_MAX};
  static const size_t lengths[5] = {1, 2, 64, 65, LONGEST};
  uint64_t list[LONGEST];
  size_t k, l, i;
  expect(bits_of(0) == 0 && bits_of(1) == 0x33800000 && bits_of(3) == 0x34400000, "bits_of", "few grains", 0);
  expect(bits_of(ALL / 2) == 0x3f000000 && bits_of(ALL - 1) == ONE - 1 && bits_of(ALL) == ONE, "bits_of", "many grains", 0);
  for (k = 0; k < 8; k++)
    for (l = 0; l < 5; l++) {
      uint32_t wanted = last[k] > ALL ? 15 : 0;
      for (i = 0; i < lengths[l]; i++) list[i] = i * 16411 % (ALL + 1);
      list[lengths[l] - 1] = last[k];
      expect(check_to_weights("amounts", list, lengths[l], lengths[l]) == wanted, "amounts", "as long", (unsigned)k);
      expect(check_to_weights("amounts", list, lengths[l], lengths[l] + 3) == wanted, "amounts", "a longer list", (unsigned)k);
      expect(check_to_weights("amounts", list, lengths[l], lengths[l] - 1) == 2, "amounts", "a short list", (unsigned)k);
    }
  expect(check_to_weights("no amount", list, 0, 3) == 0, "no amount", "a longer list", 0);
  list[0] = ALL + 1;
  expect(check_to_weights("amounts", list, LONGEST, LONGEST) == 15, "amounts", "the first one", 15);
}

/* A number with up to so many of its last bits dropped: small ones come up too. */
static uint64_t draw_shorter(uint64_t number, size_t bits) {
  return number >> draw_below(bits + 1);
}

/* Lists of any amounts and their weights, most of them with a few places changed: to any bits, or to those beside an amount's. */
static void check_random_lists(void) {
  static uint32_t bits[LONGEST];
  static uint64_t amounts[LONGEST];
  unsigned out[17] = {0}, in[17] = {0}, round;
  for (round = 0; round < 4000; round++) {
    size_t count = draw_below(round % 50 == 0 ? LONGEST + 1 : 70), changes = draw_below(4), room = count + draw_below(3), i;
    for (i = 0; i < count; i++) bits[i] = bits_of(amounts[i] = draw_shorter(draw_below(ALL + 1), 24));
    while (count > 0 && changes-- > 0) {
      size_t place = draw_below(count);
      bits[place] = draw_below(4) == 0 ? (uint32_t)draw() : bits[place] + (uint32_t)draw_below(3) - 1;
      amounts[place] = draw_below(4) == 0 ? draw_shorter(draw(), 63) : ALL - 1 + draw_below(3);
    }
    if (count > 0 && draw_below(10) == 0) room = draw_below(count);
    in[check_to_amounts("any weights", bits, count, room)]++;
    out[check_to_weights("any amounts", amounts, count, room)]++;
  }
  expect(in[0] > 400 && in[2] > 200 && in[15] > 200 && in[16] > 400, "every number", "of weights", in[15]);
  expect(out[0] > 400 && out[2] > 200 && out[15] > 400, "every number", "of amounts", out[15]);
}

/* Every amount out, and in again. */
static void check_all_amounts(void) {
  enum { PART = 4096 };
  static uint64_t amounts[PART], again[PART];
  static float weights[PART];
  uint64_t first;
  for (first = 0; first <= ALL; first += PART) {
    size_t count = first + PART <= ALL ? PART : (size_t)(ALL - first) + 1, right = 0, i;
    uint32_t bits;
    for (i = 0; i < count; i++) amounts[i] = first + i;
    expect(mover_to_weights(amounts, count, weights, count) == 0, "weights", "of amounts from", (unsigned)first);
    for (i = 0; i < count; i++) {
      memcpy(&bits, &weights[i], 4);
      right += bits == bits_of(first + i);
    }
    expect(right == count, "right weights", "of amounts from", (unsigned)first);
    expect(mover_to_amounts(weights, count, again, count) == 0, "amounts again", "from", (unsigned)first);
    expect(!memcmp(amounts, again, 8 * count), "the same amounts again", "from", (unsigned)first);
  }
}

static void check_weights(void) {
  check_marked_weights();
  check_marked_amounts();
  check_random_lists();
  check_all_amounts();
}

/* ---- brushes: the vertices within reach of a start, and the nearest one with paint. The start is a problem's
 * root, the painting its mu. */

/* What is known of a patch without the library: the number by which checks 1 to 5 refuse it, its painting left
 * aside, and if that is 0 the least length of all ways from each vertex to each. */
typedef struct known {
  uint32_t number;
  uint64_t least[64][64];
} known;

static const uint64_t apart = (uint64_t)1 << 40; /* longer than every way */

/* The number of checks 1 to 4. */
static uint32_t edges_number(const problem *p) {
  size_t n = p->n, m = p->a_len, e;
  if (n == 0 || n > 64) return 1;
  if (m > 512 || p->b_len != m || p->lengths_len != m) return 2;
  for (e = 0; e < m; e++) {
    if (p->b[e] >= n || p->a[e] >= p->b[e]) return 3;
    if (e > 0 && 64 * p->a[e] + p->b[e] <= 64 * p->a[e - 1] + p->b[e - 1]) return 3;
  }
  for (e = 0; e < m; e++)
    if (p->lengths[e] > 65535) return 4;
  return 0;
}

/* By Floyd and Warshall. */
static void find_ways(const problem *p, uint64_t (*least)[64]) {
  size_t x, y, z, e;
  for (x = 0; x < p->n; x++)
    for (y = 0; y < p->n; y++) least[x][y] = x == y ? 0 : apart;
  for (e = 0; e < p->a_len; e++) least[p->a[e]][p->b[e]] = least[p->b[e]][p->a[e]] = p->lengths[e];
  for (z = 0; z < p->n; z++)
    for (x = 0; x < p->n; x++)
      for (y = 0; y < p->n; y++)
        if (least[x][z] + least[z][y] < least[x][y]) least[x][y] = least[x][z] + least[z][y];
}

/* Finds out what is known, and sees that the library's own distances are the same. */
static void learn(const problem *p, known *k) {
  static uint32_t out[4096];
  size_t same = 0, x, y;
  uint32_t number =
      mover_distances(p->n, p->a, p->a_len, p->b, p->b_len, p->lengths, p->lengths_len, out, 4096);
  k->number = edges_number(p);
  if (k->number == 0) {
    find_ways(p, k->least);
    for (x = 0; x < p->n; x++)
      if (k->least[0][x] == apart) k->number = 5;
  }
  expect(number == k->number, "the number of", "mover_distances", number);
  if (number != MOVER_OK || k->number != 0) return;
  for (x = 0; x < p->n; x++)
    for (y = 0; y < p->n; y++) same += out[x * p->n + y] == k->least[x][y];
  expect(same == p->n * p->n, "the same ways", p->name, (unsigned)same);
}

static uint32_t within_number(const problem *p, const known *k) {
  if (k->number != 0) return k->number;
  return p->root < p->n ? 0 : 17;
}

static uint32_t nearest_number(const problem *p, const known *k) {
  uint64_t room = 16777216;
  size_t v;
  if (k->number == 1) return 1;
  if (p->mu_len != p->n) return 2;
  if (k->number != 0) return k->number;
  for (v = 0; v < p->n; v++) {
    if (p->mu[v] > room) return 6;
    room -= p->mu[v];
  }
  return p->root < p->n ? 0 : 17;
}

static uint64_t word_within(const problem *p, const known *k, uint32_t reach) {
  uint64_t word = 0;
  size_t v;
  for (v = 0; v < p->n; v++)
    if (k->least[p->root][v] <= reach) word |= (uint64_t)1 << v;
  return word;
}

/* From the last vertex down, so that the lowest of those equally near stays. */
static uint32_t vertex_nearest(const problem *p, const known *k) {
  const uint64_t *away = k->least[p->root];
  uint32_t nearest = 64;
  size_t v;
  for (v = p->n; v-- > 0;)
    if (p->mu[v] > 0 && (nearest == 64 || away[v] <= away[nearest])) nearest = (uint32_t)v;
  return nearest;
}

/* What a call left: its number, and a single result of so many bytes from byte 16 on, amid guard places. */
typedef struct single {
  uint32_t number;
  uint64_t places[5];
} single;

enum { SINGLE_GUARD = 0xc3 };

/* Before the call, no bit of the result is as it is to be. */
static void *lend_single(single *s, const void *wanted, size_t bytes) {
  uint8_t *place = (uint8_t *)s->places + 16;
  size_t i;
  memset(s->places, SINGLE_GUARD, sizeof s->places);
  for (i = 0; i < bytes; i++) place[i] = (uint8_t)~((const uint8_t *)wanted)[i];
  return place;
}

/* What is not as wanted, or NULL. */
static const char *wrong_in_single(const single *s, uint32_t number, const void *wanted, size_t bytes) {
  uint8_t all[sizeof s->places];
  memset(all, SINGLE_GUARD, sizeof all);
  memcpy(all + 16, wanted, bytes);
  if (s->number != number) return "the number";
  if (memcmp((const uint8_t *)s->places + 16, wanted, bytes) != 0) return "the result";
  return memcmp(s->places, all, sizeof all) == 0 ? NULL : "the places round it";
}

static uint32_t ask_within(const problem *p, uint32_t reach, void *mask) {
  return mover_vertices_within(p->n, p->a, p->a_len, p->b, p->b_len, p->lengths, p->lengths_len, p->root, reach,
                               (uint64_t *)mask);
}

static uint32_t ask_nearest(const problem *p, void *vertex) {
  return mover_nearest_vertex(p->n, p->a, p->a_len, p->b, p->b_len, p->lengths, p->lengths_len, p->root, p->mu,
                              p->mu_len, (uint32_t *)vertex);
}

/* One call each, on a patch that is known; they return the number that is wanted. After a refusal the result is
 * to be 0. */
static uint32_t check_within(const char *name, const problem *p, const known *k, uint32_t reach) {
  static problem before;
  single s;
  uint32_t wanted = within_number(p, k);
  uint64_t word = wanted == MOVER_OK ? word_within(p, k, reach) : 0;
  const char *wrong;
  void *mask = lend_single(&s, &word, 8);
  memcpy(&before, p, sizeof before);
  s.number = ask_within(p, reach, mask);
  expect(!memcmp(&before, p, sizeof before), "what was given", name, s.number);
  wrong = wrong_in_single(&s, wanted, &word, 8);
  expect(wrong == NULL, wrong ? wrong : "", name, s.number);
  return wanted;
}

static uint32_t check_nearest(const char *name, const problem *p, const known *k) {
  static problem before;
  single s;
  uint32_t wanted = nearest_number(p, k), answer = wanted == MOVER_OK ? vertex_nearest(p, k) : 0;
  const char *wrong;
  void *vertex = lend_single(&s, &answer, 4);
  memcpy(&before, p, sizeof before);
  s.number = ask_nearest(p, vertex);
  expect(!memcmp(&before, p, sizeof before), "what was given", name, s.number);
  wrong = wrong_in_single(&s, wanted, &answer, 4);
  expect(wrong == NULL, wrong ? wrong : "", name, s.number);
  return wanted;
}

/* Every problem with each of its paintings, as long as is asked, longer and shorter, from each vertex and from
 * what is none. */
static void check_asked_problems(void) {
  static const uint32_t reaches[5] = {0, 1, 2, 5, UINT32_MAX};
  static problem p;
  static known k;
  size_t i, j, start;
  for (i = 0; i < 2 * PROBLEMS; i++) {
    p = problems[i / 2];
    if (i % 2 == 1) memcpy(p.mu, p.nu, sizeof p.mu);
    learn(&p, &k);
    for (start = 0; start < p.n + 2; start++) {
      uint32_t end = start < p.n ? 0 : 17, edges = up_to(p.number, 5), paint = p.mu[0] > 16777216 ? 6 : 0;
      p.root = start <= p.n ? start : SIZE_MAX;
      for (j = 0; j < 5; j++)
        expect(check_within(p.name, &p, &k, reaches[j]) == (edges ? edges : end), p.name, "within", reaches[j]);
      expect(check_nearest(p.name, &p, &k) == (edges ? edges : paint ? paint : end), p.name, "nearest", end);
      p.mu_len++;
      expect(check_nearest(p.name, &p, &k) == (edges == 1 ? 1 : 2), p.name, "a long painting", end);
      p.mu_len = p.n / 2;
      expect(check_nearest(p.name, &p, &k) == (edges == 1 ? 1 : 2), p.name, "a short painting", end);
      p.mu_len = p.n;
    }
  }
}

/* A long edge (0, 1) beside the way round by vertex 2, a seam (2, 3) and an edge (3, 4). */
static const problem way_round = {
    "the way round", 0, 5, 5, 5, 5, {0, 0, 1, 2, 3}, {1, 2, 2, 3, 4}, {10, 3, 3, 0, 7}, 5, 5, {0}, {0}, 0, 5, {0},
};

/* Start, reach, the vertices within. */
static const struct reached {
  size_t start;
  uint32_t reach;
  uint64_t mask;
} reached[] = {
    {0, 0, 0x01},  {0, 2, 0x01},     {0, 3, 0x0d},          {0, 5, 0x0d},  {0, 6, 0x0f}, {0, 9, 0x0f},
    {0, 10, 0x1f}, {0, 65536, 0x1f}, {0, UINT32_MAX, 0x1f}, {1, 0, 0x02},  {1, 2, 0x02}, {1, 3, 0x0e},
    {1, 5, 0x0e},  {1, 6, 0x0f},     {1, 9, 0x0f},          {1, 10, 0x1f}, {2, 0, 0x0c}, {3, 0, 0x0c},
    {3, 2, 0x0c},  {3, 3, 0x0f},     {3, 6, 0x0f},          {3, 7, 0x1f},  {4, 0, 0x10}, {4, 6, 0x10},
    {4, 7, 0x1c},  {4, 9, 0x1c},     {4, 10, 0x1f},
};

/* Start, the vertices with paint, the nearest of them. */
static const struct found {
  size_t start;
  uint64_t painted;
  uint32_t vertex;
} found[] = {
    {0, 0x00, 64}, {4, 0x00, 64}, {0, 0x01, 0}, {0, 0x1f, 0}, {0, 0x1e, 2}, {0, 0x18, 3}, {0, 0x12, 1},
    {0, 0x10, 4},  {1, 0x1d, 2},  {1, 0x11, 0}, {2, 0x1b, 3}, {2, 0x1f, 2}, {3, 0x1f, 2}, {3, 0x1b, 3},
    {3, 0x13, 0},  {3, 0x12, 1},  {4, 0x1f, 4}, {4, 0x0f, 2}, {4, 0x03, 0}, {4, 0x02, 1},
};

/* Answers told by hand; also those that are found here must be so. */
static void check_told(void) {
  static known k;
  problem p = way_round;
  size_t i, v;
  expect(MOVER_NO_VERTEX == 64, "MOVER_NO_VERTEX", "is", MOVER_NO_VERTEX);
  learn(&p, &k);
  for (i = 0; i < sizeof reached / sizeof reached[0]; i++) {
    p.root = reached[i].start;
    check_within(p.name, &p, &k, reached[i].reach);
    expect(word_within(&p, &k, reached[i].reach) == reached[i].mask, "a word told", p.name, (unsigned)i);
  }
  for (i = 0; i < sizeof found / sizeof found[0]; i++) {
    p.root = found[i].start;
    for (v = 0; v < 5; v++) p.mu[v] = (found[i].painted >> v & 1) * (1 + 1000 * v);
    check_nearest(p.name, &p, &k);
    expect(vertex_nearest(&p, &k) == found[i].vertex, "a vertex told", p.name, (unsigned)i);
  }
}

/* Every number at its bound: 64 vertices, 512 edges, each 65,535 long, and a total of 16,777,216. Vertex 63
 * hangs on the edge (0, 63) alone, which is edge HANGS; a path through the others and edges beside it make up
 * the rest. */
enum { HANGS = 9, SHARE = 16777216 / 64 };

static void fill_bounds(problem *p) {
  size_t x, y, m = 0;
  memset(p, 0, sizeof *p);
  p->name = "every number at its bound";
  p->n = p->mu_len = 64;
  for (x = 0; x < 64; x++) {
    p->mu[x] = SHARE;
    for (y = x + 1; y < 64; y++) {
      if (x == 0 ? y > 9 && y < 63 : y > x + 9 || y == 63) continue;
      if (y > x + 1 && y < 63 && m + 61 - x >= 512) continue; /* leave room for the path */
      p->a[m] = (uint32_t)x;
      p->b[m] = (uint32_t)y;
      p->lengths[m++] = 65535;
    }
  }
  p->a_len = p->b_len = p->lengths_len = m;
  p->mu[64] = p->mu[65] = UINT64_MAX; /* no one looks at these */
  expect(m == 512 && p->b[HANGS] == 63, p->name, "edges", (unsigned)m);
}

/* One of these numbers changed, at one place or EVERY place of its list, and what the calls then return. */
enum { EVERY = 1000 };

static const struct change {
  const char *name;
  field where;
  size_t place;
  uint64_t value;
  uint32_t within, nearest;
} changes[] = {
    {"n 0", AT_N, 0, 0, 1, 1},
    {"n 65", AT_N, 0, 65, 1, 1},
    {"n 256 + 64", AT_N, 0, 320, 1, 1},
    {"n 2^32 + 64", AT_N, 0, 4294967360u, 1, 1},
    {"n SIZE_MAX", AT_N, 0, SIZE_MAX, 1, 1},
    {"no a", A_LEN, 0, 0, 2, 2},
    {"a short", A_LEN, 0, 511, 2, 2},
    {"a long", A_LEN, 0, 513, 2, 2},
    {"no b", B_LEN, 0, 0, 2, 2},
    {"b short", B_LEN, 0, 511, 2, 2},
    {"b long", B_LEN, 0, 513, 2, 2},
    {"no lengths", LENGTHS_LEN, 0, 0, 2, 2},
    {"lengths short", LENGTHS_LEN, 0, 511, 2, 2},
    {"lengths long", LENGTHS_LEN, 0, 513, 2, 2},
    {"no amounts", MU_LEN, 0, 0, 0, 2},
    {"amounts short", MU_LEN, 0, 63, 0, 2},
    {"amounts long", MU_LEN, 0, 65, 0, 2},
    {"an end a 63", AT_A, EVERY, 63, 3, 3},
    {"an end a UINT32_MAX", AT_A, EVERY, UINT32_MAX, 3, 3},
    {"an end b 0", AT_B, EVERY, 0, 3, 3},
    {"an end b 64", AT_B, EVERY, 64, 3, 3},
    {"an end b UINT32_MAX", AT_B, EVERY, UINT32_MAX, 3, 3},
    {"vertex 63 alone", AT_B, HANGS, 62, 5, 5},
    {"a length 0", AT_LENGTHS, EVERY, 0, 0, 0},
    {"a length 65536", AT_LENGTHS, EVERY, 65536, 4, 4},
    {"a length UINT32_MAX", AT_LENGTHS, EVERY, UINT32_MAX, 4, 4},
    {"an amount 0", AT_MU, EVERY, 0, 0, 0},
    {"one grain less", AT_MU, EVERY, SHARE - 1, 0, 0},
    {"one grain more", AT_MU, EVERY, SHARE + 1, 0, 6},
    {"an amount 2^32", AT_MU, EVERY, 4294967296u, 0, 6},
    {"a total of 2^64", AT_MU, EVERY, UINT64_MAX - 63 * SHARE + 1, 0, 6},
    {"an amount UINT64_MAX", AT_MU, EVERY, UINT64_MAX, 0, 6},
    {"start 63", AT_ROOT, 0, 63, 0, 0},
    {"start 64", AT_ROOT, 0, 64, 17, 17},
    {"start 65", AT_ROOT, 0, 65, 17, 17},
    {"start 256", AT_ROOT, 0, 256, 17, 17},
    {"start 2^32", AT_ROOT, 0, 4294967296u, 17, 17},
    {"start SIZE_MAX", AT_ROOT, 0, SIZE_MAX, 17, 17},
};
enum { CHANGES = sizeof changes / sizeof changes[0] };

static void check_changed(const char *name, const char *other, const problem *p, uint32_t within,
                          uint32_t nearest) {
  static known k;
  learn(p, &k);
  expect(check_within(name, p, &k, 65535) == within, name, other, within);
  expect(check_within(name, p, &k, UINT32_MAX) == within, name, other, within);
  expect(check_nearest(name, p, &k) == nearest, name, other, nearest);
}

/* Each change, at every place of a list. */
static void check_changes(void) {
  static problem bounds, p;
  size_t k, i;
  fill_bounds(&bounds);
  check_changed(bounds.name, "", &bounds, 0, 0);
  for (k = 0; k < CHANGES; k++) {
    const struct change *c = &changes[k];
    size_t first = c->place == EVERY ? 0 : c->place, end = c->place == EVERY ? places_of(c->where) : first + 1;
    for (i = first; i < end; i++) {
      p = bounds;
      set_field(&p, c->where, i, c->value);
      check_changed(c->name, "alone", &p, c->within, c->nearest);
    }
  }
}

/* Each two changes in one, the latter at the end of its list: the order of the checks is that of their numbers.
 * Each change with 513 edges. */
static void check_two_changes(void) {
  static problem bounds, p;
  size_t k, l;
  fill_bounds(&bounds);
  for (k = 0; k < CHANGES; k++) {
    const struct change *c = &changes[k], *d;
    for (l = 0; l < CHANGES; l++) {
      d = &changes[l];
      if (d->where == c->where) continue;
      p = bounds;
      set_field(&p, c->where, c->place == EVERY ? 0 : c->place, c->value);
      set_field(&p, d->where, d->place == EVERY ? places_of(d->where) - 1 : d->place, d->value);
      check_changed(c->name, d->name, &p, first_of(c->within, d->within), first_of(c->nearest, d->nearest));
    }
    p = bounds;
    p.a_len = p.b_len = p.lengths_len = 513;
    if (c->where != A_LEN && c->where != B_LEN && c->where != LENGTHS_LEN)
      set_field(&p, c->where, c->place == EVERY ? 0 : c->place, c->value);
    check_changed(c->name, "513 edges", &p, first_of(c->within, 2), first_of(c->nearest, 2));
  }
}

/* Changes at more than one place: an edge twice, two edges exchanged behind a length of 65,536, a vertex gone
 * from all but the edges, no edges, and a total of 2^64. */
static void check_more_changes(void) {
  static problem bounds, p;
  size_t e, v;
  fill_bounds(&bounds);
  for (e = 0; e + 1 < 512; e++) {
    p = bounds;
    p.a[e] = p.a[e + 1];
    p.b[e] = p.b[e + 1];
    check_changed("an edge twice", "", &p, 3, 3);
    p.a[e + 1] = bounds.a[e];
    p.b[e + 1] = bounds.b[e];
    p.lengths[0] = 65536;
    check_changed("two edges exchanged", "", &p, 3, 3);
  }
  p = bounds;
  p.n = p.mu_len = 63;
  check_changed("n 63", "", &p, 3, 3);
  p = bounds;
  p.a_len = p.b_len = p.lengths_len = 0;
  check_changed("no edges", "", &p, 5, 5);
  p = bounds;
  for (v = 0; v < 64; v++) p.mu[v] = (uint64_t)1 << 58;
  check_changed("a total of 2^64 together", "", &p, 0, 6);
  p.root = SIZE_MAX;
  check_changed("a total of 2^64 together", "no start", &p, 17, 6);
  p.b[HANGS] = 62;
  check_changed("a total of 2^64 together", "no start, vertex 63 alone", &p, 5, 5);
}

/* The longest ways: a line of all vertices, each edge 65,535 long. From some starts, each distance and one
 * less, and paint at one end, both ends or nowhere. */
static void check_longest(void) {
  static problem p;
  static known k;
  size_t i, v;
  memset(&p, 0, sizeof p);
  p.name = "a line";
  p.n = p.mu_len = 64;
  p.a_len = p.b_len = p.lengths_len = 63;
  for (i = 0; i < 63; i++) {
    p.a[i] = (uint32_t)i;
    p.b[i] = (uint32_t)i + 1;
    p.lengths[i] = 65535;
  }
  learn(&p, &k);
  expect(k.least[0][63] == 4128705, "the longest way", p.name, (unsigned)k.least[0][63]);
  for (p.root = 0; p.root < 64; p.root += 7) {
    for (v = 0; v < 64; v++) {
      uint32_t away = (uint32_t)k.least[p.root][v];
      check_within(p.name, &p, &k, away);
      check_within(p.name, &p, &k, away - 1); /* UINT32_MAX at the start itself */
    }
    for (i = 0; i < 4; i++) {
      p.mu[0] = i % 2 * 16777215;
      p.mu[63] = i / 2;
      check_nearest(p.name, &p, &k);
    }
  }
}

/* Which vertices share an edge: those of a tree, of a tree with a few edges more or up to 512, or of a grid, the
 * vertices in any order. */
static void draw_joined(size_t n, uint8_t (*joined)[64]) {
  uint32_t order[64], parents[64];
  size_t shape = draw_below(4), width = 1 + draw_below(n), more = shape == 1 ? draw_below(n) : 449, i;
  memset(joined, 0, 64 * sizeof *joined);
  if (shape == 3) {
    draw_order(n, order);
    for (i = 0; i < n; i++) {
      if ((i + 1) % width != 0 && i + 1 < n) joined[order[i]][order[i + 1]] = 1;
      if (i + width < n) joined[order[i]][order[i + width]] = 1;
    }
    return;
  }
  draw_tree(n, parents);
  for (i = 0; i < n; i++) joined[i][parents[i]] = 1;
  if (shape == 0) return;
  for (i = 0; i < more; i++) joined[draw_below(n)][draw_below(n)] = 1;
}

/* Any length, one of few, always the same, or a short or a long one, so that many edges are longer than the
 * way round. */
static uint32_t draw_length(size_t kind, uint32_t same) {
  if (kind == 0) return (uint32_t)draw_below(65536);
  if (kind == 1) return (uint32_t)draw_below(4);
  if (kind == 2) return same;
  return (uint32_t)(draw_below(2) == 0 ? draw_below(3) : 65535 - draw_below(3));
}

/* The edges of the vertices that are joined. What stands past their lists would change every answer. */
static void put_edges(problem *p, uint8_t (*joined)[64], size_t kind, uint32_t same) {
  size_t x, y, m = 0, i;
  for (x = 0; x < p->n; x++)
    for (y = x + 1; y < p->n; y++) {
      if (!joined[x][y] && !joined[y][x]) continue;
      p->a[m] = (uint32_t)x;
      p->b[m] = (uint32_t)y;
      p->lengths[m++] = draw_length(kind, same);
    }
  p->a_len = p->b_len = p->lengths_len = m;
  for (i = m; i < E; i++) p->b[i] = (uint32_t)p->n - 1;
}

/* A sound patch without a painting. */
static void draw_patch(problem *p) {
  static const uint32_t lengths[4] = {0, 1, 1000, 65535};
  uint8_t joined[64][64];
  size_t kind = draw_below(4), i;
  uint32_t same = lengths[draw_below(4)];
  memset(p, 0, sizeof *p);
  p->name = "any patch";
  p->n = p->mu_len = draw_below(8) == 0 ? 64 - draw_below(32) : 1 + draw_below(12);
  draw_joined(p->n, joined);
  put_edges(p, joined, kind, same);
  for (i = p->n; i < V; i++) p->mu[i] = UINT64_MAX;
}

/* No paint, some or paint everywhere, often a grain here and there, or not at the start; now and then a total
 * about the bound. */
static void draw_painting(problem *p, size_t n) {
  size_t often = draw_below(5), kind = draw_below(4), v;
  for (v = 0; v < n; v++) {
    p->mu[v] = 0;
    if (often == 0 || draw_below(often) != 0) continue;
    p->mu[v] = kind == 0 ? 1 : 1 + draw_below(16777216 / n);
  }
  if (p->root < n && draw_below(2) == 0) p->mu[p->root] = 0;
  if (draw_below(8) == 0) p->mu[draw_below(n)] = 16777216 + draw_below(3) - 1;
}

/* A vertex more that hangs on nothing, an edge less, or a change as above in any place. */
static void damage(problem *p) {
  const struct change *c = &changes[draw_below(CHANGES)];
  size_t kind = draw_below(4), e;
  if (kind == 0) p->n = ++p->mu_len;
  if (kind == 1 && p->lengths_len > 0) {
    p->a_len = p->b_len = --p->lengths_len;
    for (e = draw_below(p->a_len + 1); e < p->a_len; e++) {
      p->a[e] = p->a[e + 1];
      p->b[e] = p->b[e + 1];
    }
  }
  if (kind > 1) set_field(p, c->where, draw_below(p->n < V ? p->n + 1 : 1), c->value);
}

/* What came up: the numbers of both calls, paint equally near, edges longer than the way round, seams. */
typedef struct tally {
  unsigned within[18], nearest[18], ties, detours, seams;
} tally;

static void count_edges(const problem *p, const known *k, tally *t) {
  size_t e;
  for (e = 0; e < p->a_len && k->number == 0; e++) {
    t->detours += p->lengths[e] > k->least[p->a[e]][p->b[e]];
    t->seams += p->lengths[e] == 0;
  }
}

static void count_ties(const problem *p, const known *k, tally *t) {
  size_t nearest = vertex_nearest(p, k), v;
  for (v = nearest + 1; v < p->n; v++)
    if (p->mu[v] > 0 && k->least[p->root][v] == k->least[p->root][nearest]) {
      t->ties++;
      return;
    }
}

/* From one start: reaches about the distance of some vertex, least or greatest, and any; three paintings. n is
 * the number of vertices before any damage. */
static void check_drawn_start(problem *p, const known *k, size_t n, tally *t) {
  uint64_t away = k->number == 0 && p->root < p->n ? k->least[p->root][draw_below(n)] : draw_below(1000);
  size_t i;
  for (i = 0; i < 3; i++) t->within[check_within(p->name, p, k, (uint32_t)(away + i - 1))]++;
  t->within[check_within(p->name, p, k, draw_below(2) == 0 ? 0 : UINT32_MAX)]++;
  t->within[check_within(p->name, p, k, (uint32_t)(draw() >> 32 >> draw_below(32)))]++;
  for (i = 0; i < 3; i++) {
    uint32_t number;
    draw_painting(p, n);
    number = check_nearest(p->name, p, k);
    t->nearest[number]++;
    if (number == MOVER_OK) count_ties(p, k, t);
  }
}

/* Any patches, one in three of them damaged once or twice, each from some vertices and from what is none. */
static void check_drawn_patches(void) {
  static const uint32_t numbers[8] = {0, 1, 2, 3, 4, 5, 6, 17};
  static problem p;
  static known k;
  tally t = {{0}, {0}, 0, 0, 0};
  size_t round, count, n, i;
  for (round = 0; round < 3000; round++) {
    draw_patch(&p);
    n = p.n;
    for (count = draw_below(3) == 0 ? 1 + draw_below(2) : 0; count > 0; count--) damage(&p);
    learn(&p, &k);
    count_edges(&p, &k, &t);
    for (i = 0; i < 4; i++) {
      p.root = i < 3 ? draw_below(n) : p.n + draw_below(2) * draw_below(300);
      check_drawn_start(&p, &k, n, &t);
    }
  }
  for (i = 0; i < 8; i++) {
    expect(t.within[numbers[i]] > 100 || numbers[i] == 6, "every number", "within", t.within[numbers[i]]);
    expect(t.nearest[numbers[i]] > 100, "every number", "nearest", t.nearest[numbers[i]]);
  }
  expect(t.ties > 3000 && t.detours > 3000 && t.seams > 3000, "ties, ways round and seams,", "ties", t.ties);
}

/* A right answer, spoiled on purpose: each bit of the result and of the places round it, the number, a result
 * that is not written. */
static void check_spoiled_single(single *s, uint32_t number, const void *wanted, size_t bytes) {
  uint8_t *places = (uint8_t *)s->places;
  size_t i;
  expect(wrong_in_single(s, number, wanted, bytes) == NULL, "a right answer", "bytes", (unsigned)bytes);
  for (i = 0; i < 8 * sizeof s->places; i++) {
    places[i / 8] ^= (uint8_t)(1 << i % 8);
    expect(wrong_in_single(s, number, wanted, bytes) != NULL, "a spoiled bit", "at", (unsigned)i);
    places[i / 8] ^= (uint8_t)(1 << i % 8);
  }
  expect(wrong_in_single(s, number + 1, wanted, bytes) != NULL, "another number", "bytes", (unsigned)bytes);
  lend_single(s, wanted, bytes);
  expect(wrong_in_single(s, number, wanted, bytes) != NULL, "nothing written", "bytes", (unsigned)bytes);
}

static void check_spoiled_answers(void) {
  const uint64_t word = 0x0d, none = 0;
  const uint32_t vertex = 64;
  problem p = way_round;
  single s;
  void *place = lend_single(&s, &word, 8);
  s.number = ask_within(&p, 3, place);
  check_spoiled_single(&s, MOVER_OK, &word, 8);
  place = lend_single(&s, &vertex, 4);
  s.number = ask_nearest(&p, place);
  check_spoiled_single(&s, MOVER_OK, &vertex, 4);
  p.root = 5;
  place = lend_single(&s, &none, 8);
  s.number = ask_within(&p, 3, place);
  check_spoiled_single(&s, 17, &none, 8);
  place = lend_single(&s, &none, 4);
  s.number = ask_nearest(&p, place);
  check_spoiled_single(&s, 17, &none, 4);
}

static void check_brushes(void) {
  check_told();
  check_asked_problems();
  check_changes();
  check_two_changes();
  check_more_changes();
  check_longest();
  check_drawn_patches();
  check_spoiled_answers();
}

/* ---- sequences of images (reels), and reports on them */

/* A number of so many bytes, the least one first. */
static uint64_t get(const uint8_t *from, size_t bytes) {
  uint64_t value = 0;
  while (bytes-- > 0) value = value << 8 | from[bytes];
  return value;
}

static uint64_t start_of(const uint8_t *reel, size_t i) {
  return get(reel + 2 + 8 * i, 4);
}

static uint64_t end_of(const uint8_t *reel, size_t i) {
  return start_of(reel, i) + get(reel + 6 + 8 * i, 4);
}

/* What a call is to return and to leave. */
typedef struct report {
  uint32_t number, tally[24], accepted;
  uint64_t sum, greatest;
  size_t first;
} report;

/* The number of a reel and a tally of so many places. */
static uint32_t report_number(const uint8_t *reel, size_t length, size_t room) {
  size_t directory, i;
  if (length < 2) return 14;
  directory = 2 + 8 * get(reel, 2);
  if (length < directory) return 14;
  for (i = 0; i < get(reel, 2); i++) {
    if (start_of(reel, i) < directory || end_of(reel, i) > length) return 14;
    if (i > 0 && start_of(reel, i) < end_of(reel, i - 1)) return 14;
  }
  return room < 24 ? 2 : 0;
}

/* The report, from what mover_run says of each image. */
static report make_report(const uint8_t *reel, size_t length, size_t room) {
  static uint8_t record[MOVER_RECORD_MAX];
  static uint32_t numbers[65535];
  static uint64_t costs[65535];
  report r;
  size_t count, i;
  memset(&r, 0, sizeof r);
  r.number = report_number(reel, length, room);
  if (r.number != MOVER_OK) return r;
  count = r.first = get(reel, 2);
  for (i = 0; i < count; i++) {
    size_t start = start_of(reel, i);
    numbers[i] = mover_run(reel + start, end_of(reel, i) - start, record, sizeof record);
    costs[i] = numbers[i] == MOVER_OK ? get(record, 8) : 0;
    r.tally[numbers[i]]++;
    r.sum += costs[i];
    if (costs[i] > r.greatest) r.greatest = costs[i];
  }
  r.accepted = r.tally[0];
  for (i = count; i-- > 0;)
    if (numbers[i] == MOVER_OK && costs[i] == r.greatest) r.first = i;
  return r;
}

/* What a call left: its number, and the block with its tally and its single results, all amid guard places.
 * The tally starts `shift` bytes late: by 4 it is aligned for no longer type than its own. */
enum { TALLY_AT = 64, ACCEPTED_AT = 256, SUM_AT = 272, GREATEST_AT = 296, FIRST_AT = 320, BLOCK = 352 };

typedef struct left {
  uint32_t number;
  size_t shift;
  uint64_t block[BLOCK / 8];
} left;

/* The block after a call, or before it: then no bit of a single result is as it is to be. */
static void lay_out(uint8_t *block, size_t shift, const report *r, bool after) {
  uint64_t flip = after ? 0 : UINT64_MAX;
  size_t i;
  for (i = 0; i < BLOCK; i++) block[i] = mark(i);
  if (after && r->number == MOVER_OK)
    for (i = 0; i < 24; i++) put(block + TALLY_AT + shift + 4 * i, r->tally[i], 4);
  put(block + ACCEPTED_AT, r->accepted ^ flip, 4);
  put(block + SUM_AT, r->sum ^ flip, 8);
  put(block + GREATEST_AT, r->greatest ^ flip, 8);
  put(block + FIRST_AT, r->first ^ flip, 8);
}

/* What is not as wanted, or NULL. */
static const char *wrong_in_report(const left *l, const report *wanted) {
  const uint8_t *block = (const uint8_t *)l->block;
  uint8_t all[BLOCK];
  lay_out(all, l->shift, wanted, true);
  if (l->number != wanted->number) return "the number";
  if (memcmp(block, all, ACCEPTED_AT) != 0) return "the tally";
  if (memcmp(block + ACCEPTED_AT, all + ACCEPTED_AT, 4) != 0) return "accepted";
  if (memcmp(block + SUM_AT, all + SUM_AT, 8) != 0) return "the sum";
  if (memcmp(block + GREATEST_AT, all + GREATEST_AT, 8) != 0) return "the greatest cost";
  if (memcmp(block + FIRST_AT, all + FIRST_AT, 8) != 0) return "the first image that has it";
  return memcmp(block, all, BLOCK) == 0 ? NULL : "the places round the results";
}

static void ask_report(left *l, const uint8_t *reel, size_t length, size_t room, size_t shift,
                       const report *wanted) {
  uint8_t *block = (uint8_t *)l->block;
  uint32_t *places = room > 0 ? (uint32_t *)(block + TALLY_AT + shift) : NULL;
  lay_out(block, shift, wanted, false);
  l->shift = shift;
  l->number = mover_report(reel, length, places, room, (uint32_t *)(block + ACCEPTED_AT),
                           (uint64_t *)(block + SUM_AT), (uint64_t *)(block + GREATEST_AT),
                           (size_t *)(block + FIRST_AT));
}

static void expect_report(const char *name, const uint8_t *reel, size_t length, size_t room, size_t shift,
                          const report *wanted) {
  left l;
  const char *wrong;
  ask_report(&l, reel, length, room, shift, wanted);
  wrong = wrong_in_report(&l, wanted);
  expect(wrong == NULL, wrong ? wrong : "", name, l.number);
}

enum { STAGE = 5 << 20 }; /* room for each reel but the longest */

/* A copy that ends where readable memory ends. */
static uint8_t *copy_to_border(const uint8_t *bytes, size_t length) {
  static uint8_t *border;
  if (border == NULL) {
    size_t page = (size_t)sysconf(_SC_PAGESIZE);
    void *block;
    if (posix_memalign(&block, page, STAGE + page) != 0) abort();
    border = (uint8_t *)block + STAGE;
    if (mprotect(border, page, PROT_NONE) != 0) abort();
  }
  memcpy(border - length, bytes, length);
  return border - length;
}

/* A call on a reel where it stands, and one on a copy behind which nothing can be read, each with a tally of
 * so many places; returns what they are to leave. */
static report check_report(const char *name, const uint8_t *reel, size_t length, size_t room) {
  uint8_t *copy = copy_to_border(reel, length);
  report wanted = make_report(reel, length, room);
  expect_report(name, reel, length, room, 0, &wanted);
  expect(!memcmp(reel, copy, length), "the reel as it was", name, wanted.number);
  expect_report(name, copy, length, room, 4, &wanted);
  expect(!memcmp(reel, copy, length), "the copy as it was", name, wanted.number);
  return wanted;
}

/* The same, where the report is told by hand: that which is made here must be so too. */
static void check_told_report(const char *name, const uint8_t *reel, size_t length, size_t room,
                              const report *told) {
  report r = check_report(name, reel, length, room);
  expect(!memcmp(&r, told, sizeof r), "a report told", name, r.number);
}

/* A refusal leaves 0. */
static const report refused_by_14 = {14, {0}, 0, 0, 0, 0}, refused_by_2 = {2, {0}, 0, 0, 0, 0};

/* One image more in a report that is told, in which `first` is the count at the start. */
static void tell(report *told, size_t i, uint32_t number, uint64_t cost) {
  told->tally[number]++;
  if (number != MOVER_OK) return;
  if (told->accepted == 0 || cost > told->greatest) {
    told->greatest = cost;
    told->first = i;
  }
  told->accepted++;
  told->sum += cost;
}

/* A reel that is being built; only one is at a time. */
typedef struct built {
  uint8_t *bytes;
  size_t length, pairs;
} built;

/* A reel of so many images, `shift` bytes past an address that is aligned for every type. */
static built start_reel(size_t count, size_t shift) {
  static uint64_t stage[STAGE / 8];
  built r;
  r.bytes = (uint8_t *)stage + shift;
  r.length = 2 + 8 * count;
  r.pairs = 0;
  put(r.bytes, count, 2);
  return r;
}

static uint8_t *leave_gap(built *r, size_t bytes) {
  r->length += put_filler(r->bytes + r->length, bytes, (uint8_t)(r->length + 3));
  return r->bytes + r->length;
}

static void put_pair(built *r, size_t i, uint64_t start, uint64_t size) {
  put(r->bytes + 2 + 8 * i, start, 4);
  put(r->bytes + 6 + 8 * i, size, 4);
}

/* The pair of an image that stands where the gap ended. */
static void add_pair(built *r, size_t size) {
  put_pair(r, r->pairs++, r->length, size);
  r->length += size;
}

/* 16,777,216 grains from the first to the last of n vertices in a line, each edge 65,535 long: case F if n is
 * 2, and the greatest cost of all if n is 64. */
static void fill_line(problem *p, size_t n) {
  size_t i;
  memset(p, 0, sizeof *p);
  p->n = n;
  p->a_len = n - 1;
  p->mu[0] = p->nu[n - 1] = 16777216;
  for (i = 0; i + 1 < n; i++) {
    p->a[i] = p->parents[i + 1] = (uint32_t)i;
    p->b[i] = (uint32_t)i + 1;
    p->lengths[i] = 65535;
  }
}

/* Kinds of images: of each problem without and with its tree, of case A with each damage, and further ones. */
enum { DAMAGES = sizeof damages / sizeof damages[0], DAMAGED = 2 * PROBLEMS };
enum {
  NO_BYTES = DAMAGED + DAMAGES,
  CASE_F,
  CASE_F_TREE,
  LINE,
  LINE_TREE,
  FULL,     /* 65,536 bytes */
  OVERFULL, /* 65,537 bytes */
  KINDS
};

/* An image of this kind; returns its length. */
static size_t put_image(size_t kind, uint8_t *to) {
  static problem p;
  layout l = back_to_back;
  if (kind < DAMAGED) return build_image(&problems[kind / 2], kind % 2 == 1, &l, to);
  if (kind < NO_BYTES) {
    const struct damage *d = &damages[kind - DAMAGED];
    uint8_t image[sizeof image_a];
    memcpy(image, image_a, sizeof image);
    image[d->at] = d->byte;
    image[d->other_at] = d->other_byte;
    memcpy(to, image, sizeof image - d->cut);
    return sizeof image - d->cut;
  }
  if (kind == NO_BYTES) return 0;
  if (kind == FULL || kind == OVERFULL) {
    l.behind = 65536 - sizeof image_a + (kind == OVERFULL);
    return build_image(&problems[CASE_A], true, &l, to);
  }
  fill_line(&p, kind < LINE ? 2 : 64);
  return build_image(&p, kind == CASE_F_TREE || kind == LINE_TREE, &l, to);
}

/* Its number, told from the tables: an image has one list of edges, and two bytes for a length. */
static uint32_t told_number(size_t kind) {
  const problem *p = &problems[kind < DAMAGED ? kind / 2 : 0];
  if (kind >= NO_BYTES) return kind == NO_BYTES || kind == OVERFULL ? 11 : 0;
  if (kind >= DAMAGED) return damages[kind - DAMAGED].number;
  if (p->number == 2 && p->a_len <= 512) return p->a_len == 0 ? 5 : 0;
  if (p->number == 4) return 0;
  return kind % 2 == 1 ? p->number : up_to(p->number, 7);
}

static void add_image(built *r, size_t gap, size_t kind) {
  add_pair(r, put_image(kind, leave_gap(r, gap)));
}

/* A reel that stands here byte for byte: an image that is refused by 3, one of no bytes and, behind a gap of
 * one byte, case A's. */
static void check_literal_reel(void) {
  static const uint8_t directory[26] = {
      3,  0,                    /* the count */
      26, 0, 0, 0, 50, 0, 0, 0, /* offset and length */
      76, 0, 0, 0, 0,  0, 0, 0, /* no bytes */
      77, 0, 0, 0, 85, 0, 0, 0,
  };
  static const report told = {0, {1, 0, 0, 1, 0, 0, 0, 0, 0, 0, 0, 1}, 1, 22, 22, 2};
  uint8_t bytes[162];
  memcpy(bytes, directory, 26);
  memcpy(bytes + 26, image_bytes, 50);
  bytes[76] = 255;
  memcpy(bytes + 77, image_a, 85);
  check_told_report("byte for byte", bytes, 162, 24, &told);
  check_told_report("byte for byte", bytes, 161, 24, &refused_by_14);
  check_told_report("byte for byte", bytes, 162, 23, &refused_by_2);
  expect(MOVER_REEL_DIRECTORY(0) == 2 && MOVER_REEL_DIRECTORY(3) == 26, "MOVER_REEL_DIRECTORY", "of", 3);
  expect(MOVER_REEL_DIRECTORY((uint16_t)65535) == 524282, "MOVER_REEL_DIRECTORY", "of", 65535);
  expect(MOVER_TALLY_PLACES == 24, "MOVER_TALLY_PLACES", "is", MOVER_TALLY_PLACES);
  expect(MOVER_REFUSED_SEQUENCE_DIRECTORY == 14, "MOVER_REFUSED_SEQUENCE_DIRECTORY", "is", 14);
}

/* Images whose number and cost are told. Sequences are made of the first ones. */
static const struct told_image {
  size_t kind;
  uint32_t number;
  uint64_t cost;
} told_images[] = {
    {NO_BYTES, 11, 0},
    {2 * EDGE_TWICE, 3, 0},
    {2 * CASE_E, 0, 0},
    {2 * CASE_B, 0, 4},
    {2 * CASE_B + 1, 0, 12},
    {CASE_F, 0, 1099494850560},
    {CASE_F_TREE, 0, 1099494850560},
    {LINE, 0, 69268175585280}, /* 63 * 65,535 * 2^24 */
    {LINE_TREE, 0, 69268175585280},
    {FULL, 0, 22},
};
enum { TOLD_IMAGES = sizeof told_images / sizeof told_images[0], IN_SEQUENCES = 6 };

/* So many of them in a reel. */
static void check_told_sequence(const size_t *images, size_t count, size_t gap) {
  report told;
  built r = start_reel(count, count % 8);
  size_t i;
  memset(&told, 0, sizeof told);
  told.first = count;
  for (i = 0; i < count; i++) {
    const struct told_image *t = &told_images[images[i]];
    add_image(&r, gap, t->kind);
    tell(&told, i, t->number, t->cost);
  }
  check_told_report("images told", r.bytes, r.length, 24, &told);
}

/* Every two of them, and every sequence of up to five of the first ones: with none accepted, refused ones
 * before, between and behind, all costs 0, the greatest cost once or more often, sums above 2^32. */
static void check_sequences(void) {
  size_t images[5], count, word, words = 1, i, j;
  for (i = 0; i < TOLD_IMAGES; i++)
    for (j = 0; j < TOLD_IMAGES; j++) {
      images[0] = i;
      images[1] = j;
      check_told_sequence(images, 2, 3);
    }
  for (count = 0; count <= 5; count++, words *= IN_SEQUENCES)
    for (word = 0; word < words; word++) {
      size_t rest = word;
      for (i = 0; i < count; i++, rest /= IN_SEQUENCES) images[i] = rest % IN_SEQUENCES;
      check_told_sequence(images, count, word % 3);
    }
}

/* Each kind alone, between two images of no bytes. */
static void check_kinds(void) {
  size_t kind;
  for (kind = 0; kind < KINDS; kind++) {
    uint32_t told = told_number(kind);
    built r = start_reel(3, kind % 8);
    report made;
    add_image(&r, 0, NO_BYTES);
    add_image(&r, 0, kind);
    add_image(&r, 0, NO_BYTES);
    made = check_report("each kind", r.bytes, r.length, 24);
    expect(made.tally[told] == (told == 11 ? 3 : 1), "the number told", "of kind", (unsigned)kind);
    expect(made.tally[11] == (told == 11 ? 3 : 2), "two of no bytes", "beside kind", (unsigned)kind);
    expect(made.first == (told == 0 ? 1 : 3), "the index told", "of kind", (unsigned)kind);
  }
}

/* All kinds in one reel, so that each number comes up that an image can have: in any order and with any gaps,
 * at every place of eight bytes, with tallies of some lengths. */
static void check_mixed(void) {
  static const size_t rooms[7] = {24, 25, 30, 23, 22, 1, 0};
  uint32_t order[KINDS], told[24];
  size_t shift, i;
  for (shift = 0; shift < 8; shift++) {
    built r = start_reel(KINDS, shift);
    report made;
    memset(told, 0, sizeof told);
    draw_order(KINDS, order);
    for (i = 0; i < KINDS; i++) {
      add_image(&r, draw_below(2) * draw_below(20), order[i]);
      told[told_number(order[i])]++;
    }
    leave_gap(&r, shift);
    for (i = 0; i < 24; i++)
      expect((told[i] > 0) == (i < 14 && i != 4), "an image", "with number", (unsigned)i);
    for (i = 0; i < 7; i++) {
      made = check_report("all kinds", r.bytes, r.length, rooms[i]);
      expect(made.number == (rooms[i] < 24 ? 2 : 0), "all kinds", "places", (unsigned)rooms[i]);
      if (rooms[i] >= 24)
        expect(!memcmp(made.tally, told, sizeof told), "the tally told", "places", (unsigned)rooms[i]);
      made = check_report("all kinds, cut off", r.bytes, r.length - shift - 70000, rooms[i]);
      expect(made.number == 14, "all kinds, cut off", "places", (unsigned)rooms[i]);
    }
  }
}

/* Small reels: four images back to back, with gaps, one of them with bytes, none with bytes; and one image. */
static const struct small {
  size_t count, kinds[4], gaps[5];
} smalls[] = {
    {4, {2 * CASE_E, NO_BYTES, 2 * CASE_B, 2 * CASE_E + 1}, {0}},
    {4, {NO_BYTES, 2 * CASE_B + 1, 2 * EDGE_TWICE, NO_BYTES}, {8, 3, 0, 9, 4}},
    {4, {NO_BYTES, NO_BYTES, NO_BYTES, 2 * CASE_E}, {0, 0, 0, 0, 1}},
    {4, {NO_BYTES, NO_BYTES, NO_BYTES, NO_BYTES}, {5, 0, 6, 7, 2}},
    {1, {2 * CASE_E}, {0, 3}},
};
enum { SMALLS = sizeof smalls / sizeof smalls[0] };

static built small_reel(size_t which, size_t shift) {
  const struct small *s = &smalls[which];
  built r = start_reel(s->count, shift);
  size_t i;
  for (i = 0; i < s->count; i++) add_image(&r, s->gaps[i], s->kinds[i]);
  leave_gap(&r, s->gaps[s->count]);
  return r;
}

/* Each truncation, with what is cut off still behind the reel, and with nothing there. Behind the last image
 * all may be cut off. */
static void check_truncations(void) {
  static const size_t rooms[3] = {24, 23, 0};
  size_t which, length, i;
  for (which = 0; which < SMALLS; which++) {
    built r = small_reel(which, 7 - which);
    for (length = 0; length <= r.length; length++)
      for (i = 0; i < 3; i++) {
        uint32_t told = length < end_of(r.bytes, r.pairs - 1) ? 14 : rooms[i] < 24 ? 2 : 0;
        report made = check_report("cut off", r.bytes, length, rooms[i]);
        expect(made.number == told, "cut off", "to bytes", (unsigned)length);
      }
  }
}

/* Of four images one pair changed, and the number: case E's has bytes 34 to 77, the next none, at 78, case B's
 * bytes 83 to 166, the last none, at 170, and the reel ends with byte 173. */
static const struct pair {
  const char *name;
  size_t pair;
  uint64_t start, size;
  uint32_t number;
} pairs[] = {
    {"as it is", 0, 34, 44, 0},
    {"from 0", 0, 0, 44, 14},
    {"from inside the count", 0, 1, 44, 14},
    {"from the first pair", 0, 2, 44, 14},
    {"from the directory's last byte", 0, 33, 44, 14},
    {"from the directory's last byte, shorter", 0, 33, 1, 14},
    {"one byte later", 0, 35, 44, 14},
    {"one byte later, shorter", 0, 35, 43, 0},
    {"one byte longer", 0, 34, 45, 14},
    {"no bytes at the directory's end", 0, 34, 0, 0},
    {"no bytes at the directory's last byte", 0, 33, 0, 14},
    {"no bytes at 0", 0, 0, 0, 14},
    {"no bytes at the next one's place", 0, 78, 0, 0},
    {"no bytes behind the next one's place", 0, 79, 0, 14},
    {"up to 2^32", 0, 34, 4294967262u, 14},
    {"up to 2^32 + 33", 0, 34, 4294967295u, 14},
    {"no bytes, as it is", 1, 78, 0, 0},
    {"no bytes inside its forerunner", 1, 77, 0, 14},
    {"no bytes where its forerunner starts", 1, 34, 0, 14},
    {"no bytes inside the directory", 1, 33, 0, 14},
    {"no bytes before the next one", 1, 83, 0, 0},
    {"no bytes inside the next one", 1, 84, 0, 14},
    {"no bytes past the end", 1, 174, 0, 14},
    {"all of the gap", 1, 78, 5, 0},
    {"more than the gap", 1, 78, 6, 14},
    {"as it is", 2, 83, 84, 0},
    {"from its forerunner's end", 2, 78, 84, 0},
    {"from before its forerunner's end", 2, 77, 84, 14},
    {"from inside the directory", 2, 33, 84, 14},
    {"up to the next one", 2, 86, 84, 0},
    {"up to behind the next one", 2, 87, 84, 14},
    {"longer, up to the next one", 2, 83, 87, 0},
    {"longer, up to behind the next one", 2, 83, 88, 14},
    {"from 2^32 - 84", 2, 4294967212u, 84, 14},
    {"from 2^32 - 1", 2, 4294967295u, 84, 14},
    {"from 2^31", 2, 2147483648u, 84, 14},
    {"2^31 bytes", 2, 83, 2147483648u, 14},
    {"up to 2^32", 2, 83, 4294967213u, 14},
    {"up to 2^32 + 82", 2, 83, 4294967295u, 14},
    {"no bytes, as it is", 3, 170, 0, 0},
    {"no bytes at its forerunner's end", 3, 167, 0, 0},
    {"no bytes inside its forerunner", 3, 166, 0, 14},
    {"no bytes at the end", 3, 174, 0, 0},
    {"no bytes past the end", 3, 175, 0, 14},
    {"up to the end", 3, 170, 4, 0},
    {"up to past the end", 3, 170, 5, 14},
    {"the last byte", 3, 173, 1, 0},
    {"the last byte and one more", 3, 173, 2, 14},
    {"one byte past the end", 3, 174, 1, 14},
    {"no bytes at 2^32 - 1", 3, 4294967295u, 0, 14},
    {"one byte at 2^32 - 1", 3, 4294967295u, 1, 14},
    {"171 bytes at 2^32 - 1", 3, 4294967295u, 171, 14},
    {"2^32 - 1 bytes at 2^32 - 1", 3, 4294967295u, 4294967295u, 14},
    {"up to 2^32", 3, 170, 4294967126u, 14},
    {"up to 2^32 + 169", 3, 170, 4294967295u, 14},
    {"no bytes at 0", 3, 0, 0, 14},
};

static void check_told_pairs(void) {
  size_t k, room;
  for (k = 0; k < sizeof pairs / sizeof pairs[0]; k++) {
    const struct pair *c = &pairs[k];
    built r = start_reel(4, k % 8);
    add_image(&r, 0, 2 * CASE_E);
    add_image(&r, 0, NO_BYTES);
    add_image(&r, 5, 2 * CASE_B);
    add_image(&r, 3, NO_BYTES);
    leave_gap(&r, 4);
    expect(r.length == 174 && end_of(r.bytes, 2) == 167, "the reel's length", c->name, (unsigned)r.length);
    put_pair(&r, c->pair, c->start, c->size);
    for (room = 22; room < 26; room++) {
      report made = check_report(c->name, r.bytes, r.length, room);
      expect(made.number == (c->number == 0 && room < 24 ? 2 : c->number), c->name, "pair", (unsigned)c->pair);
    }
  }
}

/* One offset or length changed: to each number up to some beyond the reel's length, to as many below 2^32, and
 * in each bit. */
static void check_changed_pairs(void) {
  unsigned numbers[15] = {0};
  size_t which, place, i;
  for (which = 0; which < SMALLS; which++)
    for (place = 0; place < 2 * smalls[which].count; place++) {
      built r = small_reel(which, place);
      uint8_t *at = r.bytes + 2 + 4 * place;
      uint64_t was = get(at, 4), end = r.length + 3;
      for (i = 0; i < 2 * end + 32; i++) {
        uint64_t value = i < end ? i : UINT32_MAX - (i - end);
        put(at, i < 2 * end ? value : was ^ (uint64_t)1 << (i - 2 * end), 4);
        numbers[check_report("a changed pair", r.bytes, r.length, 24 + i % 2).number]++;
      }
    }
  expect(numbers[0] > 300 && numbers[14] > 3000, "both numbers", "of changed pairs", numbers[0]);
}

/* Other counts on one reel: a lower one makes the rest of the directory a gap, and with a higher one the first
 * image starts inside the directory. */
static void check_counts(void) {
  built r = start_reel(4, 3);
  size_t count;
  add_image(&r, 0, 2 * CASE_B);
  add_image(&r, 2, 2 * CASE_E);
  add_image(&r, 0, 2 * CASE_B);
  add_image(&r, 1, NO_BYTES);
  leave_gap(&r, 40);
  for (count = 0; count <= 65535; count += count < 600 ? 1 : 97) {
    report made;
    put(r.bytes, count, 2);
    made = check_report("a count", r.bytes, r.length, 24);
    expect(made.number == (count <= 4 ? 0 : 14), "the number told", "count", (unsigned)count);
    expect(made.accepted == (count > 4 ? 0 : count == 4 ? 3 : count), "as told", "count", (unsigned)count);
  }
}

/* No images: two bytes, and a tail of any bytes. */
static void check_no_images(void) {
  static const report told = {0, {0}, 0, 0, 0, 0};
  size_t bytes;
  for (bytes = 0; bytes < 100; bytes++) {
    built r = start_reel(0, bytes % 8);
    leave_gap(&r, bytes);
    check_told_report("no images", r.bytes, r.length, 24 + bytes % 7, &told);
    check_told_report("no images", r.bytes, r.length, bytes % 24, &refused_by_2);
  }
}

/* Long gaps and tails: reels of far more bytes than an image may have, images from beyond 2^16 and 2^20. */
static void check_long_gaps(void) {
  static const size_t gaps[6] = {0, 1, 1000, 65500, 65536, 1200000};
  size_t i, j, k;
  for (i = 0; i < 6; i++)
    for (j = 0; j < 6; j++)
      for (k = 0; k < 6; k += 5) {
        report told = {0, {2, 0, 0, 1}, 2, 16, 12, 2};
        built r = start_reel(3, (i + j) % 8);
        add_image(&r, gaps[i], 2 * CASE_B);
        add_image(&r, 0, 2 * EDGE_TWICE);
        add_image(&r, gaps[j], 2 * CASE_B + 1);
        leave_gap(&r, gaps[k]);
        check_told_report("long gaps", r.bytes, r.length, 24, &told);
        check_told_report("long gaps", r.bytes, end_of(r.bytes, 2) - 1, 24, &refused_by_14);
      }
}

/* 65,535 images: all of no bytes, all but the last, and all but the last of case F. That sum is above 2^53 and
 * no float of 64 bits. */
static void check_many_images(void) {
  report told = {0, {0}, 0, 0, 0, 65535};
  built r = start_reel(65535, 1);
  size_t i;
  for (i = 0; i < 65535; i++) add_image(&r, 0, NO_BYTES);
  told.tally[11] = 65535;
  expect(r.length == 524282, "65535 images of no bytes", "bytes", (unsigned)r.length);
  check_told_report("65535 images of no bytes", r.bytes, r.length, 24, &told);
  check_told_report("65535 images of no bytes", r.bytes, r.length - 1, 24, &refused_by_14);
  check_told_report("65535 images of no bytes", r.bytes, r.length, 23, &refused_by_2);
  put_pair(&r, 0, r.length - 1, 0);
  check_told_report("the first one inside the directory", r.bytes, r.length, 24, &refused_by_14);
  put_pair(&r, 0, r.length, 0);
  put_pair(&r, 65534, r.length - 1, 0);
  check_told_report("the last one inside the directory", r.bytes, r.length, 24, &refused_by_14);
  r.pairs = 65534;
  add_image(&r, 0, 2 * CASE_E + 1);
  told.tally[11]--;
  told.tally[0] = told.accepted = 1;
  told.first = 65534;
  check_told_report("65534 images of no bytes", r.bytes, r.length, 24, &told);
  r = start_reel(65535, 0);
  for (i = 0; i < 65534; i++) add_image(&r, 0, i % 2 == 0 ? CASE_F : CASE_F_TREE);
  add_image(&r, 0, 2 * CASE_A);
  told.tally[0] = told.accepted = 65535;
  told.tally[11] = 0;
  told.greatest = 1099494850560;
  told.sum = 72054295536599062; /* 65,534 times that, and 22 */
  told.first = 0;
  check_told_report("65535 images with bytes", r.bytes, r.length, 24, &told);
  check_told_report("65535 images with bytes", r.bytes, r.length - 1, 24, &refused_by_14);
}

/* A reel of 2^32 + 55 bytes: zeros, which take memory only in the pages that are written. Its second image
 * starts at 2^32 - 1 and ends with the reel. */
static void check_longest_reel(void) {
  static const report told = {0, {2}, 2, 1099494850564, 1099494850560, 1}, none = {0, {0}, 0, 0, 0, 0};
  const size_t all = ((size_t)1 << 32) + 55, page = (size_t)sysconf(_SC_PAGESIZE);
  int zeros = open("/dev/zero", O_RDONLY);
  void *block = mmap(NULL, all, PROT_READ, MAP_PRIVATE, zeros, 0);
  built r;
  expect(zeros >= 0 && block != MAP_FAILED, "addresses for a reel", "of more bytes than", UINT32_MAX);
  if (block == MAP_FAILED) return;
  r.bytes = (uint8_t *)block;
  expect_report("2^32 + 55 zeros", r.bytes, all, 24, 0, &none);
  if (mprotect(r.bytes, page, PROT_READ | PROT_WRITE) != 0) abort();
  if (mprotect(r.bytes + (all - 55 - page), 2 * page, PROT_READ | PROT_WRITE) != 0) abort();
  put(r.bytes, 2, 2);
  r.length = 18;
  r.pairs = 0;
  add_image(&r, 7, 2 * CASE_B);
  r.length = UINT32_MAX;
  add_image(&r, 0, CASE_F);
  expect(r.length == all, "the longest reel", "bytes past 2^32:", (unsigned)(r.length - UINT32_MAX - 1));
  expect_report("2^32 + 55 bytes", r.bytes, all, 24, 0, &told);
  expect_report("2^32 + 54 bytes", r.bytes, all - 1, 24, 4, &refused_by_14);
  expect_report("2^32 bytes", r.bytes, all - 55, 24, 0, &refused_by_14);
  put(r.bytes + 2, UINT32_MAX, 4);
  expect_report("two images at 2^32 - 1", r.bytes, all, 24, 4, &refused_by_14);
  munmap(block, all);
  close(zeros);
}

/* The parents of some tree on a patch's edges, from its root on. */
static void find_tree(problem *p) {
  bool joined[64] = {false}, more = true;
  size_t e;
  joined[p->root] = true;
  p->parents[p->root] = (uint32_t)p->root;
  while (more) {
    more = false;
    for (e = 0; e < p->a_len; e++) {
      uint32_t x = p->a[e], y = p->b[e];
      if (joined[x] == joined[y]) continue;
      p->parents[joined[x] ? y : x] = joined[x] ? x : y;
      joined[x] = joined[y] = more = true;
    }
  }
}

/* A sound image: the same amounts before and after, in another order. Half of the times it has a tree. */
static size_t draw_sound_image(uint8_t *to) {
  static problem p;
  uint32_t order[64];
  layout l = gap_at(draw_below(6), draw_below(2) * draw_below(30), (uint8_t)draw());
  size_t v;
  draw_patch(&p);
  p.root = draw_below(p.n);
  find_tree(&p);
  draw_order(p.n, order);
  for (v = 0; v < p.n; v++) p.mu[v] = draw_below(2) * draw_shorter(draw_below(16777216 / p.n + 1), 24);
  for (v = 0; v < p.n; v++) p.nu[v] = p.mu[order[v]];
  return build_image(&p, draw_below(2) == 0, &l, to);
}

/* An image of some kind, a sound one, one with up to three bits changed, or one of any numbers. */
static size_t draw_image(uint8_t *to) {
  static problem p;
  size_t kind = draw_below(8), length, bits;
  if (kind < 3) return put_image(draw_below(KINDS), to);
  if (kind == 7) {
    draw_problem(&p);
    return build_image(&p, draw_below(2) == 0, &back_to_back, to);
  }
  length = draw_sound_image(to);
  if (kind < 6) return length;
  for (bits = draw_below(4); bits > 0; bits--) to[draw_below(length)] ^= (uint8_t)(1 << draw_below(8));
  return length;
}

/* Some images, a part of which come twice, with gaps here and there. */
static built draw_reel(void) {
  size_t count = draw_below(12), last = 0, size, i;
  built r = start_reel(count, draw_below(8));
  for (i = 0; i < count; i++) {
    uint8_t *to = leave_gap(&r, draw_below(3) == 0 ? draw_below(40) : 0);
    if (last > 0 && draw_below(4) == 0) {
      size = end_of(r.bytes, last - 1) - start_of(r.bytes, last - 1);
      memcpy(to, r.bytes + start_of(r.bytes, last - 1), size);
    } else {
      size = draw_image(to);
      last = i + 1;
    }
    add_pair(&r, size);
  }
  leave_gap(&r, draw_below(2) * draw_below(40));
  return r;
}

/* An offset or length changed by little or to anything, two pairs exchanged, another count, a shorter reel. */
static void damage_reel(built *r) {
  size_t kind = draw_below(5), count = get(r->bytes, 2), i = draw_below(count + 1), j = draw_below(count + 1);
  uint8_t *at = r->bytes + 2 + 8 * i + 4 * draw_below(2), pair[8];
  if (kind == 3) put(r->bytes, count + draw_below(5) - 2, 2);
  if (kind == 4) r->length -= draw_below(draw_below(2) == 0 || r->length < 60 ? r->length + 1 : 60);
  if (kind > 2 || i == count || j == count) return;
  if (kind == 0) put(at, get(at, 4) + draw_below(7) - 3, 4);
  if (kind == 1) put(at, draw_shorter(draw() >> 32, 32), 4);
  if (kind < 2) return;
  memcpy(pair, r->bytes + 2 + 8 * i, 8);
  memcpy(r->bytes + 2 + 8 * i, r->bytes + 2 + 8 * j, 8);
  memcpy(r->bytes + 2 + 8 * j, pair, 8);
}

/* What came up: the numbers of the reports and of their images, and reports with the greatest cost more than
 * once, with no image accepted, with the greatest cost not in the first image, with a sum above 2^32. */
typedef struct seen {
  unsigned reports[15], images[24], ties, none, later, high;
} seen;

/* Does an image behind the first one with the greatest cost have it too? */
static bool has_tie(const uint8_t *reel, const report *made) {
  static uint8_t record[MOVER_RECORD_MAX];
  size_t i;
  for (i = made->first + 1; i < get(reel, 2); i++) {
    uint64_t start = start_of(reel, i);
    uint32_t number = mover_run(reel + start, end_of(reel, i) - start, record, sizeof record);
    if (number == MOVER_OK && get(record, 8) == made->greatest) return true;
  }
  return false;
}

static void count_report(const uint8_t *reel, const report *made, seen *s) {
  size_t k;
  s->reports[made->number]++;
  if (made->number != MOVER_OK) return;
  for (k = 0; k < 24; k++) s->images[k] += made->tally[k];
  s->none += made->accepted == 0;
  s->later += made->accepted > 0 && made->first > 0;
  s->high += made->sum > UINT32_MAX;
  s->ties += has_tie(reel, made);
}

/* Any reels, one in three of them damaged once or twice, some with a tally that is too short. */
static void check_drawn_reels(void) {
  seen s = {{0}, {0}, 0, 0, 0, 0};
  size_t round, count, room, k;
  for (round = 0; round < 2000; round++) {
    built r = draw_reel();
    report made;
    for (count = draw_below(3) == 0 ? 1 + draw_below(2) : 0; count > 0; count--) damage_reel(&r);
    room = draw_below(8) == 0 ? draw_below(24) : 24 + draw_below(7);
    made = check_report("any reel", r.bytes, r.length, room);
    count_report(r.bytes, &made, &s);
  }
  expect(s.reports[0] > 1000 && s.reports[2] > 100, "every number", "of reports", s.reports[2]);
  expect(s.reports[14] > 300, "every number", "of reports", s.reports[14]);
  for (k = 0; k < 24; k++)
    expect(k < 14 && k != 4 ? s.images[k] > 10 : s.images[k] == 0, "every number", "of images", (unsigned)k);
  expect(s.ties > 100 && s.none > 100, "ties, and none accepted,", "ties", s.ties);
  expect(s.later > 100 && s.high > 100, "later ones, and sums above 2^32,", "later ones", s.later);
}

/* A right answer, spoiled on purpose: each bit of the block, the number, nothing written, a tally elsewhere. */
static void check_spoiled_report(const uint8_t *reel, size_t length, size_t room, const report *told) {
  report other = *told;
  left l;
  uint8_t *block = (uint8_t *)l.block;
  size_t i;
  ask_report(&l, reel, length, room, 4, told);
  expect(wrong_in_report(&l, told) == NULL, "a right answer", "number", l.number);
  for (i = 0; i < 8 * BLOCK; i++) {
    block[i / 8] ^= (uint8_t)(1 << i % 8);
    expect(wrong_in_report(&l, told) != NULL, "a spoiled bit", "at", (unsigned)i);
    block[i / 8] ^= (uint8_t)(1 << i % 8);
  }
  for (i = 0; i < 24; i++) {
    other.number = (uint32_t)i;
    expect((wrong_in_report(&l, &other) == NULL) == (i == told->number), "another number", "is", (unsigned)i);
  }
  lay_out(block, 4, told, false);
  expect(wrong_in_report(&l, told) != NULL, "nothing written", "number", l.number);
  lay_out(block, 4, told, true);
  expect(wrong_in_report(&l, told) == NULL, "all written", "number", l.number);
  l.shift = 0;
  expect((wrong_in_report(&l, told) == NULL) == (told->number != 0), "written elsewhere", "number", l.number);
}

static void check_spoiled_reports(void) {
  static const report told = {0, {2, 0, 0, 1, 0, 0, 0, 0, 0, 0, 0, 1}, 2, 16, 12, 3};
  built r = start_reel(4, 5);
  add_image(&r, 0, 2 * CASE_B);
  add_image(&r, 0, 2 * EDGE_TWICE);
  add_image(&r, 0, NO_BYTES);
  add_image(&r, 0, 2 * CASE_B + 1);
  check_spoiled_report(r.bytes, r.length, 30, &told);
  check_spoiled_report(r.bytes, r.length, 23, &refused_by_2);
  check_spoiled_report(r.bytes, r.length - 1, 30, &refused_by_14);
}

static void check_reports(void) {
  check_literal_reel();
  check_kinds();
  check_sequences();
  check_mixed();
  check_truncations();
  check_told_pairs();
  check_changed_pairs();
  check_counts();
  check_no_images();
  check_long_gaps();
  check_many_images();
  check_longest_reel();
  check_drawn_reels();
  check_spoiled_reports();
}

/* ---- pages of trees */

/* The length of the edge between two vertices, or UINT32_MAX if they share none. */
static uint32_t length_between(const problem *p, size_t x, size_t y) {
  size_t e;
  for (e = 0; e < p->a_len; e++)
    if ((p->a[e] == x && p->b[e] == y) || (p->a[e] == y && p->b[e] == x)) return p->lengths[e];
  return UINT32_MAX;
}

/* Do the edges join every vertex to vertex 0? */
static bool all_joined(const problem *p) {
  uint64_t word = 1, before;
  size_t e;
  do {
    before = word;
    for (e = 0; e < p->a_len; e++) {
      uint64_t ends = (uint64_t)1 << p->a[e] | (uint64_t)1 << p->b[e];
      if (word & ends) word |= ends;
    }
  } while (word != before);
  return word == UINT64_MAX >> (64 - p->n);
}

/* A total, or 16,777,217 if it is above the bound. */
static uint64_t total_of(const uint64_t *amounts, size_t n) {
  uint64_t total = 0;
  size_t v;
  for (v = 0; v < n; v++) {
    if (amounts[v] > 16777216 - total) return 16777217;
    total += amounts[v];
  }
  return total;
}

/* The number of checks 8 to 10. */
static uint32_t tree_number(const problem *p) {
  size_t n = p->n, v, x, steps;
  if (p->root >= n || p->parents[p->root] != p->root) return 8;
  for (v = 0; v < n; v++)
    if (p->parents[v] >= n || (p->parents[v] == v && v != p->root)) return 8;
  for (v = 0; v < n; v++)
    if (v != p->root && length_between(p, v, p->parents[v]) == UINT32_MAX) return 9;
  for (v = 0; v < n; v++) {
    for (x = v, steps = 0; steps < n; steps++) x = p->parents[x];
    if (x != p->root) return 10;
  }
  return 0;
}

/* The number that a call is to give, with a buffer of so many bytes. */
static uint32_t page_number(const problem *p, size_t room) {
  uint32_t number = edges_number(p);
  size_t n = p->n;
  if (number == 1) return 1;
  if (p->mu_len != n || p->nu_len != n || p->parents_len != n || room < 96 * n) return 2;
  if (number != 0) return number;
  if (!all_joined(p)) return 5;
  if (total_of(p->mu, n) > 16777216 || total_of(p->nu, n) > 16777216) return 6;
  if (total_of(p->mu, n) != total_of(p->nu, n)) return 7;
  return tree_number(p);
}

/* What the lines of a page tell of each vertex. */
typedef struct figures {
  size_t depth[64];
  int64_t imbalance[64], potential[64];
} figures;

/* From the definitions: over the vertices below each vertex, and over the edges above it. */
static void find_figures(const problem *p, figures *f) {
  uint64_t below[64] = {0};
  size_t n = p->n, x, y;
  memset(f, 0, sizeof *f);
  for (y = 0; y < n; y++) climb(p->root, p->parents, y, below);
  for (x = 0; x < n; x++)
    for (y = 0; y < n; y++)
      if (below[x] >> y & 1) f->imbalance[x] += (int64_t)p->mu[y] - (int64_t)p->nu[y];
  for (x = 0; x < n; x++) {
    int64_t sign = (f->imbalance[x] > 0) - (f->imbalance[x] < 0);
    if (x == p->root) continue;
    for (y = 0; y < n; y++) {
      if (!(below[x] >> y & 1)) continue;
      f->depth[y]++;
      f->potential[y] += sign * (int64_t)length_between(p, x, p->parents[x]);
    }
  }
}

/* Are they those of mover_evaluate? */
static bool evaluates_to(const problem *p, const figures *f) {
  static uint32_t plan[4096];
  int32_t imbalance[64], potential[64];
  uint64_t cost;
  uint32_t moves;
  size_t same = 0, v;
  if (mover_evaluate(p->n, p->a, p->a_len, p->b, p->b_len, p->lengths, p->lengths_len, p->mu, p->mu_len, p->nu,
                     p->nu_len, p->root, p->parents, p->parents_len, imbalance, 64, potential, 64, plan, 4096, &cost,
                     &moves) != MOVER_OK)
    return false;
  for (v = 0; v < p->n; v++) same += imbalance[v] == f->imbalance[v] && potential[v] == f->potential[v];
  return same == p->n;
}

/* What is printed otherwise than the header says, on purpose. */
typedef struct slips {
  bool potential_first, minus_apart, falling;
  size_t deeper;
} slips;

static const slips as_stated = {false, false, false, 0};

/* A number at the end of eleven spaces. */
static void put_number(uint8_t *columns, int64_t value, const slips *s) {
  uint64_t rest = (uint64_t)(value < 0 ? -value : value);
  size_t at = 11;
  do {
    columns[--at] = (uint8_t)('0' + rest % 10);
    rest /= 10;
  } while (rest > 0);
  if (value < 0) columns[s->minus_apart ? 0 : at - 1] = '-';
}

static void put_line(uint8_t *line, size_t v, const figures *f, const slips *s) {
  uint8_t *number = line + f->depth[v] + s->deeper;
  memset(line, ' ', 95);
  line[95] = 10;
  number[0] = (uint8_t)('0' + v / 10);
  number[1] = (uint8_t)('0' + v % 10);
  put_number(line + (s->potential_first ? 79 : 68), f->imbalance[v], s);
  put_number(line + (s->potential_first ? 68 : 79), f->potential[v], s);
}

/* A page; returns its length. Of the vertices that wait for their lines, the last one is the next. */
static size_t build_page(const problem *p, const figures *f, const slips *s, uint8_t *page) {
  size_t waiting[64], count = 1, lines = 0, c;
  waiting[0] = p->root;
  while (count > 0) {
    size_t v = waiting[--count];
    put_line(page + 96 * lines++, v, f, s);
    for (c = 0; c < p->n; c++) {
      size_t child = s->falling ? c : p->n - 1 - c;
      if (child != p->root && p->parents[child] == v) waiting[count++] = child;
    }
  }
  return 96 * lines;
}

static uint32_t write_page(const problem *p, uint8_t *buffer, size_t room, size_t *length) {
  return mover_write_page(p->n, p->a, p->a_len, p->b, p->b_len, p->lengths, p->lengths_len, p->mu, p->mu_len, p->nu,
                          p->nu_len, p->root, p->parents, p->parents_len, room > 0 ? buffer : NULL, room, length);
}

/* Writes into a buffer of so many bytes and compares with the built page; returns the number that is wanted. */
static uint32_t check_page(const char *name, const problem *p, size_t shift, size_t room) {
  static outcome w;
  static problem given;
  uint8_t page[MOVER_PAGE_MAX];
  figures f;
  uint32_t wanted = page_number(p, room);
  size_t length = 0;
  uint8_t *buffer = lend_buffer(&w, shift);
  if (wanted == MOVER_OK) {
    find_figures(p, &f);
    length = build_page(p, &f, &as_stated, page);
    expect(length == 96 * p->n && length == MOVER_PAGE_SIZE(p->n), "MOVER_PAGE_SIZE", name, (unsigned)length);
    expect(evaluates_to(p, &f), "the figures of mover_evaluate", name, (unsigned)p->n);
  }
  memcpy(&given, p, sizeof given);
  w.number = write_page(p, buffer, room, &w.length);
  expect(!memcmp(&given, p, sizeof given), "what was given", name, w.number);
  expect_written(name, &w, wanted, page, length);
  return wanted;
}

/* Buffers as long as the page, longer and too short, at this place of eight bytes; the number is told. */
static void check_rooms(const char *name, const problem *p, size_t shift, uint32_t told) {
  size_t length = 96 * p->n;
  uint32_t shorter = told == 1 ? 1 : 2;
  expect(check_page(name, p, shift, length) == told, name, "the page's length", told);
  expect(check_page(name, p, shift, length + 1) == told, name, "one byte more", told);
  expect(check_page(name, p, shift, ROOM - shift) == told, name, "many more", told);
  expect(check_page(name, p, shift, 0) == shorter, name, "no buffer", told);
  if (length == 0) return;
  expect(check_page(name, p, shift, length - 1) == shorter, name, "one byte too few", told);
  expect(check_page(name, p, shift, length - 96) == shorter, name, "one line too few", told);
}

static void check_paged_problems(void) {
  size_t k, shift;
  for (k = 0; k < PROBLEMS; k++)
    for (shift = 0; shift < 8; shift++) check_rooms(problems[k].name, &problems[k], shift, problems[k].number);
}

/* A path through five vertices, under its middle. */
static const problem middle = {
    "a path under its middle", 0, 5, 4, 4, 4, {0, 1, 2, 3}, {1, 2, 3, 4}, {30, 4, 500, 65535},
    5, 5, {0, 17, 3, 16777190, 6}, {12, 1, 7, 16777196, 0}, 2, 5, {1, 2, 2, 2, 3}};

/* Pages that stand here byte for byte. */
static const uint8_t page_a[4 * 96 + 1] =
    "03                                                                            0          0     \n"
    " 02                                                                           3          1     \n"
    "  01                                                                          3          4     \n"
    "   00                                                                         5          6     \n";

static const uint8_t page_middle[5 * 96 + 1] =
    "02                                                                            0          0     \n"
    " 01                                                                           4          4     \n"
    "  00                                                                        -12        -26     \n"
    " 03                                                                           0          0     \n"
    "  04                                                                          6      65535     \n";

static const uint8_t page_one[96 + 1] =
    "00                                                                            0          0     \n";

/* A page told by hand: written, and built. */
static void check_told_page(const problem *p, const uint8_t *page, size_t length) {
  static outcome w;
  uint8_t built[MOVER_PAGE_MAX];
  figures f;
  w.number = write_page(p, lend_buffer(&w, 1), ROOM - 1, &w.length);
  expect_written(p->name, &w, MOVER_OK, page, length);
  find_figures(p, &f);
  expect(build_page(p, &f, &as_stated, built) == length && !memcmp(built, page, length), p->name, "built",
         (unsigned)length);
}

/* The same amounts before and after, from one table: nothing goes anywhere. */
static void check_one_painting(void) {
  static outcome w;
  problem p = problems[CASE_A];
  uint8_t page[4 * 96];
  figures f;
  uint8_t *buffer = lend_buffer(&w, 7);
  w.number = mover_write_page(4, p.a, 3, p.b, 3, p.lengths, 3, p.mu, 4, p.mu, 4, 3, p.parents, 4, buffer, sizeof page,
                              &w.length);
  memcpy(p.nu, p.mu, sizeof p.nu);
  find_figures(&p, &f);
  build_page(&p, &f, &as_stated, page);
  expect_written("one painting", &w, MOVER_OK, page, sizeof page);
}

static void check_told_pages(void) {
  expect(MOVER_PAGE_LINE == 96, "MOVER_PAGE_LINE", "bytes", MOVER_PAGE_LINE);
  expect(MOVER_PAGE_MAX == 96 * 64 && MOVER_PAGE_SIZE(64) == MOVER_PAGE_MAX, "MOVER_PAGE_MAX", "bytes", MOVER_PAGE_MAX);
  check_told_page(&problems[CASE_A], page_a, sizeof page_a - 1);
  check_told_page(&middle, page_middle, sizeof page_middle - 1);
  check_told_page(&problems[CASE_E], page_one, sizeof page_one - 1);
  check_one_painting();
}

/* The same tree under another root: the parents on the way up from it are turned round. */
static void move_root(problem *p, size_t root) {
  uint32_t x = (uint32_t)root, child = x;
  p->root = root;
  for (;;) {
    uint32_t parent = p->parents[x];
    p->parents[x] = child;
    if (parent == x) return;
    child = x;
    x = parent;
  }
}

typedef enum shape { PATH, STAR, CATERPILLAR, ANY, SHAPES } shape;

/* A tree of n vertices, which stand in this order, under the first of them. */
static void put_tree(problem *p, shape kind, size_t n, const uint32_t *order) {
  size_t spine = kind == PATH ? n : kind == STAR ? 1 : n / 2 + 1, i, from;
  memset(p, 0, sizeof *p);
  p->name = kind == PATH ? "a path" : kind == STAR ? "a star" : kind == CATERPILLAR ? "a caterpillar" : "any tree";
  p->n = p->mu_len = p->nu_len = p->parents_len = n;
  p->root = p->parents[order[0]] = order[0];
  for (i = 1; i < n; i++) {
    from = kind == ANY ? draw_below(i) : i < spine ? i - 1 : (i - spine) * 7 % spine;
    p->parents[order[i]] = order[from];
  }
  for (i = n; i < V; i++) {
    p->mu[i] = p->nu[i] = UINT64_MAX; /* no one looks at these */
    p->parents[i] = 1;
  }
}

/* The tree's edges, and so many others or fewer. */
static void join_tree(problem *p, size_t more, size_t kind, uint32_t same) {
  uint8_t joined[64][64];
  size_t i;
  memset(joined, 0, sizeof joined);
  for (i = 0; i < p->n; i++) joined[i][p->parents[i]] = 1;
  for (i = 0; i < more; i++) joined[draw_below(p->n)][draw_below(p->n)] = 1;
  put_edges(p, joined, kind, same);
}

/* All from one vertex to another, all back, and all where it is. */
static void check_large_amounts(problem *p, size_t from, size_t to, size_t shift) {
  size_t k;
  for (k = 0; k < 3; k++) {
    memset(p->mu, 0, 8 * p->n);
    memset(p->nu, 0, 8 * p->n);
    p->mu[k == 0 ? from : to] = p->nu[k == 1 ? from : to] = 16777216;
    check_rooms(p->name, p, shift, MOVER_OK);
  }
}

/* Paths, stars and caterpillars of all 64 vertices, numbered upwards, downwards and in two further ways, each edge
 * 65,535 long, under every vertex; and each of these of every smaller size. */
static void check_shapes(void) {
  static const uint32_t turns[4][2] = {{1, 0}, {63, 63}, {5, 0}, {27, 40}};
  static problem p;
  uint32_t order[64];
  size_t kind, k, i, root, n;
  for (kind = PATH; kind < ANY; kind++)
    for (k = 0; k < 4; k++) {
      for (i = 0; i < 64; i++) order[i] = (uint32_t)(i * turns[k][0] + turns[k][1]) % 64;
      put_tree(&p, (shape)kind, 64, order);
      join_tree(&p, 0, 2, 65535);
      for (root = 0; root < 64; root++) {
        move_root(&p, root);
        check_large_amounts(&p, order[63], order[root % 63], root % 8);
      }
    }
  for (kind = PATH; kind < ANY; kind++)
    for (n = 1; n < 64; n++) {
      draw_order(n, order);
      put_tree(&p, (shape)kind, n, order);
      join_tree(&p, 0, 1, 0);
      move_root(&p, draw_below(n));
      check_large_amounts(&p, draw_below(n), draw_below(n), n % 8);
    }
}

/* The last line of a page of 64, told by hand: the vertex, and what stands from column 68 on. */
static void check_last_line(const problem *p, size_t depth, const char *told) {
  static outcome w;
  uint8_t *page = lend_buffer(&w, 0), line[96];
  memset(line, ' ', 96);
  memcpy(line + depth, told, 2);
  memcpy(line + 68, told + 2, 28);
  w.number = write_page(p, page, MOVER_PAGE_MAX, &w.length);
  expect(w.number == MOVER_OK && w.length == 6144, p->name, "length", (unsigned)w.length);
  expect(strlen(told) == 30 && !memcmp(page + 63 * 96, line, 96), p->name, "the last line, at depth", (unsigned)depth);
}

/* The largest figures of all, of both signs, at the greatest depth. */
static void check_largest(void) {
  static problem p;
  uint32_t order[64];
  size_t i;
  for (i = 0; i < 64; i++) order[i] = (uint32_t)i;
  put_tree(&p, PATH, 64, order);
  join_tree(&p, 0, 2, 65535);
  p.mu[0] = p.nu[63] = 16777216;
  check_last_line(&p, 63, "63  -16777216   -4128705     \n");
  move_root(&p, 63);
  check_last_line(&p, 63, "00   16777216    4128705     \n");
  put_tree(&p, STAR, 64, order);
  join_tree(&p, 0, 2, 65535);
  p.mu[63] = p.nu[0] = 16777216;
  check_last_line(&p, 1, "63   16777216      65535     \n");
  move_root(&p, 63);
  check_last_line(&p, 2, "62          0     -65535     \n");
}

/* Every number at its bound, with a tree: the path through the vertices below 63 under vertex 0, and vertex 63 on
 * vertex 0. */
static void fill_page_bounds(problem *p) {
  size_t x;
  fill_bounds(p);
  p->nu_len = p->parents_len = 64;
  for (x = 0; x < 64; x++) {
    p->nu[x] = (2 * x + 1) * 4096;
    p->parents[x] = x == 0 || x == 63 ? 0 : (uint32_t)x - 1;
  }
}

/* One of these numbers changed, at one place or EVERY place of its list, and what the call then returns. */
static const struct page_change {
  const char *name;
  field where;
  size_t place;
  uint64_t value;
  uint32_t number;
} page_changes[] = {
    {"n 0", AT_N, 0, 0, 1},
    {"n 63", AT_N, 0, 63, 2},
    {"n 65", AT_N, 0, 65, 1},
    {"n 256 + 64", AT_N, 0, 320, 1},
    {"n 2^32 + 64", AT_N, 0, 4294967360u, 1},
    {"n 2^61", AT_N, 0, (uint64_t)1 << 61, 1},
    {"n SIZE_MAX", AT_N, 0, SIZE_MAX, 1},
    {"no a", A_LEN, 0, 0, 2},
    {"a short", A_LEN, 0, 511, 2},
    {"a long", A_LEN, 0, 513, 2},
    {"no b", B_LEN, 0, 0, 2},
    {"b short", B_LEN, 0, 511, 2},
    {"b long", B_LEN, 0, 513, 2},
    {"no lengths", LENGTHS_LEN, 0, 0, 2},
    {"lengths short", LENGTHS_LEN, 0, 511, 2},
    {"lengths long", LENGTHS_LEN, 0, 513, 2},
    {"no mu", MU_LEN, 0, 0, 2},
    {"mu short", MU_LEN, 0, 63, 2},
    {"mu long", MU_LEN, 0, 65, 2},
    {"no nu", NU_LEN, 0, 0, 2},
    {"nu short", NU_LEN, 0, 63, 2},
    {"nu long", NU_LEN, 0, 65, 2},
    {"no parents", PARENTS_LEN, 0, 0, 2},
    {"parents short", PARENTS_LEN, 0, 63, 2},
    {"parents long", PARENTS_LEN, 0, 65, 2},
    {"an end a 63", AT_A, EVERY, 63, 3},
    {"an end a UINT32_MAX", AT_A, EVERY, UINT32_MAX, 3},
    {"an end b 0", AT_B, EVERY, 0, 3},
    {"an end b 64", AT_B, EVERY, 64, 3},
    {"an end b UINT32_MAX", AT_B, EVERY, UINT32_MAX, 3},
    {"vertex 63 alone", AT_B, HANGS, 62, 5},
    {"a length 0", AT_LENGTHS, EVERY, 0, 0},
    {"a length 65536", AT_LENGTHS, EVERY, 65536, 4},
    {"a length UINT32_MAX", AT_LENGTHS, EVERY, UINT32_MAX, 4},
    {"an amount 0 before", AT_MU, EVERY, 0, 7},
    {"one grain less before", AT_MU, EVERY, SHARE - 1, 7},
    {"one grain more before", AT_MU, EVERY, SHARE + 1, 6},
    {"a total of 2^64 before", AT_MU, EVERY, UINT64_MAX - 63 * SHARE + 1, 6},
    {"an amount UINT64_MAX before", AT_MU, EVERY, UINT64_MAX, 6},
    {"an amount 0 after", AT_NU, EVERY, 0, 7},
    {"two grains less after", AT_NU, 0, 4094, 7},
    {"one grain more after", AT_NU, 0, 4097, 6},
    {"a total of 2^64 after", AT_NU, 0, UINT64_MAX - 16777216 + 4096 + 1, 6},
    {"an amount UINT64_MAX after", AT_NU, EVERY, UINT64_MAX, 6},
    {"root 63", AT_ROOT, 0, 63, 8},
    {"root 64", AT_ROOT, 0, 64, 8},
    {"root 256", AT_ROOT, 0, 256, 8},
    {"root 2^32", AT_ROOT, 0, 4294967296u, 8},
    {"root SIZE_MAX", AT_ROOT, 0, SIZE_MAX, 8},
    {"the root's parent another", AT_PARENTS, 0, 1, 8},
    {"a second vertex its own parent", AT_PARENTS, 20, 20, 8},
    {"a parent 64", AT_PARENTS, EVERY, 64, 8},
    {"a parent UINT32_MAX", AT_PARENTS, EVERY, UINT32_MAX, 8},
    {"a parent without an edge", AT_PARENTS, 50, 20, 9},
    {"a parent without an edge, a cycle", AT_PARENTS, 20, 50, 9},
    {"a cycle of two", AT_PARENTS, 30, 31, 10},
    {"a cycle of nine", AT_PARENTS, 30, 38, 10},
    {"another parent", AT_PARENTS, 40, 33, 0},
};
enum { PAGE_CHANGES = sizeof page_changes / sizeof page_changes[0] };

/* Each change, at every place of a list. */
static void check_page_changes(void) {
  static problem bounds, p;
  size_t k, i;
  fill_page_bounds(&bounds);
  check_rooms(bounds.name, &bounds, 0, MOVER_OK);
  for (k = 0; k < PAGE_CHANGES; k++) {
    const struct page_change *c = &page_changes[k];
    size_t first = c->place == EVERY ? 0 : c->place, end = c->place == EVERY ? places_of(c->where) : first + 1;
    for (i = first; i < end; i++) {
      p = bounds;
      set_field(&p, c->where, i, c->value);
      expect(check_page(c->name, &p, i % 8, 6144) == c->number, c->name, "at place", (unsigned)i);
    }
  }
}

/* Each two changes in one, the latter at the end of its list: the order of the checks is that of their numbers. In
 * one list only two parents; amounts would add up. Each change with a buffer that is too short, and with 513 edges. */
static void check_two_page_changes(void) {
  static problem bounds, p;
  size_t k, l;
  fill_page_bounds(&bounds);
  for (k = 0; k < PAGE_CHANGES; k++) {
    const struct page_change *c = &page_changes[k], *d;
    size_t place = c->place == EVERY ? 0 : c->place;
    for (l = 0; l < PAGE_CHANGES; l++) {
      size_t other;
      d = &page_changes[l];
      other = d->place == EVERY ? places_of(d->where) - 1 : d->place;
      if (d->where == c->where && (d->where != AT_PARENTS || other == place)) continue;
      p = bounds;
      set_field(&p, c->where, place, c->value);
      set_field(&p, d->where, other, d->value);
      expect(check_page(c->name, &p, 1, ROOM - 1) == first_of(c->number, d->number), c->name, d->name, 0);
    }
    p = bounds;
    set_field(&p, c->where, place, c->value);
    expect(check_page(c->name, &p, 0, 0) == first_of(c->number, 2), c->name, "no buffer", 0);
    expect(check_page(c->name, &p, 0, 6143) == first_of(c->number, 2), c->name, "a short buffer", 0);
    p.a_len = p.b_len = p.lengths_len = 513;
    expect(check_page(c->name, &p, 0, ROOM) == first_of(c->number, 2), c->name, "513 edges", 0);
  }
}

/* What came up: the numbers; signs of the imbalance, and of the potential where the imbalance is 0; lines behind
 * which the depth falls by more than one; pages under a root that is not vertex 0. */
typedef struct printed {
  unsigned numbers[11], imbalance[3], potential[3], returns, roots;
} printed;

static unsigned sign_of(int64_t value) {
  return value < 0 ? 0 : value == 0 ? 1 : 2;
}

static void count_printed(const problem *p, printed *t) {
  figures f;
  uint8_t page[MOVER_PAGE_MAX];
  size_t v, line, depth, last = 0;
  find_figures(p, &f);
  build_page(p, &f, &as_stated, page);
  t->roots += p->root != 0;
  for (v = 0; v < p->n; v++) {
    t->imbalance[sign_of(f.imbalance[v])]++;
    if (v != p->root && f.imbalance[v] == 0) t->potential[sign_of(f.potential[v])]++;
  }
  for (line = 0; line < p->n; line++) {
    for (depth = 0; page[96 * line + depth] == ' ';) depth++;
    t->returns += depth + 1 < last;
    last = depth;
  }
}

/* Amounts at few or all vertices, and the same in another order: one in four times where they were. */
static void draw_amounts(problem *p) {
  size_t often = 1 + draw_below(4), small = draw_below(2), n = p->n, v;
  uint32_t order[64];
  bool stays = draw_below(4) == 0;
  draw_order(n, order);
  for (v = 0; v < n; v++)
    p->mu[v] = draw_below(often) != 0 ? 0 : small ? draw_below(4) : draw_shorter(draw_below(16777216 / n + 1), 24);
  for (v = 0; v < n; v++) p->nu[v] = p->mu[stays ? v : order[v]];
}

/* An edge less, any parent, or a change as above in any place; n is the number of vertices before any damage. */
static void damage_tree(problem *p, size_t n) {
  const struct page_change *c = &page_changes[draw_below(PAGE_CHANGES)];
  size_t kind = draw_below(6), e;
  if (kind == 0 && p->lengths_len > 0) {
    p->a_len = p->b_len = --p->lengths_len;
    for (e = draw_below(p->a_len + 1); e < p->a_len; e++) {
      p->a[e] = p->a[e + 1];
      p->b[e] = p->b[e + 1];
    }
  }
  if (kind == 1) p->parents[draw_below(n)] = (uint32_t)draw_below(n);
  if (kind > 1) set_field(p, c->where, draw_below(n), c->value);
}

/* Trees of every shape, their vertices numbered in any order, under any root, alone or in a patch with further edges,
 * seams too; half of them damaged once or twice, some in buffers that are too short. */
static void check_drawn_pages(void) {
  static problem p;
  printed t = {{0}, {0}, {0}, 0, 0};
  uint32_t order[64], number;
  size_t round, count, k, n, room;
  for (round = 0; round < 4000; round++) {
    n = draw_below(4) == 0 ? 64 - draw_below(32) : 1 + draw_below(14);
    draw_order(n, order);
    put_tree(&p, (shape)draw_below(SHAPES), n, order);
    join_tree(&p, draw_below(2) * draw_below(6 * n), draw_below(4), (uint32_t)draw_below(65536));
    move_root(&p, draw_below(n));
    draw_amounts(&p);
    for (count = draw_below(2) * (1 + draw_below(2)); count > 0; count--) damage_tree(&p, n);
    room = draw_below(8) == 0 ? draw_below(96 * n) : 96 * n + draw_below(200);
    number = check_page(p.name, &p, draw_below(8), room);
    t.numbers[number]++;
    if (number == MOVER_OK) count_printed(&p, &t);
  }
  for (k = 0; k < 11; k++) expect(t.numbers[k] > 10, "every number", "of pages", (unsigned)k);
  for (k = 0; k < 3; k++)
    expect(t.imbalance[k] > 3000 && t.potential[k] > 300, "every sign", "of figures", (unsigned)k);
  expect(t.returns > 1000 && t.roots > 1000, "returns from a subtree, and any roots,", "returns", t.returns);
}

/* The comparison is to notice this page in the place of the right one. */
static void expect_noticed(const char *what, unsigned which, const uint8_t *page) {
  static outcome w;
  w.number = MOVER_OK;
  memcpy(lend_buffer(&w, 3), page, sizeof page_middle - 1);
  w.length = sizeof page_middle - 1;
  expect(wrong_in(&w, MOVER_OK, page_middle, sizeof page_middle - 1) != NULL, what, "noticed", which);
}

/* Pages printed otherwise than the header says. */
static void check_wrong_pages(void) {
  static const slips wrong[4] = {
      {true, false, false, 0}, {false, true, false, 0}, {false, false, true, 0}, {false, false, false, 1}};
  uint8_t page[sizeof page_middle - 1], line[96];
  figures f;
  size_t i, j;
  find_figures(&middle, &f);
  for (i = 0; i < 4; i++) {
    expect(build_page(&middle, &f, &wrong[i], page) == sizeof page, "a wrong page", "length", (unsigned)i);
    expect_noticed("a page printed otherwise", (unsigned)i, page);
  }
  for (i = 0; i < 5; i++)
    for (j = 0; j < i; j++) {
      memcpy(page, page_middle, sizeof page);
      memcpy(line, page + 96 * i, 96);
      memcpy(page + 96 * i, page + 96 * j, 96);
      expect_noticed("a line twice", (unsigned)(5 * i + j), page);
      memcpy(page + 96 * j, line, 96);
      expect_noticed("two lines exchanged", (unsigned)(5 * i + j), page);
    }
}

/* A right answer, spoiled on purpose: each bit of the page and of the bytes round it, the length, the number, a rest
 * that is cleared, and a refusal that wrote. */
static void check_spoiled_pages(void) {
  enum { LENGTH = sizeof page_middle - 1 };
  static outcome w;
  uint8_t *bytes = (uint8_t *)w.block.block;
  size_t i;
  w.number = write_page(&middle, lend_buffer(&w, 3), ROOM - 3, &w.length);
  expect(wrong_in(&w, MOVER_OK, page_middle, LENGTH) == NULL, "a right page", middle.name, 0);
  for (i = 0; i < 8 * (GUARD + 3 + LENGTH + GUARD); i++) {
    bytes[i / 8] ^= (uint8_t)(1 << i % 8);
    expect(wrong_in(&w, MOVER_OK, page_middle, LENGTH) != NULL, "a spoiled bit", "at", (unsigned)i);
    bytes[i / 8] ^= (uint8_t)(1 << i % 8);
  }
  for (w.number = 1; w.number < 11; w.number++)
    expect(wrong_in(&w, MOVER_OK, page_middle, LENGTH) != NULL, "another number", "is", w.number);
  w.number = MOVER_OK;
  for (i = 0; i < LENGTH; i += 96) {
    w.length = i;
    expect(wrong_in(&w, MOVER_OK, page_middle, LENGTH) != NULL, "another length", "is", (unsigned)i);
  }
  w.length = LENGTH;
  memset(bytes + GUARD + 3 + LENGTH, ' ', ROOM - 3 - LENGTH);
  expect(wrong_in(&w, MOVER_OK, page_middle, LENGTH) != NULL, "a rest cleared", middle.name, 0);
  w.number = write_page(&middle, lend_buffer(&w, 3), LENGTH - 1, &w.length);
  expect(wrong_in(&w, 2, page_middle, 0) == NULL, "a right refusal", "by", 2);
  expect(wrong_in(&w, 3, page_middle, 0) != NULL, "another refusal", "by", 3);
  for (i = 0; i < LENGTH; i++) {
    bytes[GUARD + 3 + i] ^= 1;
    expect(wrong_in(&w, 2, page_middle, 0) != NULL, "a refusal that wrote", "at", (unsigned)i);
    bytes[GUARD + 3 + i] ^= 1;
  }
  w.length = LENGTH;
  expect(wrong_in(&w, 2, page_middle, 0) != NULL, "a refusal with a length", "of", LENGTH);
}

static void check_pages(void) {
  check_told_pages();
  check_paged_problems();
  check_shapes();
  check_largest();
  check_page_changes();
  check_two_page_changes();
  check_drawn_pages();
  check_wrong_pages();
  check_spoiled_pages();
}

/* Every number has a text of its own. */
static void check_texts(void) {
  const char *none = mover_refusal_text(UINT32_MAX);
  uint32_t k, l;
  for (k = 0; k < 18; k++)
    for (l = 0; l < k; l++) expect(strcmp(mover_refusal_text(k), mover_refusal_text(l)) != 0, "a text", "number", k);
  for (k = 0; k < 20; k++) expect(!strcmp(mover_refusal_text(k), none) == (k > 17), "no text", "number", k);
}

/* ---- the stack */

/* The largest patch: every call on it, one at a time. */
typedef struct large {
  uint32_t a[512], b[512], lengths[512], parents[64], found[64], plan[4096];
  uint64_t mu[64], nu[64];
  mover_edge edges[512];
  int32_t imbalance[64], potential[64];
  uint8_t image[MOVER_IMAGE_SIZE(64, 512)], small[MOVER_IMAGE_SIZE(1, 0)], record[MOVER_RECORD_MAX];
  uint8_t with_tree[MOVER_IMAGE_WRITTEN_MAX], rewritten[MOVER_IMAGE_WRITTEN_MAX];
  size_t length, small_length, tree_length;
  built images; /* all three of them, and some that are refused */
} large;

static large patch;

static uint32_t call_write_image(void) {
  return mover_write_image(64, patch.a, 512, patch.b, 512, patch.lengths, 512, patch.mu, 64, patch.nu, 64, true, 0, patch.parents, 64,
                           patch.with_tree, sizeof patch.with_tree, &patch.tree_length);
}

static void add_copy(const uint8_t *image, size_t length) {
  memcpy(leave_gap(&patch.images, 1), image, length);
  add_pair(&patch.images, length);
}

static void fill_reel(void) {
  patch.images = start_reel(6, 1);
  add_copy(patch.image, patch.length);
  add_copy(patch.image, patch.length - 1);
  add_copy(patch.with_tree, patch.tree_length);
  add_copy(patch.with_tree, patch.tree_length - 1);
  add_copy(patch.small, patch.small_length);
  add_copy(patch.small, 0);
}

/* A path through all vertices, with its parents, and further edges up to 512. */
static void fill_large(void) {
  size_t x, y, m = 0;
  for (x = 0; x < 64; x++) {
    patch.parents[x] = x == 0 ? 0 : (uint32_t)(x - 1);
    patch.mu[x] = 64 * (x * 7 % 64);
    patch.nu[x] = 64 * (x * 11 % 64);
    for (y = x + 1; y < 64 && y < x + 10; y++) {
      if (y > x + 1 && m + 62 - x >= 512) continue; /* leave room for the path */
      patch.a[m] = patch.edges[m].a = (uint32_t)x;
      patch.b[m] = patch.edges[m].b = (uint32_t)y;
      patch.lengths[m] = patch.edges[m].length = (uint32_t)(1 + (x * 37 + y * 101) % 900);
      m++;
    }
  }
  expect(m == 512, "the largest patch", "edges", (unsigned)m);
  expect(mover_write_image(64, patch.a, 512, patch.b, 512, patch.lengths, 512, patch.mu, 64, patch.nu, 64, false, 0, NULL, 0, patch.image,
                           sizeof patch.image, &patch.length) == 0,
         "the image", "of the largest patch", (unsigned)patch.length);
  expect(mover_write_image(1, NULL, 0, NULL, 0, NULL, 0, patch.mu, 1, patch.mu, 1, false, 0, NULL, 0, patch.small, sizeof patch.small,
                           &patch.small_length) == 0,
         "the image", "of one vertex", (unsigned)patch.small_length);
  expect(call_write_image() == 0 && patch.tree_length == MOVER_IMAGE_WRITTEN_MAX, "the image", "of the largest patch and a tree",
         (unsigned)patch.tree_length);
  fill_reel();
}

static uint32_t call_distances(void) {
  return mover_distances(64, patch.a, 512, patch.b, 512, patch.lengths, 512, patch.plan, 4096);
}

static uint32_t call_records(void) {
  return mover_distances_of_records(64, patch.edges, 512, patch.plan, 4096);
}

static uint32_t call_evaluate(void) {
  uint64_t cost;
  uint32_t moves;
  return mover_evaluate(64, patch.a, 512, patch.b, 512, patch.lengths, 512, patch.mu, 64, patch.nu, 64, 0, patch.parents, 64,
                        patch.imbalance, 64, patch.potential, 64, patch.plan, 4096, &cost, &moves);
}

static uint32_t call_is_optimal(void) {
  uint32_t optimal;
  return mover_is_optimal(64, patch.a, 512, patch.b, 512, patch.lengths, 512, patch.mu, 64, patch.nu, 64, 0, patch.parents, 64, &optimal);
}

static uint32_t call_write_page(void) {
  static uint8_t page[MOVER_PAGE_MAX];
  size_t length;
  return mover_write_page(64, patch.a, 512, patch.b, 512, patch.lengths, 512, patch.mu, 64, patch.nu, 64, 0, patch.parents, 64, page,
                          sizeof page, &length);
}

static uint32_t call_solve(void) {
  uint64_t cost;
  uint32_t moves;
  return mover_solve(64, patch.a, 512, patch.b, 512, patch.lengths, 512, patch.mu, 64, patch.nu, 64, patch.found, 64, patch.potential, 64,
                     patch.plan, 4096, &cost, &moves);
}

static uint32_t call_mark_ancestors(void) {
  static uint64_t masks[64];
  return mover_mark_ancestors(64, 0, patch.parents, 64, 63, masks, 64);
}

static uint32_t call_vertices_within(void) {
  uint64_t mask;
  return mover_vertices_within(64, patch.a, 512, patch.b, 512, patch.lengths, 512, 63, UINT32_MAX, &mask);
}

static uint32_t call_nearest_vertex(void) {
  uint32_t vertex;
  return mover_nearest_vertex(64, patch.a, 512, patch.b, 512, patch.lengths, 512, 63, patch.mu, 64, &vertex);
}

static uint32_t call_read(void) {
  static uint32_t a[512], b[512], lengths[512], parents[64];
  static uint64_t mu[64], nu[64];
  size_t n, m, root;
  uint32_t tree;
  return mover_read(patch.image, patch.length, a, 512, b, 512, lengths, 512, mu, 64, nu, 64, parents, 64, &n, &m, &root, &tree);
}

static uint32_t call_rewrite(void) {
  size_t length;
  return mover_rewrite(patch.with_tree, patch.tree_length, patch.rewritten, sizeof patch.rewritten, &length);
}

static uint32_t call_to_amounts(void) {
  static float weights[LONGEST];
  static uint64_t amounts[LONGEST];
  return mover_to_amounts(weights, LONGEST, amounts, LONGEST);
}

static uint32_t call_to_weights(void) {
  static uint64_t amounts[LONGEST];
  static float weights[LONGEST];
  return mover_to_weights(amounts, LONGEST, weights, LONGEST);
}

static uint32_t call_tree(void) {
  static mover_tree tree;
  tree = mover_tree_new(64, 0, patch.parents, 64);
  return mover_tree_depth(tree, 63) == 63 && mover_tree_parent(tree, 63) == 62 && mover_tree_subtree(tree, 0) == UINT64_MAX ? 0 : 1;
}

static uint32_t call_run(void) {
  return mover_run(patch.image, patch.length, patch.record, sizeof patch.record);
}

static uint32_t call_run_small(void) {
  return mover_run(patch.small, patch.small_length, patch.record, sizeof patch.record);
}

static uint32_t call_report(void) {
  uint32_t places[24], accepted;
  uint64_t sum, greatest;
  size_t first;
  uint32_t number = mover_report(patch.images.bytes, patch.images.length, places, 24, &accepted, &sum,
                                 &greatest, &first);
  return number == MOVER_OK && accepted != 3 ? 98 : number;
}

static const struct use {
  const char *name;
  uint32_t (*call)(void);
  size_t stack;
} uses[] = {
    {"mover_distances", call_distances, MOVER_STACK_DISTANCES},
    {"mover_distances_of_records", call_records, MOVER_STACK_DISTANCES_OF_RECORDS},
    {"mover_evaluate", call_evaluate, MOVER_STACK_EVALUATE},
    {"mover_is_optimal", call_is_optimal, MOVER_STACK_IS_OPTIMAL},
    {"mover_write_page", call_write_page, MOVER_STACK_WRITE_PAGE},
    {"mover_solve", call_solve, MOVER_STACK_SOLVE},
    {"mover_mark_ancestors", call_mark_ancestors, MOVER_STACK_MARK_ANCESTORS},
    {"mover_vertices_within", call_vertices_within, MOVER_STACK_VERTICES_WITHIN},
    {"mover_nearest_vertex", call_nearest_vertex, MOVER_STACK_NEAREST_VERTEX},
    {"mover_read", call_read, MOVER_STACK_READ},
    {"mover_write_image", call_write_image, MOVER_STACK_WRITE_IMAGE},
    {"mover_rewrite", call_rewrite, MOVER_STACK_REWRITE},
    {"mover_to_amounts", call_to_amounts, MOVER_STACK_TO_AMOUNTS},
    {"mover_to_weights", call_to_weights, MOVER_STACK_TO_WEIGHTS},
    {"mover_tree_...", call_tree, MOVER_STACK_TREE},
    {"mover_run", call_run, MOVER_STACK_RUN},
    {"mover_run, one vertex", call_run_small, MOVER_STACK_RUN},
    {"mover_report", call_report, MOVER_STACK_REPORT},
};
enum { USES = sizeof uses / sizeof uses[0] };

/* A call's own thread: what it returned, and an address of the stack where the call was made. */
typedef struct trial {
  const struct use *use;
  uint32_t number;
  uint8_t *from;
} trial;

static void *make_call(void *argument) {
  trial *t = (trial *)argument;
  uint8_t here;
  t->from = &here;
  t->number = t->use->call();
  return NULL;
}

static void run_thread(trial *t, pthread_attr_t *attributes) {
  pthread_t thread;
  t->number = 99;
  if (pthread_create(&thread, attributes, make_call, t) != 0 || pthread_join(thread, NULL) != 0) {
    expect(0, "a thread", t->use->name, 0);
    return;
  }
  expect(t->number == MOVER_OK, "a call in a thread", t->use->name, t->number);
}

/* How much of a painted stack a call uses. */
static size_t used_stack(const struct use *use) {
  enum { SIZE = 1 << 18, PAINT = 0xa5 };
  void *stack;
  uint8_t *low;
  size_t used;
  trial t;
  pthread_attr_t attributes;
  if (posix_memalign(&stack, 4096, SIZE) != 0) abort();
  memset(stack, PAINT, SIZE);
  pthread_attr_init(&attributes);
  pthread_attr_setstack(&attributes, stack, SIZE);
  t.use = use;
  run_thread(&t, &attributes);
  for (low = (uint8_t *)stack; *low == PAINT; low++) {}
  used = (size_t)(t.from - low);
  pthread_attr_destroy(&attributes);
  free(stack);
  return used;
}

/* Each call keeps to the stack that the header states: on a painted stack, and in a thread that has little more. */
static void check_stack(void) {
  size_t k;
  fill_large();
  for (k = 0; k < USES; k++) {
    pthread_attr_t attributes;
    trial t;
    size_t used = used_stack(&uses[k]);
    printf("stack of %s: %zu of %zu bytes\n", uses[k].name, used, uses[k].stack);
    expect(used <= uses[k].stack, "the stack of", uses[k].name, (unsigned)used);
    pthread_attr_init(&attributes);
    expect(pthread_attr_setstacksize(&attributes, PTHREAD_STACK_MIN + uses[k].stack) == 0, "a small stack", uses[k].name, 0);
    t.use = &uses[k];
    run_thread(&t, &attributes);
    expect(pthread_attr_setstacksize(&attributes, MOVER_THREAD_STACK) == 0, "the stated stack", uses[k].name, 0);
    run_thread(&t, &attributes);
    pthread_attr_destroy(&attributes);
  }
}

static void check_problems(void) {
  size_t k;
  for (k = 0; k < PROBLEMS; k++) check_problem(&problems[k]);
}

int main(void) {
  static const struct group {
    const char *name;
    void (*check)(void);
  } groups[] = {
      {"accepted and refused problems", check_problems}, {"figures and long tables", check_figures}, {"empty tables", check_empty},
      {"the reader", check_reader},                      {"the entry", check_run},                   {"the writer of images", check_writer},
      {"the rewriter", check_rewriter},                  {"trees", check_trees},                     {"climbs", check_climbs},
      {"weights", check_weights},                        {"brushes", check_brushes},                 {"reports", check_reports},
      {"pages", check_pages},                            {"texts", check_texts},                     {"stack", check_stack},
  };
  unsigned passed = 0, failed = 0;
  size_t k;
  for (k = 0; k < sizeof groups / sizeof groups[0]; k++) {
    looked = faults = 0;
    groups[k].check();
    printf("%s: %s (%u facts)\n", groups[k].name, faults ? "FAILED" : "ok", looked);
    if (faults)
      failed++;
    else
      passed++;
  }
  printf("%u passed, %u failed\n", passed, failed);
  return failed != 0;
}
