/* Every call on one patch: distances, the best answer, a given tree and whether it is best, each with its page, the tree's methods, climbs
 * up it, the same by an image, which is written, rewritten, read and run, a report on three images, a painting as weights, a brush with
 * and without a seam, and a refusal. */
#include "mover.h"

#include <inttypes.h>
#include <stdio.h>
#include <string.h>

/* Two rings of three vertices round a limb, joined along its length. */
enum { N = 6, M = 9 };
static const mover_edge edges[M] = {
    {0, 1, 210}, {0, 2, 205}, {0, 3, 340}, {1, 2, 190}, {1, 4, 330},
    {2, 5, 350}, {3, 4, 180}, {3, 5, 175}, {4, 5, 170},
};
static uint32_t a[M], b[M], lengths[M]; /* the same edges as three lists */
static const uint64_t before[N] = {610, 240, 150, 0, 0, 0};
static const uint64_t after[N] = {0, 100, 100, 300, 300, 200};
static const uint64_t unequal[N] = {0, 0, 0, 0, 0, 999};

/* A tree that goes the long way round: each vertex's parent. Its root is 0. */
static const uint32_t chain[N] = {0, 0, 1, 4, 5, 2};

static void refused(uint32_t number) {
  printf("  refused %" PRIu32 ": %s\n", number, mover_refusal_text(number));
}

static void print_moves(const uint32_t *plan) {
  size_t from, to;
  for (from = 0; from < N; from++)
    for (to = 0; to < N; to++)
      if (plan[from * N + to] > 0) printf("  %zu to %zu: %" PRIu32 "\n", from, to, plan[from * N + to]);
}

static void distances(void) {
  uint32_t table[N * N], same[N * N], number;
  size_t i, j, differ = 0;
  printf("distances\n");
  number = mover_distances(N, a, M, b, M, lengths, M, table, N * N);
  if (number != MOVER_OK) {
    refused(number);
    return;
  }
  for (i = 0; i < N; i++) {
    printf(" ");
    for (j = 0; j < N; j++) printf(" %3" PRIu32, table[i * N + j]);
    printf("\n");
  }
  number = mover_distances_of_records(N, edges, M, same, N * N);
  for (i = 0; i < N * N; i++) differ += table[i] != same[i];
  printf("  over records: number %" PRIu32 ", %zu places differ\n", number, differ);
}

/* Is the tree with root 0 and these parents a best one? */
static void judge(const uint64_t *mu, const uint64_t *nu, const uint32_t *parents) {
  uint32_t optimal;
  uint32_t number = mover_is_optimal(N, a, M, b, M, lengths, M, mu, N, nu, N, 0, parents, N, &optimal);
  if (number != MOVER_OK)
    refused(number);
  else
    printf("  %s\n", optimal ? "no tree costs less" : "some tree costs less");
}

/* The page of the tree with root 0 and these parents: a line for each vertex, by depth, with its imbalance and its potential. */
static void print_page(const uint64_t *mu, const uint64_t *nu, const uint32_t *parents) {
  uint8_t page[MOVER_PAGE_SIZE(N)];
  size_t length;
  uint32_t number = mover_write_page(N, a, M, b, M, lengths, M, mu, N, nu, N, 0, parents, N, page, sizeof page, &length);
  if (number != MOVER_OK)
    refused(number);
  else
    fwrite(page, 1, length, stdout);
}

static void best(const uint64_t *mu, const uint64_t *nu) {
  uint32_t parents[N], plan[N * N], moves, number;
  int32_t potential[N];
  uint64_t cost;
  size_t x;
  number = mover_solve(N, a, M, b, M, lengths, M, mu, N, nu, N, parents, N, potential, N, plan, N * N, &cost, &moves);
  if (number != MOVER_OK) {
    refused(number);
    return;
  }
  printf("  cost %" PRIu64 ", %" PRIu32 " moves\n  parents", cost, moves);
  for (x = 0; x < N; x++) printf(" %" PRIu32, parents[x]);
  printf("\n  potential");
  for (x = 0; x < N; x++) printf(" %" PRId32, potential[x]);
  printf("\n");
  print_moves(plan);
  judge(mu, nu, parents);
  print_page(mu, nu, parents);
}

static void given_tree(void) {
  uint32_t plan[N * N], moves, number;
  int32_t imbalance[N], potential[N];
  uint64_t cost;
  size_t x;
  number = mover_evaluate(N, a, M, b, M, lengths, M, before, N, after, N, 0, chain, N, imbalance, N, potential, N, plan, N * N, &cost,
                          &moves);
  if (number != MOVER_OK) {
    refused(number);
    return;
  }
  printf("  cost %" PRIu64 ", %" PRIu32 " moves\n  imbalance", cost, moves);
  for (x = 0; x < N; x++) printf(" %" PRId32, imbalance[x]);
  printf("\n  potential");
  for (x = 0; x < N; x++) printf(" %" PRId32, potential[x]);
  printf("\n");
  print_moves(plan);
  judge(before, after, chain);
  print_page(before, after, chain);
}

static void methods(void) {
  mover_tree tree = mover_tree_new(N, 0, chain, N);
  size_t x;
  printf("  vertex, depth, parent, vertices below\n");
  for (x = 0; x < N; x++)
    printf("  %zu %" PRIu32 " %" PRIu32 " 0x%02" PRIx64 "\n", x, mover_tree_depth(tree, x), mover_tree_parent(tree, x),
           mover_tree_subtree(tree, x));
}

/* The vertices below each vertex again, gathered by a climb from each, the last one first. */
static void climbs(void) {
  uint64_t masks[N] = {0};
  size_t x, y;
  for (y = N; y-- > 0;) {
    uint32_t number = mover_mark_ancestors(N, 0, chain, N, y, masks, N);
    if (number != MOVER_OK) {
      refused(number);
      return;
    }
  }
  printf("  by climbs:");
  for (x = 0; x < N; x++) printf(" 0x%02" PRIx64, masks[x]);
  printf("\n");
}

/* The image again, its sections moved up by a gap and followed by a tail: rewritten, it has the bytes that it had. */
static void rewrite(const uint8_t *image, size_t length) {
  enum { GAP = 5, TAIL = 3 };
  uint8_t moved[MOVER_IMAGE_WRITTEN_MAX + GAP + TAIL], again[MOVER_IMAGE_WRITTEN_MAX];
  size_t offset, again_length;
  uint32_t number;
  memset(moved, 0xff, sizeof moved);
  memcpy(moved, image, MOVER_IMAGE_HEADER);
  memcpy(moved + MOVER_IMAGE_HEADER + GAP, image + MOVER_IMAGE_HEADER, length - MOVER_IMAGE_HEADER);
  for (offset = 4; offset < MOVER_IMAGE_HEADER; offset += 8) moved[offset] += GAP; /* offsets here fit one byte */
  number = mover_rewrite(moved, length + GAP + TAIL, again, sizeof again, &again_length);
  if (number != MOVER_OK) {
    refused(number);
    return;
  }
  printf("  with gaps %zu bytes, rewritten %zu: ", length + GAP + TAIL, again_length);
  printf("%s\n", again_length == length && !memcmp(again, image, length) ? "the same image" : "another image");
}

/* Writes an image with the chain, rewrites it, reads it back and runs it. */
static void by_image(void) {
  uint8_t image[MOVER_IMAGE_SIZE(N, M) + N + 1], record[MOVER_RECORD_SIZE(N)];
  uint32_t read_a[M], read_b[M], read_lengths[M], parents[N], tree, number;
  uint64_t mu[N], nu[N];
  size_t length, n, m, root, x;
  number = mover_write_image(N, a, M, b, M, lengths, M, before, N, after, N, true, 0, chain, N, image, sizeof image, &length);
  if (number != MOVER_OK) {
    refused(number);
    return;
  }
  printf("  %zu bytes\n", length);
  rewrite(image, length);
  number = mover_read(image, length, read_a, M, read_b, M, read_lengths, M, mu, N, nu, N, parents, N, &n, &m, &root, &tree);
  if (number != MOVER_OK) {
    refused(number);
    return;
  }
  printf("  %zu vertices, %zu edges, %s, root %zu\n", n, m, tree ? "a tree" : "no tree", root);
  number = mover_run(image, length, record, sizeof record);
  if (number != MOVER_OK) {
    refused(number);
    return;
  }
  printf("  cost %" PRIu64 ", %" PRIu32 " moves\n", mover_cost(record), mover_moves(record));
  printf("  root %u, parents", mover_root(record));
  for (x = 0; x < N; x++) printf(" %u", mover_parent(record, x));
  printf("\n  potential");
  for (x = 0; x < N; x++) printf(" %" PRId32, mover_potential(record, N, x));
  printf("\n  stays at 1: %" PRIu32 "\n", mover_amount(record, N, 1, 1));
}

/* A number in so many bytes of a reel, the least one first. */
static void put(uint8_t *to, size_t value, size_t bytes) {
  size_t i;
  for (i = 0; i < bytes; i++) to[i] = (uint8_t)(value >> 8 * i);
}

/* Three images in a reel: with the chain, without a tree, and with unequal totals. Then the reel lacks its last byte. */
static void sequence(void) {
  enum { COUNT = 3 };
  uint8_t reel[MOVER_REEL_DIRECTORY(COUNT) + COUNT * (MOVER_IMAGE_SIZE(N, M) + N + 1)];
  uint32_t tally[MOVER_TALLY_PLACES], accepted, number, k;
  uint64_t sum, greatest;
  size_t at = MOVER_REEL_DIRECTORY(COUNT), length, first, i;
  put(reel, COUNT, 2);
  for (i = 0; i < COUNT; i++) {
    number = mover_write_image(N, a, M, b, M, lengths, M, before, N, i < 2 ? after : unequal, N, i == 0, 0, chain, N,
                               reel + at, sizeof reel - at, &length);
    if (number != MOVER_OK) {
      refused(number);
      return;
    }
    put(reel + 2 + 8 * i, at, 4);
    put(reel + 6 + 8 * i, length, 4);
    at += length;
  }
  number = mover_report(reel, at, tally, MOVER_TALLY_PLACES, &accepted, &sum, &greatest, &first);
  if (number != MOVER_OK) {
    refused(number);
    return;
  }
  printf("  %" PRIu32 " of %d accepted, cost %" PRIu64 " together, the greatest %" PRIu64 " by image %zu\n",
         accepted, COUNT, sum, greatest, first);
  for (k = 1; k < MOVER_TALLY_PLACES; k++)
    if (tally[k] > 0) printf("  %" PRIu32 " refused by %" PRIu32 ": %s\n", tally[k], k, mover_refusal_text(k));
  refused(mover_report(reel, at - 1, tally, MOVER_TALLY_PLACES, &accepted, &sum, &greatest, &first));
}

/* A painting as a paint tool holds it, in floats from 0 to 1: into grains, and back. */
static void weights(void) {
  static const float painted[N] = {0.5f, 0.25f, 0.125f, 0.0625f, 0.0f, 0.0625f}, tenth = 0.1f;
  uint64_t amounts[N];
  float back[N];
  size_t x;
  uint32_t number = mover_to_amounts(painted, N, amounts, N);
  if (number == MOVER_OK) number = mover_to_weights(amounts, N, back, N);
  if (number != MOVER_OK) {
    refused(number);
    return;
  }
  printf("  grains");
  for (x = 0; x < N; x++) printf(" %" PRIu64, amounts[x]);
  printf("\n  weights");
  for (x = 0; x < N; x++) printf(" %g", (double)back[x]);
  printf("\n");
  refused(mover_to_amounts(&tenth, 1, amounts, N));
}

/* A brush on a vertex: what it reaches, and where the nearest paint is. */
static void brush(const uint32_t *edge_lengths, size_t start, const uint64_t *painted) {
  uint64_t within, farther;
  uint32_t vertex;
  uint32_t number = mover_vertices_within(N, a, M, b, M, edge_lengths, M, start, 200, &within);
  if (number == MOVER_OK) number = mover_vertices_within(N, a, M, b, M, edge_lengths, M, start, 205, &farther);
  if (number == MOVER_OK) number = mover_nearest_vertex(N, a, M, b, M, edge_lengths, M, start, painted, N, &vertex);
  if (number != MOVER_OK) {
    refused(number);
    return;
  }
  printf("  within 200: 0x%02" PRIx64 ", within 205: 0x%02" PRIx64, within, farther);
  if (vertex == MOVER_NO_VERTEX)
    printf(", no paint\n");
  else
    printf(", nearest paint at %" PRIu32 "\n", vertex);
}

/* On vertex 2, then with the edge to vertex 5 a seam: what is near to 5 is now as near to 2. */
static void brushes(void) {
  static const uint64_t painted[N] = {700, 0, 0, 200, 0, 0}, clean[N] = {0};
  uint32_t sewn[M];
  memcpy(sewn, lengths, sizeof sewn);
  sewn[5] = 0;
  brush(lengths, 2, painted);
  brush(sewn, 2, painted);
  brush(sewn, 2, clean);
  brush(sewn, N, painted);
}

int main(void) {
  size_t e;
  for (e = 0; e < M; e++) {
    a[e] = edges[e].a;
    b[e] = edges[e].b;
    lengths[e] = edges[e].length;
  }
  distances();
  printf("best answer\n");
  best(before, after);
  printf("a given tree\n");
  given_tree();
  methods();
  climbs();
  printf("the same by an image\n");
  by_image();
  printf("a sequence of images\n");
  sequence();
  printf("a painting as weights\n");
  weights();
  printf("a brush on vertex 2\n");
  brushes();
  printf("unequal totals\n");
  best(before, unequal);
  return 0;
}
