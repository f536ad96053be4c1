/* mover.h - the weight mover: optimal transport on a weighted graph.
 *
 * A graph (patch) has n vertices, 1 to 64, and m edges, 0 to 512, each with a length from 0 to 65,535: 0
 * joins welded vertices.
 * Two measures (paintings) of equal total, at most 16,777,216, put an amount on each vertex: mu before,
 * nu after. A plan says how much goes from which vertex to which; its cost is the sum of amount times
 * distance. The library finds a cheapest plan, or evaluates the plan of a spanning tree that is given. One
 * call prints such a tree as a page of text, a line for each vertex.
 * Amounts are whole numbers of grains. Weights as paint tools hold them, floats from 0 to 1, become amounts
 * and amounts weights by calls of their own.
 * An image holds a graph, two measures and, if there is one, a tree in bytes. Calls write, read and rewrite
 * images; what is equal is written as equal bytes, for hosts that compare files.
 * One call reports on a sequence (reel) of images: how many are accepted, how many are refused by which
 * number, and what the accepted ones cost.
 * Brushes ask which vertices lie within a reach of one, and which vertex with paint is nearest to it.
 *
 * Link one of two static archives, not both, for x86-64 Linux and its System V calling convention:
 *
 *   libhost_calls.a     every call below
 *   libweight_mover.a   mover_run alone
 *
 * They need memcpy and memset of the C library and nothing else. This header serves both of them, in C99
 * and C++11 and later. All numbers in bytes are little-endian.
 *
 * What holds for every call
 *
 * - No input is out of bounds: what fails one of a call's checks is refused by a number.
 * - A call returns MOVER_OK and fills its answer tables, or returns the number of the first check that
 *   fails, leaves every table as it was, and writes 0 through each pointer to a single result (cost,
 *   moves, optimal, mask, vertex, n, m, root, tree, length, accepted, sum, greatest, first).
 * - A table is a pointer and then a length, which counts elements. The pointer must be valid for that
 *   many; with length 0 it may be NULL. A byte buffer may stand at any address, a table of numbers must
 *   be aligned as its type asks. A pointer to a single result is not NULL.
 * - A table that is filled and a single result overlap nothing else that the call is given. Tables that
 *   are only read may overlap each other: mu and nu may be one table.
 * - An answer table may be longer than is asked; what is past its answer is never written.
 * - A call keeps nothing between calls, allocates nothing and writes nothing but its results, so that
 *   several threads may call at once, each with results of its own.
 */
#ifndef MOVER_H
#define MOVER_H

#ifndef __cplusplus
#include <stdbool.h>
#endif
#include <stddef.h>
#include <stdint.h>

#define MOVER_VERSION 303 /* 0.3.3: major * 10000 + minor * 100 + patch */

#define MOVER_MAX_VERTICES 64
#define MOVER_MAX_EDGES 512
#define MOVER_MAX_LENGTH 65535
#define MOVER_MAX_TOTAL 16777216
#define MOVER_NO_VERTEX 64    /* what stands for no vertex: mover_nearest_vertex, mover_tree_parent */
#define MOVER_TALLY_PLACES 24 /* of the tally of mover_report: a place for each number from 0 to 23 */

/* Bytes of stack that each call uses at most, whatever it is given: what was measured, and room for the
 * dynamic linker, which may look up memcpy or memset at the first call. A thread has needs of its own
 * besides; one that was made with MOVER_THREAD_STACK bytes can make every call. */
#define MOVER_THREAD_STACK 65536
#define MOVER_STACK_DISTANCES 8192
#define MOVER_STACK_DISTANCES_OF_RECORDS 20480
#define MOVER_STACK_EVALUATE 16384
#define MOVER_STACK_IS_OPTIMAL 32768
#define MOVER_STACK_WRITE_PAGE 28672
#define MOVER_STACK_SOLVE 16384
#define MOVER_STACK_MARK_ANCESTORS 8192
#define MOVER_STACK_VERTICES_WITHIN 16384
#define MOVER_STACK_NEAREST_VERTEX 16384
#define MOVER_STACK_READ 8192
#define MOVER_STACK_WRITE_IMAGE 8192
#define MOVER_STACK_REWRITE 16384
#define MOVER_STACK_TO_AMOUNTS 8192
#define MOVER_STACK_TO_WEIGHTS 8192
#define MOVER_STACK_TREE 8192 /* each of mover_tree_new, _depth, _parent, _subtree */
#define MOVER_STACK_RUN 40960
#define MOVER_STACK_REPORT 40960

#ifdef __cplusplus
extern "C" {
#endif

/* The numbers that calls return. Checks run in the order 11, 12, 13 and then 1 to 10; each call says where
 * it stops. mover_write_image has 1, 2 and 13, in this order, the calls on weights 2, 15 and 16, and the
 * calls from a start vertex end with 17, after 5 or 6. In mover_report 14 comes first, before 2. The first
 * check that fails gives the number. */
enum {
  MOVER_OK = 0,
  MOVER_REFUSED_VERTEX_COUNT = 1,        /* n is 0 or above 64 */
  MOVER_REFUSED_TABLE_SIZE = 2,          /* there are more than 512 edges, the edge lists are unequal in
                                            length, a painting (mu, nu, amounts) or given parents are not n
                                            long, or an answer table, a tally too, or the buffer for a record,
                                            an image or a page is too short */
  MOVER_REFUSED_EDGE_ORDER = 3,          /* an edge has b >= n or a >= b, or is not after its forerunner */
  MOVER_REFUSED_EDGE_LENGTH = 4,         /* a length is above 65,535: no image gives this */
  MOVER_REFUSED_NOT_CONNECTED = 5,       /* some vertex cannot be reached from vertex 0 */
  MOVER_REFUSED_TOTAL_TOO_LARGE = 6,     /* a total is above 16,777,216 */
  MOVER_REFUSED_TOTALS_DIFFER = 7,       /* the totals of mu and nu differ */
  MOVER_REFUSED_TREE_PARENTS = 8,        /* the root or a parent is >= n, the root's parent is another vertex,
                                            or a second vertex is its own parent */
  MOVER_REFUSED_TREE_EDGE = 9,           /* a vertex and its parent share no edge */
  MOVER_REFUSED_TREE_CYCLE = 10,         /* a chain of parents misses the root */
  MOVER_REFUSED_IMAGE_SIZE = 11,         /* the image has under 36 or over 65,536 bytes */
  MOVER_REFUSED_SECTION_PLACE = 12,      /* a section starts before byte 36 or before its forerunner's end, or
                                            ends past the image */
  MOVER_REFUSED_SECTION_LENGTH = 13,     /* byte 1 is not 0, or a section's length does not fit n and m; in
                                            mover_write_image: an end, the root or a parent is above 255, a
                                            length above 65,535 or an amount above 4,294,967,295 */
  MOVER_REFUSED_SEQUENCE_DIRECTORY = 14, /* the reel ends before its count or its directory does, or a pair
                                            starts inside the directory or before its forerunner's end, or
                                            ends past the reel */
  MOVER_REFUSED_WEIGHT_RANGE = 15,       /* a weight is below 0, above 1 or no number, or an amount that is to
                                            be a weight is above 16,777,216 */
  MOVER_REFUSED_WEIGHT_GRAINS = 16,      /* a weight is no whole number of grains */
  MOVER_REFUSED_START_VERTEX = 17        /* the start is no vertex: it is not below n */
};

/* A number as a line of text. */
static inline const char *mover_refusal_text(uint32_t number) {
  static const char *const texts[18] = {
      "accepted",
      "the number of vertices is 0 or above 64",
      "there are more than 512 edges, or a table has the wrong length",
      "an edge has ends that are no rising pair of vertices, or is out of order",
      "an edge has a length above 65535",
      "some vertex cannot be reached from vertex 0",
      "a total is above 16777216",
      "the two totals differ",
      "the root or a parent is no vertex, the root has another parent, or a second vertex is its own parent",
      "a vertex and its parent share no edge",
      "a chain of parents misses the root",
      "the image has under 36 or over 65536 bytes",
      "a section of the image is out of order or out of bounds",
      "byte 1 of the image is not 0, a section has the wrong length, or a number is too large for an image",
      "the reel is shorter than its directory, or an image in it is out of order or out of bounds",
      "a weight is below 0, above 1 or no number, or an amount is above 16777216",
      "a weight is no whole number of grains",
      "the start is no vertex",
  };
  return number < 18 ? texts[number] : "no such number";
}

/* ---- Calls over tables (libhost_calls.a)
 *
 * Edges are three lists of one length m, at most 512: edge e joins the vertices a[e] < b[e] and is
 * lengths[e] long. They stand strictly rising by (a, b). mu and nu have n amounts each. A tree is a root
 * and n parents; the root is its own parent, and each other vertex shares an edge with its parent.
 * A table of n x n numbers has row i from place i * n.
 */

/* One edge, for calls that take edges as records. */
typedef struct mover_edge {
  uint32_t a, b, length;
} mover_edge;

/* All distances: fills the first n x n places of `out`, which has at least so many, with the least length
 * over all paths from i (row) to j (column). Refuses by 1 to 5. */
uint32_t mover_distances(size_t n, const uint32_t *a, size_t a_len, const uint32_t *b, size_t b_len,
                         const uint32_t *lengths, size_t lengths_len, uint32_t *out, size_t out_len);

/* The same over a list of records. */
uint32_t mover_distances_of_records(size_t n, const mover_edge *edges, size_t edges_len, uint32_t *out,
                                    size_t out_len);

/* Evaluates a given tree. mu, nu and parents are n long.
 *
 *   imbalance  at least n: mu - nu, summed over the vertices below each vertex
 *   potential  at least n: over the edges from a vertex up to the root, the sum of the lengths, each with
 *              the sign of the imbalance below it, none where that is 0; 0 at the root
 *   plan       at least n x n: amounts from (row) and to (column)
 *   cost       over the edges of the tree, the sum of length times |imbalance|: what the plan costs on it
 *   moves      the number of positive entries of the plan off its diagonal
 *
 * Refuses by 1 to 10. */
uint32_t mover_evaluate(size_t n, const uint32_t *a, size_t a_len, const uint32_t *b, size_t b_len,
                        const uint32_t *lengths, size_t lengths_len, const uint64_t *mu, size_t mu_len,
                        const uint64_t *nu, size_t nu_len, size_t root, const uint32_t *parents,
                        size_t parents_len, int32_t *imbalance, size_t imbalance_len, int32_t *potential,
                        size_t potential_len, uint32_t *plan, size_t plan_len, uint64_t *cost,
                        uint32_t *moves);

/* Judges a given tree: `optimal` becomes 1 if no spanning tree of the graph costs less, else 0. mu, nu and
 * parents are n long. Refuses by 1 to 10, and then `optimal` is 0. */
uint32_t mover_is_optimal(size_t n, const uint32_t *a, size_t a_len, const uint32_t *b, size_t b_len,
                          const uint32_t *lengths, size_t lengths_len, const uint64_t *mu, size_t mu_len,
                          const uint64_t *nu, size_t nu_len, size_t root, const uint32_t *parents,
                          size_t parents_len, uint32_t *optimal);

/* Writes a page: a given tree as text, one line for each vertex. mu, nu and parents are n long.
 *
 *   buffer     at least MOVER_PAGE_SIZE(n) bytes; MOVER_PAGE_MAX are always enough
 *   length     the bytes filled: MOVER_PAGE_SIZE(n)
 *
 * The root's line comes first. The line of a vertex is followed by those of its children, by rising number,
 * each child with its whole subtree before the following child. A line has MOVER_PAGE_LINE bytes of ASCII;
 * their columns count from 0.
 *
 *   0 to 67    as many spaces as the vertex has depth (edges up to the root), its number in two digits, 00
 *              to 63, and spaces up to column 68
 *   68 to 78   its imbalance, as mover_evaluate gives it
 *   79 to 89   its potential, as mover_evaluate gives it
 *   90 to 94   spaces
 *   95         a newline (10)
 *
 * Imbalance and potential are decimal and right-aligned with spaces before them, without leading zeros or a
 * plus sign, a minus sign straight before the digits. No byte 0 is written. Refuses by 1 to 10, and then
 * `length` is 0. */
uint32_t mover_write_page(size_t n, const uint32_t *a, size_t a_len, const uint32_t *b, size_t b_len,
                          const uint32_t *lengths, size_t lengths_len, const uint64_t *mu, size_t mu_len,
                          const uint64_t *nu, size_t nu_len, size_t root, const uint32_t *parents,
                          size_t parents_len, uint8_t *buffer, size_t buffer_len, size_t *length);

#define MOVER_PAGE_LINE 96
#define MOVER_PAGE_SIZE(n) (MOVER_PAGE_LINE * (size_t)(n))
#define MOVER_PAGE_MAX 6144 /* MOVER_PAGE_SIZE(64): enough for every page */

/* The best answer. mu and nu are n long.
 *
 *   parents    at least n: a best spanning tree with root 0
 *   potential  at least n: 0 at vertex 0; along no edge does it change by more than the edge's length, and
 *              the sum of potential times (mu - nu) is the cost, so that no plan is cheaper
 *   plan       at least n x n: the plan of that tree, amounts from (row) and to (column)
 *   cost       the least cost of all plans and of all spanning trees
 *   moves      the number of positive entries of the plan off its diagonal
 *
 * Refuses by 1 to 7. */
uint32_t mover_solve(size_t n, const uint32_t *a, size_t a_len, const uint32_t *b, size_t b_len,
                     const uint32_t *lengths, size_t lengths_len, const uint64_t *mu, size_t mu_len,
                     const uint64_t *nu, size_t nu_len, uint32_t *parents, size_t parents_len,
                     int32_t *potential, size_t potential_len, uint32_t *plan, size_t plan_len,
                     uint64_t *cost, uint32_t *moves);

/* Climbs from vertex y of a tree up to its root: sets bit y in masks[x] for each x that y is below, and
 * changes no other bit. y is below x if x is y or is met going from y up through the parents. A climb from
 * each vertex, in any order, on words of 0 gives the words of mover_tree_subtree.
 *
 *   parents    n long; no edges are looked at
 *   masks      at least n: a word for each vertex
 *
 * If y >= n, the checks run all the same, and nothing changes. Refuses by 1, 2, 8 and 10. */
uint32_t mover_mark_ancestors(size_t n, size_t root, const uint32_t *parents, size_t parents_len, size_t y,
                              uint64_t *masks, size_t masks_len);

/* The vertices within reach of a start: `mask` becomes the word with bit v for each vertex v whose distance
 * from `start` is at most `reach`, the start itself among them. Distances are least lengths over all paths,
 * so what is welded to a vertex within reach is within reach. Refuses by 1 to 5, then by 17 if start >= n; a
 * refusal makes `mask` 0. */
uint32_t mover_vertices_within(size_t n, const uint32_t *a, size_t a_len, const uint32_t *b, size_t b_len,
                               const uint32_t *lengths, size_t lengths_len, size_t start, uint32_t reach,
                               uint64_t *mask);

/* The nearest vertex with paint: `vertex` becomes that one of the vertices with a positive amount whose
 * distance from `start` is least, the lowest of those that are equally near, or MOVER_NO_VERTEX if no amount
 * is positive. The start itself counts, at distance 0 like what is welded to it. `amounts` is one painting, n
 * long. Refuses by 1 to 5, by 6 if its total is above 16,777,216, then by 17 if start >= n; a refusal makes
 * `vertex` 0. */
uint32_t mover_nearest_vertex(size_t n, const uint32_t *a, size_t a_len, const uint32_t *b, size_t b_len,
                              const uint32_t *lengths, size_t lengths_len, size_t start,
                              const uint64_t *amounts, size_t amounts_len, uint32_t *vertex);

/* Reads an image, described below, into tables, and judges nothing but its form.
 *
 *   a, b, lengths  at least m each: the edges
 *   mu, nu         at least n each: the amounts
 *   parents        at least n, even for an image without a tree: then it stays as it was
 *   n, m           the numbers of vertices and edges
 *   root, tree     the root and 1; without a tree 0 and 0
 *
 * The lists may be longer, and of unequal length. Refuses by 11, 12, 13, 1 and 2. */
uint32_t mover_read(const uint8_t *image, size_t image_len, uint32_t *a, size_t a_len, uint32_t *b,
                    size_t b_len, uint32_t *lengths, size_t lengths_len, uint64_t *mu, size_t mu_len,
                    uint64_t *nu, size_t nu_len, uint32_t *parents, size_t parents_len, size_t *n, size_t *m,
                    size_t *root, uint32_t *tree);

/* Writes an image, described below, with its sections back to back from byte 36 on. mu and nu are n long.
 *
 *   tree           whether the image has a tree
 *   root, parents  the tree, with n parents. Without a tree neither these nor parents_len are looked at: 0,
 *                  NULL and 0 will do
 *   buffer         at least as long as the image; MOVER_IMAGE_WRITTEN_MAX bytes are always enough
 *   length         the image's length: MOVER_IMAGE_SIZE(n, m), and n + 1 more with a tree
 *
 * Two images are equal byte for byte exactly if n, the edges, mu, nu and `tree` are, and with a tree root
 * and parents.
 * Refuses by 1, then by 2, then by 13 if an end, the root or a parent is above 255, a length above 65,535 or
 * an amount above 4,294,967,295. Nothing else is examined: edges out of order, unequal totals or parents
 * that make no tree are written as they are, and are for the calls that are given the image. */
uint32_t mover_write_image(size_t n, const uint32_t *a, size_t a_len, const uint32_t *b, size_t b_len,
                           const uint32_t *lengths, size_t lengths_len, const uint64_t *mu, size_t mu_len,
                           const uint64_t *nu, size_t nu_len, bool tree, size_t root, const uint32_t *parents,
                           size_t parents_len, uint8_t *buffer, size_t buffer_len, size_t *length);

/* Writes an image anew: what `image` holds goes into `buffer` as mover_write_image writes it. Gaps and their
 * contents are gone, so that images which hold the same become equal byte for byte.
 *
 *   buffer         at least as long as the result; image_len bytes, or MOVER_IMAGE_WRITTEN_MAX, are always
 *                  enough
 *   length         the result's length, at most image_len
 *
 * Reading the result gives what reading `image` gives; rewriting the result changes no byte. Refuses by 11,
 * 12, 13, 1 and 2. */
uint32_t mover_rewrite(const uint8_t *image, size_t image_len, uint8_t *buffer, size_t buffer_len,
                       size_t *length);

/* Reports on a sequence (reel) of images, described below. An image's number is what mover_run returns for
 * it with room enough for its record. The image is accepted if that is MOVER_OK; its cost is then the one in
 * the record: that of its tree or, without a tree, the least.
 *
 *   tally      at least MOVER_TALLY_PLACES: place k becomes how many images have the number k, so place 0
 *              how many are accepted
 *   accepted   the same as place 0
 *   sum        the sum of the accepted images' costs, exactly: it is below 2^62
 *   greatest   the greatest of these costs
 *   first      the first accepted image that has the greatest cost; images count from 0
 *
 * If no image is accepted, sum and greatest are 0 and `first` is the count of the images. Refused images are
 * only counted. Refuses by 14 if the count or a pair is not as described below, then by 2 if the tally is too
 * short; a refusal makes accepted, sum, greatest and first 0. */
uint32_t mover_report(const uint8_t *reel, size_t reel_len, uint32_t *tally, size_t tally_len,
                      uint32_t *accepted, uint64_t *sum, uint64_t *greatest, size_t *first);

/* ---- Weights (libhost_calls.a)
 *
 * A weight is a float from 0 to 1, of 32 bits as IEEE 754 has them; a weight of 1 is 16,777,216 grains. Since a
 * total is at most so many, the weights of a painting sum to at most 1.
 * A list may have any length, 0 and above 64 too; the answer list is at least as long, and a longer one keeps
 * its rest. Nothing is rounded: each amount's weight gives the amount again.
 * Subnormal weights count by their value as long as the processor's denormals-are-zero mode is off, as it is
 * when a program starts.
 */

/* The amounts of weights: amounts[i] becomes weights[i] times 16,777,216, exactly; negative zero gives 0.
 * Refuses by 2 if `amounts` is shorter than `weights`; by 15 if some weight is below 0, above 1 or no number;
 * then by 16 if some weight is no whole number of grains, as 0.1f is none. */
uint32_t mover_to_amounts(const float *weights, size_t weights_len, uint64_t *amounts, size_t amounts_len);

/* The weights of amounts: weights[i] becomes amounts[i] divided by 16,777,216, exactly; 0 gives positive zero.
 * Refuses by 2 if `weights` is shorter than `amounts`; then by 15 if some amount is above 16,777,216. */
uint32_t mover_to_weights(const uint64_t *amounts, size_t amounts_len, float *weights, size_t weights_len);

/* ---- Trees by value (libhost_calls.a) */

typedef struct mover_tree {
  size_t n;
  size_t root;
  uint32_t parents[MOVER_MAX_VERTICES];
} mover_tree;

/* The tree with a root and a list of parents. Nothing is examined: of `parents` the first n places are
 * taken (the first 64, and no more than there are), and every other place holds 0. */
mover_tree mover_tree_new(size_t n, size_t root, const uint32_t *parents, size_t parents_len);

/* What a tree tells of vertex v. If v >= n, n is above 64, the root or a parent is >= n, the root's parent
 * is another vertex, a second vertex is its own parent, or a chain of parents misses the root, these are
 * 0, 64 and 0. No edges are looked at. */
uint32_t mover_tree_depth(mover_tree tree, size_t v);   /* the number of edges from v up to the root */
uint32_t mover_tree_parent(mover_tree tree, size_t v);  /* the parent of v; the root's is the root */
uint64_t mover_tree_subtree(mover_tree tree, size_t v); /* bit y for each vertex y that is v or is below it */

/* ---- One image in, one record out (both archives)
 *
 * An image with a tree is evaluated, one without a tree gets the best answer. Returns MOVER_OK and fills
 * the first MOVER_RECORD_SIZE(n) bytes of `record`, or returns a number and leaves `record` as it was.
 * Checks run in the order 11, 12, 13 and then 1 to 10; without a tree they stop after 7. 2 is "m above 512
 * or the record buffer too short"; 4 is never given, since an image has two bytes for a length. */
uint32_t mover_run(const uint8_t *image, size_t image_len, uint8_t *record, size_t record_len);

/* The image.
 *
 *   byte 0       n
 *   byte 1       0
 *   bytes 2-3    m
 *   bytes 4-35   four pairs of 32-bit offset and length, for the sections
 *                  edges   m times: a, b (one byte each, a < b), length (two bytes); rising by (a, b)
 *                  mu      n times four bytes
 *                  nu      n times four bytes
 *                  tree    empty, or the root and n parents, one byte each; the root is its own parent
 *
 * The sections come in this order from byte 36 on. Gaps before, between and after them are ignored.
 * mover_write_image and mover_rewrite leave none: the edges start at byte 36 and each further section, an
 * empty tree too, where the one before it ends.
 */
#define MOVER_IMAGE_HEADER 36
#define MOVER_IMAGE_MAX 65536 /* the most bytes that an image may have, gaps included */

/* Bytes of an image with its sections back to back; with a tree, add n + 1. */
#define MOVER_IMAGE_SIZE(n, m) (MOVER_IMAGE_HEADER + 4 * (size_t)(m) + 8 * (size_t)(n))
#define MOVER_IMAGE_WRITTEN_MAX 2661 /* MOVER_IMAGE_SIZE(64, 512) + 65: enough for every written image */

/* The sequence (reel) of images, for mover_report.
 *
 *   bytes 0-1    the count of the images
 *   from byte 2  the directory: for each image a pair of 32-bit offset and length, pair i at byte 2 + 8 * i
 *
 * Offsets count from the reel's first byte. The images come in the order of their pairs: none starts before
 * byte MOVER_REEL_DIRECTORY(count), where the directory ends, or before its forerunner's end, and none ends
 * past the reel. Each pair is an image: one of length 0 is an image of no bytes, and must be in its place
 * too. Gaps before, between and after the images are ignored. A reel may have any size.
 */
#define MOVER_REEL_DIRECTORY(count) (2 + 8 * (size_t)(count))

/* The record, for n vertices:
 *
 *   MOVER_AT_COST          cost, 8 bytes
 *   MOVER_AT_MOVES         number of positive entries of the plan off its diagonal, 4 bytes
 *   MOVER_AT_ROOT          root, one byte; 0 in a best answer
 *   MOVER_AT_PARENTS       n parents, one byte each; the root is its own parent
 *   MOVER_AT_POTENTIAL(n)  n potentials, 4 bytes each, signed
 *   MOVER_AT_PLAN(n)       n x n amounts, 4 bytes each: row from, column to
 *
 * They are those of mover_evaluate, or of mover_solve.
 */
#define MOVER_AT_COST 0
#define MOVER_AT_MOVES 8
#define MOVER_AT_ROOT 12
#define MOVER_AT_PARENTS 13
#define MOVER_AT_POTENTIAL(n) (13 + (size_t)(n))
#define MOVER_AT_PLAN(n) (13 + 5 * (size_t)(n))
#define MOVER_RECORD_SIZE(n) (13 + 5 * (size_t)(n) + 4 * (size_t)(n) * (size_t)(n))
#define MOVER_RECORD_MAX 16717 /* MOVER_RECORD_SIZE(64): enough for every image */

/* Readers of the record. */

static inline uint32_t mover_u32(const uint8_t *at) {
  return (uint32_t)at[0] | (uint32_t)at[1] << 8 | (uint32_t)at[2] << 16 | (uint32_t)at[3] << 24;
}

static inline uint64_t mover_cost(const uint8_t *record) {
  return (uint64_t)mover_u32(record) | (uint64_t)mover_u32(record + 4) << 32;
}

static inline uint32_t mover_moves(const uint8_t *record) {
  return mover_u32(record + MOVER_AT_MOVES);
}

static inline unsigned mover_root(const uint8_t *record) {
  return record[MOVER_AT_ROOT];
}

static inline unsigned mover_parent(const uint8_t *record, size_t x) {
  return record[MOVER_AT_PARENTS + x];
}

static inline int32_t mover_potential(const uint8_t *record, size_t n, size_t x) {
  return (int32_t)mover_u32(record + MOVER_AT_POTENTIAL(n) + 4 * x);
}

static inline uint32_t mover_amount(const uint8_t *record, size_t n, size_t from, size_t to) {
  return mover_u32(record + MOVER_AT_PLAN(n) + 4 * (from * n + to));
}

#ifdef __cplusplus
}
#endif

#endif
