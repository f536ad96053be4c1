/* The entry alone, for hosts that link libweight_mover.a: the best answer to an image. */
#include "mover.h"

#include <inttypes.h>
#include <stdio.h>

enum { N = 4, M = 4 };

/* A ring of four edges, each of length 1; 4 grains are to go from vertex 0 to vertex 3. */
static const uint8_t image[MOVER_IMAGE_SIZE(N, M)] = {
    N, 0, M, 0,                                     /* n, 0, and m in two bytes */
    36, 0, 0, 0, 16, 0, 0, 0,                       /* the edges: offset and length */
    52, 0, 0, 0, 16, 0, 0, 0,                       /* mu */
    68, 0, 0, 0, 16, 0, 0, 0,                       /* nu */
    84, 0, 0, 0, 0, 0, 0, 0,                        /* no tree */
    0, 1, 1, 0, 0, 3, 1, 0, 1, 2, 1, 0, 2, 3, 1, 0, /* the edges: a, b, and the length in two bytes */
    4, 0, 0, 0, 0, 0, 0, 0, 0, 0, 0, 0, 0, 0, 0, 0, /* mu: 4 on vertex 0, four bytes each */
    0, 0, 0, 0, 0, 0, 0, 0, 0, 0, 0, 0, 4, 0, 0, 0, /* nu: 4 on vertex 3 */
};

int main(void) {
  uint8_t record[MOVER_RECORD_SIZE(N)];
  uint32_t number = mover_run(image, sizeof image, record, sizeof record);
  if (number != MOVER_OK) {
    printf("refused %" PRIu32 ": %s\n", number, mover_refusal_text(number));
    return 1;
  }
  printf("best %" PRIu64 ", %" PRIu32 " move: %" PRIu32 " from 0 to 3\n", mover_cost(record), mover_moves(record),
         mover_amount(record, N, 0, 3));
  return 0;
}
