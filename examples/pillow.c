/* Straightens the pillow, two triangles over the same three points, and prints its tangents. `sh examples/run.sh` builds and runs
 * it. */
#include "tangents.h"
#include <stdio.h>
#include <string.h>

int main(void)
{
    /* start, end, pair and row of each halfedge; straightening does not read the row */
    const int32_t h[24] = {0, 1, 5, 0, 1, 2, 4, 1, 2, 0, 3, 2, 0, 2, 2, 3, 2, 1, 1, 4, 1, 0, 0, 5};
    const double pos[9] = {0, 0, 0, 3, 0, 0, 0, 6, 0};
    double t[24] = {0};
    size_t answer[4];

    tangents_linearize_flat_tangents(6, 3, h, 24, pos, 9, t, 24, answer, 4);
    if (answer[0] != 0) {
        printf("refused %zu %zu\n", answer[0], answer[1]);
        return 1;
    }
    printf("tangents 6\n");
    for (int e = 0; e < 6; e++) {
        uint64_t bits[4];
        memcpy(bits, t + 4 * e, sizeof bits);
        printf("%d %016lx %016lx %016lx %016lx\n", e, bits[0], bits[1], bits[2], bits[3]);
    }
    return 0;
}
