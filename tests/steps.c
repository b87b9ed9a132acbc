/* One least split, for counting its instructions: tests/calls does. A proof says that the answer is right, not that it came soon; the rounds that
   stop early leave the same answer as those that do not.
     steps ring|dense */
#include "paltiehko.h"

#include <stdio.h>
#include <string.h>

enum { NODES = 128, ROWS = 2048 };

int main(int count, char **words)
{
    static uint16_t a[ROWS], b[ROWS], w[ROWS];
    size_t rows = 0;
    uint64_t answer[8];
    if (count == 2 && strcmp(words[1], "ring") == 0) {
        for (; rows < NODES; rows++) {
            a[rows] = rows;
            b[rows] = (rows + 1) % NODES;
            w[rows] = 1;
        }
    } else if (count == 2 && strcmp(words[1], "dense") == 0) {
        uint32_t state = 2026;
        for (; rows < ROWS; rows++) {
            state = state * 1664525 + 1013904223;
            a[rows] = state >> 25;
            b[rows] = (a[rows] + 1 + (state >> 9) % (NODES - 1)) % NODES;
            w[rows] = 1;
        }
    } else {
        fputs("steps: say ring or dense\n", stderr);
        return 2;
    }
    paltiehko_least(NODES, a, rows, b, rows, w, rows, answer);
    printf("%llu %llu\n", (unsigned long long)answer[0], (unsigned long long)answer[2]);
    return answer[0] != 0;
}
