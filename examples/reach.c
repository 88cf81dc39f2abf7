/* reach TEXT FROM TOLERANCE FEET: what is in reach of a node in the town of a file, and the nearest of it. */
#include "splicereel.h"
#include <stdio.h>
#include <stdlib.h>

int main(int count, char **words)
{
    /* A byte more than the longest text that is accepted: a longer file is refused. */
    static uint8_t text[SPLICEREEL_MAX_TEXT + 1], net[SPLICEREEL_MAX_NETWORK], marks[SPLICEREEL_MAX_NODES];
    static uint32_t best[SPLICEREEL_MAX_RUNS], previous[SPLICEREEL_MAX_RUNS], list[SPLICEREEL_MAX_LIST];
    uint32_t told[SPLICEREEL_TOLD] = { 0 };

    FILE *file = count == 5 ? fopen(words[1], "rb") : NULL;
    if (file == NULL) {
        fprintf(stderr, "usage: reach TEXT FROM TOLERANCE FEET\n");
        return 2;
    }
    size_t length = fread(text, 1, sizeof text, file);
    fclose(file);

    uint32_t refused = splicereel_read(text, length, net, sizeof net, told);
    if (refused != 0) {
        fprintf(stderr, "line %u: %s\n", (unsigned)told[SPLICEREEL_READ_LINE], splicereel_refusal_text(refused));
        return 2;
    }
    size_t bytes = told[SPLICEREEL_READ_BYTES];
    size_t from = strtoul(words[2], NULL, 10), tolerance = strtoul(words[3], NULL, 10);
    refused = splicereel_reach_map(net, bytes, from, tolerance, strtoul(words[4], NULL, 10),
        best, SPLICEREEL_MAX_RUNS, previous, SPLICEREEL_MAX_RUNS, list, SPLICEREEL_MAX_LIST, told);
    if (refused != 0) {
        fprintf(stderr, "%s\n", splicereel_refusal_text(refused));
        return 2;
    }
    for (uint32_t i = 0; i < told[SPLICEREEL_MAP_COUNT]; i++) {
        uint32_t node = list[2 * i], feet = list[2 * i + 1];
        printf("node %u: %u feet\n", (unsigned)node, (unsigned)feet);
        marks[node] = node != from;
    }
    splicereel_nearest(net, bytes, from, tolerance, marks, SPLICEREEL_MAX_NODES,
        best, SPLICEREEL_MAX_RUNS, previous, SPLICEREEL_MAX_RUNS, told);
    if (told[SPLICEREEL_NEAREST_FOUND] == 0)
        printf("no other\n");
    else
        printf("nearest: node %u, %u feet\n", (unsigned)told[SPLICEREEL_NEAREST_NODE], (unsigned)told[SPLICEREEL_NEAREST_FEET]);
    return 0;
}
