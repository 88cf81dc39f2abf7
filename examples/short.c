/* short TEXT FROM TO TOLERANCE: a shortest route through the town of a file. */
#include "splicereel.h"
#include <stdio.h>
#include <stdlib.h>

int main(int count, char **words)
{
    /* A byte more than the longest text that is accepted: a longer file is refused. */
    static uint8_t text[SPLICEREEL_MAX_TEXT + 1], net[SPLICEREEL_MAX_NETWORK];
    static uint32_t best[SPLICEREEL_MAX_RUNS], previous[SPLICEREEL_MAX_RUNS];
    static uint16_t runs[SPLICEREEL_MAX_RUNS];
    uint32_t told[SPLICEREEL_TOLD] = { 0 };

    FILE *file = count == 5 ? fopen(words[1], "rb") : NULL;
    if (file == NULL) {
        fprintf(stderr, "usage: short TEXT FROM TO TOLERANCE\n");
        return 2;
    }
    size_t length = fread(text, 1, sizeof text, file);
    fclose(file);

    uint32_t refused = splicereel_read(text, length, net, sizeof net, told);
    if (refused != 0) {
        fprintf(stderr, "line %u: %s\n", (unsigned)told[SPLICEREEL_READ_LINE], splicereel_refusal_text(refused));
        return 2;
    }
    refused = splicereel_route(net, told[SPLICEREEL_READ_BYTES], strtoul(words[2], NULL, 10), strtoul(words[3], NULL, 10),
        strtoul(words[4], NULL, 10), best, SPLICEREEL_MAX_RUNS, previous, SPLICEREEL_MAX_RUNS,
        runs, SPLICEREEL_MAX_RUNS, 0, told);
    if (refused != 0) {
        fprintf(stderr, "%s\n", splicereel_refusal_text(refused));
        return 2;
    }
    if (told[SPLICEREEL_ROUTE_FOUND] == 0) {
        printf("none\n");
        return 1;
    }
    for (uint32_t i = 0; i < told[SPLICEREEL_ROUTE_COUNT]; i++)
        printf("segment %d from %s\n", runs[i] / 2, runs[i] % 2 == 0 ? "A to B" : "B to A");
    printf("%u feet, level %u\n", (unsigned)told[SPLICEREEL_ROUTE_FEET], (unsigned)told[SPLICEREEL_ROUTE_LEVEL]);
    return 0;
}
