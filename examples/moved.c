/* moved TEXT: the network of a file, which is of edition 02, as edition 03 and back. */
#include "splicereel.h"
#include <stdio.h>
#include <string.h>

int main(int count, char **words)
{
    /* A byte more than the longest text that is accepted: a longer file is refused. */
    static uint8_t text[SPLICEREEL_MAX_TEXT + 1];
    static uint8_t net[SPLICEREEL_MAX_NETWORK], up[SPLICEREEL_MAX_NETWORK], back[SPLICEREEL_MAX_NETWORK];
    uint32_t told[SPLICEREEL_TOLD] = { 0 };

    FILE *file = count == 2 ? fopen(words[1], "rb") : NULL;
    if (file == NULL) {
        fprintf(stderr, "usage: moved TEXT\n");
        return 2;
    }
    size_t length = fread(text, 1, sizeof text, file);
    fclose(file);

    uint32_t refused = splicereel_read(text, length, net, sizeof net, told);
    if (refused != 0) {
        fprintf(stderr, "line %u: %s\n", (unsigned)told[SPLICEREEL_READ_LINE], splicereel_refusal_text(refused));
        return 2;
    }
    uint32_t bytes = told[SPLICEREEL_READ_BYTES];
    refused = splicereel_move_up(net, bytes, up, sizeof up, told);
    uint32_t more = told[SPLICEREEL_MOVE_BYTES];
    if (refused == 0)
        refused = splicereel_move_back(up, more, back, sizeof back, told);
    if (refused != 0) {
        fprintf(stderr, "%s\n", splicereel_refusal_text(refused));
        return 2;
    }
    int same = told[SPLICEREEL_MOVE_BYTES] == bytes && memcmp(net, back, bytes) == 0;
    printf("edition %02u: %u bytes\n", (unsigned)net[1], (unsigned)bytes);
    printf("edition %02u: %u bytes\n", (unsigned)up[1], (unsigned)more);
    printf("edition %02u: %s\n", (unsigned)back[1], same ? "the first bytes" : "other bytes");
    return same ? 0 : 1;
}
