/* refused TEXT: the refused line of a file. */
#include "splicereel.h"
#include <stdio.h>

int main(int count, char **words)
{
    static uint8_t text[1 << 20];
    size_t part[SPLICEREEL_PART];

    FILE *file = count == 2 ? fopen(words[1], "rb") : NULL;
    if (file == NULL) {
        fprintf(stderr, "usage: refused TEXT\n");
        return 1;
    }
    size_t length = fread(text, 1, sizeof text, file);
    fclose(file);

    uint32_t refused = splicereel_refused_line(text, length, SPLICEREEL_MAX_NETWORK, part);
    if (refused == SPLICEREEL_NO_REFUSED_LINE) {
        printf("in order\n");
        return 0;
    }
    printf("refusal %u: %s\n", (unsigned)refused, splicereel_refusal_text(refused));
    fwrite(text + part[SPLICEREEL_PART_START], 1, part[SPLICEREEL_PART_LENGTH], stdout);
    printf("\n");
    return 2;
}
