/* Looks a name up in a file that holds one directory block: lookup FILE NAME. Exit status: 0 found, 1 refused, 2 no such call or file. */
#include <errno.h>
#include <inttypes.h>
#include <stdio.h>
#include <string.h>
#include "pelunziwa.h"

int main(int argc, char **argv)
{
    static uint8_t block[65537];    /* one byte more than the longest block, so that a longer file is refused */
    if (argc != 3) return fprintf(stderr, "usage: lookup FILE NAME\n"), 2;
    FILE *file = fopen(argv[1], "rb");
    if (!file) return fprintf(stderr, "lookup: %s: %s\n", argv[1], strerror(errno)), 2;
    size_t len = fread(block, 1, sizeof block, file);
    if (ferror(file)) return fprintf(stderr, "lookup: %s: %s\n", argv[1], strerror(errno)), 2;
    fclose(file);
    pzw_found found = pzw_block_lookup(block, len, (const uint8_t *)argv[2], strlen(argv[2]));
    if (found.refusal) printf("refused %" PRIu32 ": %s\n", found.refusal, pzw_sentence(found.refusal));
    else printf("number %" PRIu64 ", tag %" PRIu64 ", names compared: %" PRIu64 "\n", found.number, found.tag, found.compared);
    return found.refusal != 0;
}
