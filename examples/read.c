/* Decodes the text of its first argument, base64 with line breaks allowed, and prints answer, position, count and bytes. */
#include <inttypes.h>
#include <stdio.h>
#include <string.h>
#include "zembrulish.h"

int main(int argc, char **argv) {
    const uint8_t *text = (const uint8_t *)(argc > 1 ? argv[1] : "Zm9vYg==");
    size_t len = strlen((const char *)text);
    uint8_t out[64];

    uint32_t answer = zem_read(0, 1, text, len, out, sizeof out);
    uint64_t position = zem_read_position(0, 1, text, len, sizeof out);
    uint64_t count = zem_read_count(0, 1, text, len, sizeof out);
    printf("%" PRIu32 " %" PRIu64 " %" PRIu64 "\n", answer, position, count);
    if (answer != 3) printf("%.*s\n", (int)count, (const char *)out);
    return answer != 0;
}
