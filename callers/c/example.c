/* Prints the verdict on a text: of the file named as argument, or of standard input. Exit status 1 where there is no
 * verdict. */
#include "jorehyi.h"

#include <stdio.h>
#include <stdlib.h>

enum { CAPACITY = 2048, CACHE_WORDS = 16384 };

static uint8_t store[CAPACITY * JOREHYI_NODE_BYTES];
static uint64_t cache[CACHE_WORDS];

/* The whole of a stream, in memory that the caller frees; null where reading or memory fails. */
static uint8_t *read_all(FILE *in, size_t *len) {
    size_t room = 4096;
    uint8_t *text = malloc(room);
    *len = 0;
    while (text != NULL) {
        *len += fread(text + *len, 1, room - *len, in);
        if (*len < room) break;
        room *= 2;
        uint8_t *larger = realloc(text, room);
        if (larger == NULL) free(text);
        text = larger;
    }
    if (text != NULL && ferror(in)) {
        free(text);
        return NULL;
    }
    return text;
}

static int judge(const uint8_t *text, size_t len) {
    uint8_t out[JOREHYI_VERDICT_BYTES] = {0};
    struct jorehyi_verdict_result result;
    enum jorehyi_status status =
        jorehyi_checked_verdict(text, len, store, sizeof store, cache, CACHE_WORDS, out, sizeof out, &result);
    if (status != JOREHYI_OK) {
        fprintf(stderr, "example: %s\n", jorehyi_status_text(status));
        return EXIT_FAILURE;
    }
    if (fwrite(out, 1, result.bytes, stdout) != result.bytes || fflush(stdout) != 0) {
        perror("example: standard output");
        return EXIT_FAILURE;
    }
    return EXIT_SUCCESS;
}

int main(int argc, char **argv) {
    FILE *in = argc > 1 ? fopen(argv[1], "rb") : stdin;
    size_t len = 0;
    uint8_t *text = in == NULL ? NULL : read_all(in, &len);
    if (text == NULL) {
        perror(argc > 1 ? argv[1] : "example: standard input");
        return EXIT_FAILURE;
    }
    int status = judge(text, len);
    free(text);
    if (in != stdin) fclose(in);
    return status;
}
