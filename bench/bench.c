/*
 * The bench program: judges card files.
 *
 *   bench CARD...
 *
 * Prints one line for each file: accepted, or refused with the refusal number
 * and the card line. Ends with 0 where all are accepted, 1 where some are
 * refused, 2 for bad usage or a file that cannot be read.
 */
#include "trial_archive.h"

#include <inttypes.h>
#include <stdio.h>
#include <stdlib.h>

enum { ALL_ACCEPTED = 0, SOME_REFUSED = 1, TROUBLE = 2 };

/* A file's bytes, in memory that the caller frees; a null pointer where it
   cannot be read. The memory is never of size 0, so that an empty card can be
   lent too. */
static uint8_t *read_file(const char *name, size_t *length)
{
    size_t room = 4096;
    uint8_t *bytes = malloc(room);
    FILE *file = fopen(name, "rb");

    *length = 0;
    while (file != NULL && bytes != NULL) {
        uint8_t *more;

        *length += fread(bytes + *length, 1, room - *length, file);
        if (*length < room) {
            break;
        }
        room *= 2;
        more = realloc(bytes, room);
        if (more == NULL) {
            free(bytes);
        }
        bytes = more;
    }
    if (file == NULL || ferror(file)) {
        free(bytes);
        bytes = NULL;
    }
    if (file != NULL) {
        fclose(file);
    }
    return bytes;
}

/* Judges one file, prints its line and answers the status that it asks for. */
static int judge(const char *name)
{
    size_t length;
    uint8_t *card = read_file(name, &length);
    uint64_t answer;

    if (card == NULL) {
        fprintf(stderr, "bench: cannot read %s\n", name);
        return TROUBLE;
    }
    answer = ta_card_check(card, length);
    free(card);
    if (answer == TA_DONE) {
        printf("%s: accepted\n", name);
        return ALL_ACCEPTED;
    }
    printf("%s: refused %" PRIu64 " at line %" PRIu64 "\n", name,
           TA_CARD_REFUSAL(answer), TA_CARD_LINE(answer));
    return SOME_REFUSED;
}

int main(int argc, char **argv)
{
    int worst = ALL_ACCEPTED;
    int i;

    if (argc < 2) {
        fprintf(stderr, "usage: bench CARD...\n");
        return TROUBLE;
    }
    for (i = 1; i < argc; i++) {
        int status = judge(argv[i]);

        if (status > worst) {
            worst = status;
        }
    }
    if (fflush(stdout) != 0) {
        fprintf(stderr, "bench: cannot write\n");
        return TROUBLE;
    }
    return worst;
}
