/*
 * A host as gateway firmware could have one.
 *
 *   firmware RECORDING [RECORDING]
 *
 * Runs each recording (n, own number, then records of 96 bytes) and prints the
 * answer and the final list; of two, also how their final lists stand to each
 * other. Ends with 0 if every run is taken, with 1 if one is refused or can't
 * be read, with 2 if called otherwise.
 */
#include "oanhvidet.h"

#include <errno.h>
#include <inttypes.h>
#include <stdio.h>
#include <stdlib.h>
#include <string.h>

enum {
    /* Bytes of n and own number. */
    START = 2,
    /* Bytes read at once. */
    PIECE = 1 << 16,
    /* Words of a call, the program's own name included. */
    ONE_RECORDING = 2,
    TWO_RECORDINGS = 3,
    /* Exit codes. */
    ENDED_BADLY = 1,
    CALLED_BADLY = 2
};

/* Bytes read from a file. */
struct bytes {
    uint8_t *at;
    size_t length;
};

/* What a run gave. */
struct outcome {
    uint64_t answer;
    uint8_t list[OANHVIDET_LIST];
};

/* Makes room for a piece more; 0 if there is none, and all stays as it is. */
static int grow(struct bytes *bytes)
{
    uint8_t *grown = realloc(bytes->at, bytes->length + PIECE);

    if (grown == NULL)
        return 0;
    bytes->at = grown;
    return 1;
}

/* Reads what is left of a file; 0 if that fails. */
static int read_all(FILE *file, struct bytes *bytes)
{
    size_t got;

    do {
        if (!grow(bytes))
            return 0;
        got = fread(bytes->at + bytes->length, 1, PIECE, file);
        bytes->length += got;
    } while (got > 0);
    return !ferror(file);
}

/* Reads a file; what it gives is the caller's to free, also if it fails. */
static int read_file(const char *path, struct bytes *bytes)
{
    FILE *file = fopen(path, "rb");
    int done;

    if (file == NULL)
        return 0;
    done = read_all(file, bytes);
    fclose(file);
    return done;
}

/* Runs a recording. One without both numbers has no start, as in `replay`. */
static void run(const struct bytes *recording, struct outcome *outcome)
{
    const uint8_t *at = recording->at;

    if (recording->length < START) {
        outcome->answer = OANHVIDET_ANSWER(OANHVIDET_START, 0);
        return;
    }
    outcome->answer = oanhvidet_run(at[0], at[1], at + START,
                                    recording->length - START,
                                    outcome->list, sizeof outcome->list);
}

static void print_outcome(const char *path, const struct outcome *outcome)
{
    size_t count = OANHVIDET_COUNT(outcome->answer);

    printf("%s: refusal %u, %zu final names\n", path,
           OANHVIDET_REFUSAL(outcome->answer), count);
    for (size_t at = 0; at < count * OANHVIDET_NAME; at++) {
        int last = at % OANHVIDET_NAME == OANHVIDET_NAME - 1;

        printf("%02x%s", outcome->list[at], last ? "\n" : "");
    }
}

/* Runs a file and prints what came of it; 0 if it can't be read or is refused. */
static int run_file(const char *path, struct outcome *outcome)
{
    struct bytes recording = { NULL, 0 };
    int done = read_file(path, &recording);

    if (done) {
        run(&recording, outcome);
        print_outcome(path, outcome);
        done = OANHVIDET_REFUSAL(outcome->answer) == OANHVIDET_TAKEN;
    } else {
        fprintf(stderr, "firmware: %s: %s\n", path, strerror(errno));
    }
    free(recording.at);
    return done;
}

static const char *in_words(unsigned relation)
{
    switch (relation) {
    case OANHVIDET_EQUAL:
        return "equal";
    case OANHVIDET_FIRST_LONGER:
        return "the first is longer and begins with the second";
    case OANHVIDET_SECOND_LONGER:
        return "the second is longer and begins with the first";
    case OANHVIDET_FORK:
        return "fork";
    default:
        return "no lists of names";
    }
}

static void print_relation(const struct outcome *a, const struct outcome *b)
{
    uint64_t code = oanhvidet_relation(
        a->list, OANHVIDET_COUNT(a->answer) * OANHVIDET_NAME,
        b->list, OANHVIDET_COUNT(b->answer) * OANHVIDET_NAME);

    printf("relation: %s, index %" PRIu64 "\n",
           in_words(OANHVIDET_RELATION(code)), OANHVIDET_INDEX(code));
}

/* Runs one recording or two, and of two prints the relation. */
static int run_all(const char *first_path, const char *second_path)
{
    struct outcome first, second;

    if (!run_file(first_path, &first))
        return 0;
    if (second_path == NULL)
        return 1;
    if (!run_file(second_path, &second))
        return 0;
    print_relation(&first, &second);
    return 1;
}

int main(int words, char **word)
{
    int done;

    if (words != ONE_RECORDING && words != TWO_RECORDINGS) {
        fprintf(stderr, "usage: firmware RECORDING [RECORDING]\n");
        return CALLED_BADLY;
    }
    done = run_all(word[1], words == TWO_RECORDINGS ? word[2] : NULL);
    if (fflush(stdout) != 0) {
        fprintf(stderr, "firmware: %s\n", strerror(errno));
        done = 0;
    }
    return done ? 0 : ENDED_BADLY;
}
