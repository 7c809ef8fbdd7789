/*
 * Makes the calls of a script, as `second script` writes it, and prints the
 * lines that `second answers` prints for it. The layout of a script is told in
 * second/src/trials/script.rs. Every slice lies at its offset in a larger
 * buffer; bytes around it, and slices that are only lent, must stay as they
 * were. Ends with 0, or with 1 and a word on the error output.
 */
#include "oanhvidet.h"

#include <inttypes.h>
#include <stdio.h>
#include <stdlib.h>
#include <string.h>

enum {
    RUN = 1,
    RELATION = 2,
    /* Bytes of a number. */
    NUMBER = 4,
    BYTE_BITS = 8,
    /* Bytes kept on each side of a slice, and what they hold. */
    AROUND = 64,
    AROUND_BYTE = 0xA5
};

/* A slice in a buffer of its own, and what the buffer held before the call. */
struct lent {
    uint8_t *buffer;
    uint8_t *before;
    size_t start;
    size_t length;
    size_t size;
};

static void fail(const char *word)
{
    fprintf(stderr, "boundary: %s\n", word);
    exit(EXIT_FAILURE);
}

static void read_bytes(uint8_t *bytes, size_t length)
{
    if (fread(bytes, 1, length, stdin) != length)
        fail("the script breaks off");
}

static uint8_t read_byte(void)
{
    uint8_t byte;

    read_bytes(&byte, 1);
    return byte;
}

static uint32_t read_number(void)
{
    uint8_t bytes[NUMBER];
    uint32_t number = 0;

    read_bytes(bytes, NUMBER);
    for (int at = NUMBER - 1; at >= 0; at--)
        number = number << BYTE_BITS | bytes[at];
    return number;
}

static uint8_t *room(size_t size)
{
    uint8_t *bytes = malloc(size);

    if (bytes == NULL)
        fail("no memory");
    return bytes;
}

/* Reads offset and length of a slice and lays it out, its bytes still open. */
static struct lent lay(void)
{
    struct lent lent;

    lent.start = AROUND + (size_t)read_byte();
    lent.length = read_number();
    lent.size = lent.start + lent.length + AROUND;
    lent.buffer = room(lent.size);
    lent.before = room(lent.size);
    memset(lent.buffer, AROUND_BYTE, lent.size);
    return lent;
}

static uint8_t *slice(const struct lent *lent)
{
    return lent->buffer + lent->start;
}

static void remember(struct lent *lent)
{
    memcpy(lent->before, lent->buffer, lent->size);
}

static struct lent read_lent(void)
{
    struct lent lent = lay();

    read_bytes(slice(&lent), lent.length);
    remember(&lent);
    return lent;
}

/* The list buffer's bytes count up from the first, without carry. */
static struct lent read_list(void)
{
    struct lent list = lay();
    uint8_t byte = read_byte();

    for (size_t at = 0; at < list.length; at++)
        slice(&list)[at] = byte++;
    remember(&list);
    return list;
}

static void check_same(const struct lent *lent, size_t from, size_t to)
{
    if (memcmp(lent->buffer + from, lent->before + from, to - from) != 0)
        fail("bytes changed that were only lent, or around a list buffer");
}

static void drop(struct lent *lent)
{
    free(lent->buffer);
    free(lent->before);
}

static void call_run(uint64_t number)
{
    uint32_t n = read_number();
    uint32_t own = read_number();
    struct lent records = read_lent();
    struct lent list = read_list();
    uint64_t answer = oanhvidet_run(n, own, slice(&records), records.length,
                                    slice(&list), list.length);

    printf("%" PRIu64 " run %" PRIu64 " %zu:", number, answer, list.length);
    for (size_t at = 0; at < list.length; at++)
        printf("%02x", slice(&list)[at]);
    printf("\n");
    check_same(&records, 0, records.size);
    check_same(&list, 0, list.start);
    check_same(&list, list.start + list.length, list.size);
    drop(&records);
    drop(&list);
}

static void call_relation(uint64_t number)
{
    struct lent a = read_lent();
    struct lent b = read_lent();
    uint64_t code = oanhvidet_relation(slice(&a), a.length,
                                       slice(&b), b.length);

    printf("%" PRIu64 " relation %" PRIu64 "\n", number, code);
    check_same(&a, 0, a.size);
    check_same(&b, 0, b.size);
    drop(&a);
    drop(&b);
}

int main(void)
{
    uint64_t number = 0;

    for (int call = getchar(); call != EOF; call = getchar()) {
        number++;
        if (call == RUN)
            call_run(number);
        else if (call == RELATION)
            call_relation(number);
        else
            fail("the script has no such call");
    }
    if (ferror(stdin) || fflush(stdout) != 0)
        fail("reading or writing failed");
    return EXIT_SUCCESS;
}
