/*
 * The agreement log, as gateway firmware calls it.
 *
 * Two functions: a run takes a gateway from its start through a slice of
 * records to its final list; the relation says how two final lists stand to
 * each other. Numbers and byte slices only.
 *
 * For both functions:
 * - Nothing is kept between calls: no memory, no pointer, no state. Equal
 *   arguments give equal answers, and any number of threads may call at once.
 * - No pointer may be null. With a length of 0 nothing is read or written
 *   there; pass any pointer that isn't null.
 * - A slice may lie at any address; no alignment is asked for. The list buffer
 *   may not overlap the records. Slices that are only read may overlap.
 * - Every argument has an answer; no call fails in any other way.
 */
#ifndef OANHVIDET_H
#define OANHVIDET_H

#include <stddef.h>
#include <stdint.h>

#ifdef __cplusplus
extern "C" {
#endif

/* Bytes of a record. */
#define OANHVIDET_RECORD 96
/* Bytes of a block's name. */
#define OANHVIDET_NAME 32
/* Bytes of the longest final list: 64 names. A run asks for them always. */
#define OANHVIDET_LIST 2048

/* A run's answer, put together. */
#define OANHVIDET_ANSWER(refusal, count) \
    ((uint64_t)(refusal) << 16 | (uint64_t)(count))
/* The refusal of a run's answer: one of enum oanhvidet_refusal. */
#define OANHVIDET_REFUSAL(answer) ((unsigned)((uint64_t)(answer) >> 16))
/* The count of final names of a run's answer: 0 to 64, and 0 if refused. */
#define OANHVIDET_COUNT(answer) ((size_t)((uint64_t)(answer) & 0xffff))

/* The relation of a relation's code: one of enum oanhvidet_relation_kind. */
#define OANHVIDET_RELATION(code) ((unsigned)((uint64_t)(code) >> 60))
/* The index of a relation's code: for a fork, that of the first name that
 * differs, counted from 0; else 0. */
#define OANHVIDET_INDEX(code) ((uint64_t)(code) & ((UINT64_C(1) << 60) - 1))

/* Why a run is refused. Where both apply it is the lower number. */
enum oanhvidet_refusal {
    /* The run is taken. */
    OANHVIDET_TAKEN = 0,
    /* records_len isn't a multiple of 96, or list_len is under 2,048. */
    OANHVIDET_LENGTH = 3,
    /* n is 0 or above 32, or own isn't below n. */
    OANHVIDET_START = 15
};

/* How a first list and a second one stand to each other. */
enum oanhvidet_relation_kind {
    /* They are equal. */
    OANHVIDET_EQUAL = 0,
    /* The first is longer and begins with the second. */
    OANHVIDET_FIRST_LONGER = 1,
    /* The second is longer and begins with the first. */
    OANHVIDET_SECOND_LONGER = 2,
    /* A name differs. */
    OANHVIDET_FORK = 3,
    /* A length isn't a multiple of 32; nothing is compared then. */
    OANHVIDET_NO_LIST = 4
};

/*
 * A run: a gateway starts, takes the records one after the other and reads out
 * its final list. Records that the rules refuse are passed over, and what the
 * gateway would send is dropped. A torn run answers like any other.
 *
 * n            how many nodes there are, 1 to 32
 * own          the gateway's own number, below n
 * records      the records, 96 bytes each, one after the other; only read
 * records_len  bytes of them all: a multiple of 96, which 0 is
 * list         where the final list goes, first name first, 32 bytes each
 * list_len     bytes of the list buffer, at least 2,048
 *
 * Answers refusal * 65,536 + count of final names; OANHVIDET_REFUSAL and
 * OANHVIDET_COUNT take it apart.
 *
 * Taken: the first count * 32 bytes of the list buffer are the names, all
 * others are as they were. Refused: the count is 0 and no byte is written.
 */
uint64_t oanhvidet_run(uint32_t n, uint32_t own,
                       const uint8_t *records, size_t records_len,
                       uint8_t *list, size_t list_len);

/*
 * The relation of two final lists, names of 32 bytes one after the other, of
 * any length. Both are only read.
 *
 * a, a_len     the first list and its bytes
 * b, b_len     the second list and its bytes
 *
 * Answers relation * 2^60 + index; OANHVIDET_RELATION and OANHVIDET_INDEX take
 * it apart.
 */
uint64_t oanhvidet_relation(const uint8_t *a, size_t a_len,
                            const uint8_t *b, size_t b_len);

#ifdef __cplusplus
}
#endif

#endif
