/*
 * What the programs in tests/ that check the C interface share: a line for each check that fails, and at the end 'N passed, M failed'.
 */
#ifndef CHECK_H
#define CHECK_H

#include <stdio.h>
#include <string.h>

#include "foringamo.h"

static int passed = 0;
static int failed = 0;

static inline void check(int holds, const char *file, int line, const char *what) {
    if (holds) {
        passed++;
    } else {
        failed++;
        printf("%s:%d: %s\n", file, line, what);
    }
}

#define CHECK(what) check((what), __FILE__, __LINE__, #what)

/* A text, and its length. */
#define TEXT(s) (const uint8_t *)(s), sizeof(s) - 1

/* A pointer that nothing may be read or written behind. */
#define NOWHERE ((uint8_t *)1)

/* The bytes of a trace's records: of an event, and of the last one. */
enum { EVENT = 14, LAST = 6 };

/* The output buffer, and what it holds before. */
#define ROOM 80
#define FILL 0xee
static uint8_t out[ROOM];

static inline void fill(void) {
    memset(out, FILL, ROOM);
}

/* Whether bytes of a buffer are as before. */
static inline int kept(const uint8_t *bytes, size_t length) {
    for (size_t i = 0; i < length; i++) {
        if (bytes[i] != FILL) {
            return 0;
        }
    }
    return 1;
}

/* Whether the buffer is as before, from an index on. */
static inline int kept_from(size_t from) {
    return kept(out + from, ROOM - from);
}

/* The buffer has these bytes, and behind them is as before. */
static inline int has(const uint8_t *bytes, size_t length) {
    return memcmp(out, bytes, length) == 0 && kept_from(length);
}

static inline int is_block(foringamo_block r, int refusal, int kind, int closed, int name, size_t stop, size_t closer) {
    return r.refusal == refusal && r.kind == kind && r.closed == closed && r.name == name && r.stop == stop && r.closer == closer;
}

static inline int is_inline(foringamo_inline r, int refusal, int found, int carry, size_t stop) {
    return r.refusal == refusal && r.found == found && r.carry == carry && r.stop == stop;
}

static inline int is_written(foringamo_written r, int refusal, size_t length) {
    return r.refusal == refusal && r.length == length;
}

static inline int is_record(foringamo_record r, int refusal, int kind, int last, size_t line, size_t column, size_t index) {
    return r.refusal == refusal && r.kind == kind && r.last == last && r.line == line && r.column == column && r.index == index;
}

static inline int is_shown(foringamo_shown r, int refusal, size_t length, size_t pieces) {
    return r.refusal == refusal && r.length == length && r.pieces == pieces;
}

/* Each checks that a call which writes is refused, and changes no byte of the buffer. */
#define REFUSES_WRITTEN(refusal, call) (fill(), CHECK(is_written(call, refusal, 0) && kept_from(0)))
#define REFUSES_SHOWN(refusal, call) (fill(), CHECK(is_shown(call, refusal, 0, 0) && kept_from(0)))

static uint32_t random_state = 1;

/* A pseudo-random number below a bound. */
static inline size_t below(size_t bound) {
    random_state = random_state * 1664525 + 1013904223;
    return (random_state >> 8) % bound;
}

/* Ends the program with its numbers. */
static inline int finish(void) {
    printf("%d passed, %d failed\n", passed, failed);
    return failed != 0;
}

#endif
