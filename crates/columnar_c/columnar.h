/* Tests whether a store holds a well-formed column of a type that is given as text, such as (u64, String, Option<u32>), and writes
 * its rows as JSON. The linked library is proved to do what the comments below say (src/calls.rt, src/json.rt).
 *
 *     struct columnar_fault fault;
 *     uint64_t rows;
 *     const char *type = "(u64, String, Option<u32>)";
 *     if (columnar_rows((const uint8_t *)type, strlen(type), COLUMNAR_WORDS, bytes, length, &rows, &fault) == COLUMNAR_ACCEPTED)
 *
 * The caller must ensure the following, and nothing checks it. Each pointer points to as many bytes as its length says, or to one
 * struct or number. No pointer is NULL, even if the length is 0. Until the call returns, nobody else writes to this memory, or reads
 * what the call writes. The text and the bytes may be anything.
 *
 * The calls keep no state. They may run in several threads at the same time, but not in a signal handler, nor in the child of a
 * process that had threads when it forked. They allocate memory for the type, one block for each part of it, and columnar_row_json
 * for the text of the row, and free it before they return; the kit's c/liblibc_c.a, which is also linked, uses malloc and free for
 * this. The bytes are read in place. The time of a call depends on the number of bytes, and its stack on the type, whose nesting is at
 * most 64. */
#ifndef COLUMNAR_H
#define COLUMNAR_H

#include <stddef.h>
#include <stdint.h>

#ifdef __cplusplus
extern "C" {
#endif

/* The result of a call. */
enum {
    COLUMNAR_ACCEPTED = 0,  /* the bytes encode a well-formed column of the type */
    COLUMNAR_BROKEN = 1,    /* they do not: fault.rule is the first broken rule, fault.slice its slice */
    COLUMNAR_NO_TYPE = 2,   /* the text is not a type: fault.place and fault.mistake say why */
    COLUMNAR_NO_MEMORY = 3, /* an allocation failed */
    COLUMNAR_NO_BOUNDS = 4, /* `bounds` is none of the three numbers below */
    COLUMNAR_NO_ROW = 5,    /* the store has no row with this index */
    COLUMNAR_NOT_TEXT = 6,  /* a String of the row is not UTF-8 */
    COLUMNAR_WRONG_LENGTH = 7, /* an array of the row has another length than its type */
    COLUMNAR_NO_ROOM = 8    /* the text is longer than the buffer */
};

/* How the ends of the lists of Vec<T> are stored. The ends of String, SmallVec<T> and [T; N] are always numbers. */
enum {
    COLUMNAR_WORDS = 0,   /* as 64-bit numbers: the Rust crate columnar writes these */
    COLUMNAR_UNARIES = 1, /* in unary, as counted bits: this library writes these */
    COLUMNAR_STRIDES = 2  /* as multiples of a stride for as long as they fit, then as numbers */
};

/* The mistake in a text: fault.mistake. */
enum {
    COLUMNAR_NO_NAME = 1, /* there is no name at the place: of a type, a struct, an enum, a field or a variant */
    COLUMNAR_WANTED = 2,  /* the byte fault.wanted is expected at the place */
    COLUMNAR_LONGER = 3,  /* the type ends before the place, but the text does not */
    COLUMNAR_WIDE = 4,    /* a tuple or a variant has more than ten fields, a struct more than a hundred, or an enum more
                             than 256 variants */
    COLUMNAR_DEEP = 5,    /* more than 64 types are nested, of which an enum counts as four */
    COLUMNAR_NO_NUMBER = 6, /* there is no number at the place, or it is too large */
    COLUMNAR_TWICE = 7,   /* the name at the place stands again among the later fields or variants */
    COLUMNAR_UNENDED = 8  /* a comment, an attribute or a quoted text has no end */
};

/* What is wrong. A field that the result does not use is 0. */
struct columnar_fault {
    uint32_t rule;    /* the number of the broken rule in docs/FORMAT.md, from 1 to 19 */
    uint32_t mistake; /* the mistake in the text of the type */
    uint64_t slice;   /* the slice that breaks the rule, counted from 0 in the whole store */
    uint64_t place;   /* the position of the first byte of the text that cannot be parsed; at most the length of the text */
    uint32_t wanted;  /* the byte that is expected there */
};

/* Tests whether the bytes encode a well-formed column of the type that the text names. `bounds` is one of the three numbers above;
 * for any other number returns COLUMNAR_NO_BOUNDS. If the type cannot be read, returns COLUMNAR_NO_TYPE or COLUMNAR_NO_MEMORY.
 * Otherwise returns COLUMNAR_ACCEPTED if and only if they do, else COLUMNAR_BROKEN. */
uint32_t columnar_check(const uint8_t *type, size_t type_length, uint32_t bounds, const uint8_t *bytes, size_t length,
                        struct columnar_fault *fault);

/* Does the same, and sets `rows` to the number of rows of an accepted store; to 0 with any other result. */
uint32_t columnar_rows(const uint8_t *type, size_t type_length, uint32_t bounds, const uint8_t *bytes, size_t length,
                       uint64_t *rows, struct columnar_fault *fault);

/* Tests the store in the same way, and writes row `index` as JSON, as the Rust crate serde_json writes a value of the type, to the
 * buffer `out` of `capacity` bytes: UTF-8 without a terminating zero. Sets `written` to the number of bytes of the text, if it fits or
 * not; to 0 with any other result.
 *
 * Returns COLUMNAR_ACCEPTED if and only if the text is written, to the first `written` bytes of `out`. With any other result `out`
 * stays: COLUMNAR_NO_ROOM if the text has more bytes than the buffer; COLUMNAR_NO_ROW if the store has at most `index` rows;
 * COLUMNAR_NOT_TEXT for a String in the row that is not UTF-8; COLUMNAR_WRONG_LENGTH for an array of another length than its type;
 * the results above if there are no rows or no memory. Each call tests the whole store: use columnar_tool to print all rows of a large
 * one. */
uint32_t columnar_row_json(const uint8_t *type, size_t type_length, uint32_t bounds, const uint8_t *bytes, size_t length,
                           uint64_t index, uint8_t *out, size_t capacity, uint64_t *written, struct columnar_fault *fault);

#ifdef __cplusplus
}
#endif
#endif
