/* Slices as the interface takes them, a pointer and a length, and memory to lend to calls.
 *
 * Each slice is an allocation of exactly its length, so that a memory checker sees a touch past its
 * end; an empty one is null. What a call may write begins as a pattern, and the bytes of all that is
 * lent are kept, so that a write is seen. */
#ifndef SLICES_H
#define SLICES_H

#include <stddef.h>
#include <stdint.h>

#include "interflect.h"

struct floats {
    float *at;
    size_t len;
};

struct numbers {
    uint32_t *at;
    size_t len;
};

struct bytes {
    uint8_t *at;
    size_t len;
};

struct records {
    struct interflect_light *at;
    size_t len;
};

/* The two arguments of a slice, and of an array that is lent whole. */
#define LENT(slice) (slice).at, (slice).len
#define WHOLE(array) (array), sizeof(array) / sizeof((array)[0])

/* Slices with these contents. */
struct floats floats_of(const float *from, size_t len);
struct numbers numbers_of(const uint32_t *from, size_t len);
struct bytes bytes_of(const uint8_t *from, size_t len);

/* Slices that hold the pattern. */
struct floats blank_floats(size_t len);
struct numbers blank_numbers(size_t len);
struct bytes blank_bytes(size_t len);
struct records blank_records(size_t len);

/* Outs that hold the pattern. */
float *float_out(void);
uint32_t *number_out(void);
size_t *count_out(void);
size_t *counts_out(size_t len);

/* Whether these bytes still hold the pattern that they had at this place of their slice. */
int patterned(const void *slice, size_t from, size_t to);

/* Keeps what all that is lent holds now. */
void keep_lent(void);

/* Whether all that is lent holds what it did when it was lent, or kept last. */
int untouched(void);

/* Frees all that is lent. */
void give_back(void);

#endif
