#include "slices.h"

#include <stdio.h>
#include <stdlib.h>
#include <string.h>

enum { MOST = 64 };

/* What is lent, and what it held when that was kept. */
static struct {
    unsigned char *at;
    unsigned char *kept;
    size_t bytes;
} lent[MOST];
static size_t lent_count;

static unsigned char pattern_at(size_t place)
{
    return (unsigned char)(0xA5 + 7 * place);
}

static unsigned char *allocated(size_t bytes)
{
    unsigned char *at = (unsigned char *)malloc(bytes);
    if (at == NULL) {
        fprintf(stderr, "no memory for %zu bytes\n", bytes);
        exit(2);
    }
    return at;
}

/* Memory of so many bytes with these contents, or with the pattern where there are none; null for none. */
static void *lend(const void *from, size_t bytes)
{
    unsigned char *at;
    size_t i;
    if (bytes == 0)
        return NULL;
    if (lent_count == MOST) {
        fprintf(stderr, "more than %d slices lent\n", MOST);
        exit(2);
    }
    at = allocated(bytes);
    if (from != NULL)
        memcpy(at, from, bytes);
    else
        for (i = 0; i < bytes; i++)
            at[i] = pattern_at(i);
    lent[lent_count].at = at;
    lent[lent_count].kept = allocated(bytes);
    lent[lent_count].bytes = bytes;
    memcpy(lent[lent_count].kept, at, bytes);
    lent_count++;
    return at;
}

struct floats floats_of(const float *from, size_t len)
{
    struct floats s = {(float *)lend(from, len * sizeof *from), len};
    return s;
}

struct numbers numbers_of(const uint32_t *from, size_t len)
{
    struct numbers s = {(uint32_t *)lend(from, len * sizeof *from), len};
    return s;
}

struct bytes bytes_of(const uint8_t *from, size_t len)
{
    struct bytes s = {(uint8_t *)lend(from, len), len};
    return s;
}

struct floats blank_floats(size_t len)
{
    return floats_of(NULL, len);
}

struct numbers blank_numbers(size_t len)
{
    return numbers_of(NULL, len);
}

struct bytes blank_bytes(size_t len)
{
    return bytes_of(NULL, len);
}

struct records blank_records(size_t len)
{
    struct records s = {(struct interflect_light *)lend(NULL, len * sizeof *s.at), len};
    return s;
}

float *float_out(void)
{
    return blank_floats(1).at;
}

uint32_t *number_out(void)
{
    return blank_numbers(1).at;
}

size_t *count_out(void)
{
    return counts_out(1);
}

size_t *counts_out(size_t len)
{
    return (size_t *)lend(NULL, len * sizeof(size_t));
}

int patterned(const void *slice, size_t from, size_t to)
{
    const unsigned char *at = (const unsigned char *)slice;
    size_t i;
    for (i = from; i < to; i++)
        if (at[i] != pattern_at(i))
            return 0;
    return 1;
}

void keep_lent(void)
{
    size_t i;
    for (i = 0; i < lent_count; i++)
        memcpy(lent[i].kept, lent[i].at, lent[i].bytes);
}

int untouched(void)
{
    size_t i;
    for (i = 0; i < lent_count; i++)
        if (memcmp(lent[i].at, lent[i].kept, lent[i].bytes) != 0)
            return 0;
    return 1;
}

void give_back(void)
{
    while (lent_count > 0) {
        lent_count--;
        free(lent[lent_count].at);
        free(lent[lent_count].kept);
    }
}
