/* Makes a caller's mistakes through the C interface: each refusal number must come back, and what was
 * lent must hold what it held before, bit for bit; of 8, what document 01 says.
 *
 *   mistakes ROOM
 *
 * ROOM is a room file that is accepted. Ends with a line and status 1 at the first mismatch. */
#include "mistakes.h"

#include <stdio.h>
#include <stdlib.h>

/* How many calls were answered and refused as they must be, and which numbers refused any. */
static size_t answered, refused;
static int given[INTERFLECT_LINKS_FULL + 1];

void mismatch(const char *what, const char *why)
{
    fprintf(stderr, "mistakes: %s: %s\n", what, why);
    exit(1);
}

static void try_one(const struct mistake *m)
{
    uint32_t number = m->call();
    char why[64];
    if (number != m->number) {
        snprintf(why, sizeof why, "returned %u, and must return %u", (unsigned)number, (unsigned)m->number);
        mismatch(m->what, why);
    }
    given[number] = 1;
    if (number == INTERFLECT_DONE)
        answered++;
    else
        refused++;
    if (number != INTERFLECT_DONE && number != INTERFLECT_LINKS_FULL && !untouched())
        mismatch(m->what, "refused, and something was written");
    give_back();
}

void try_each(const struct mistake *mistakes, size_t len)
{
    size_t i;
    for (i = 0; i < len; i++)
        try_one(&mistakes[i]);
}

/* Ends the program if a number of document 01 refused nothing. */
static void all_numbers_given(void)
{
    uint32_t number;
    for (number = INTERFLECT_DONE; number <= INTERFLECT_LINKS_FULL; number++)
        if (!given[number])
            mismatch("all calls", "a number of 0 to 8 never came back");
}

int main(int argc, char **argv)
{
    if (argc != 2) {
        fprintf(stderr, "usage: mistakes ROOM\n");
        return 2;
    }
    try_scenes();
    try_placement();
    try_grids();
    try_clusters();
    try_rows();
    try_solves();
    try_files(argv[1]);
    all_numbers_given();
    printf("%zu right calls answered, %zu mistakes refused with the numbers 1 to 8\n", answered, refused);
    return 0;
}
