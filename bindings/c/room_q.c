/* Solves document 01's room Q through the C interface, reads its two probes, and prints what `roomlight`
 * prints of rooms/q.room. */
#include "interflect.h"
#include "q.h"
#include "slices.h"

#include <stdio.h>
#include <stdlib.h>
#include <string.h>

/* The light of the surfels. */
static float direct[3 * Q_SURFELS];
static float irr[3 * Q_SURFELS];
static float rad[3 * Q_SURFELS];

/* The grid, and the readings. */
static uint32_t starts[Q_CELLS + 1];
static uint32_t items[Q_SURFELS];
static uint32_t seen[Q_PROBES];
static float light[3 * Q_PROBES];

static void done(const char *entry, uint32_t number)
{
    if (number == INTERFLECT_DONE)
        return;
    fprintf(stderr, "room_q: %s refused with %u\n", entry, (unsigned)number);
    exit(1);
}

/* The bits of a float as a report has them: eight hexadecimal digits, one pattern for NaN. */
static unsigned bits_of(float x)
{
    uint32_t bits;
    memcpy(&bits, &x, sizeof bits);
    return x != x ? 0x7FC00000u : (unsigned)bits;
}

/* Resets the light, bounces it, and prints how that ended. */
static void solve(void)
{
    float clusters_light[3 * Q_CLUSTERS];
    size_t bounces;
    float change;
    done("reset", interflect_reset(WHOLE(q_light), WHOLE(direct), WHOLE(irr), WHOLE(rad)));
    done("solve", interflect_solve(
        Q_SURFELS, Q_CLUSTERS, Q_MEMBERS, Q_LINKS, Q_LIMIT,
        WHOLE(q_albedo), WHOLE(q_area), WHOLE(direct),
        WHOLE(q_cluster_area), WHOLE(q_first), WHOLE(q_count), WHOLE(q_member),
        WHOLE(q_starts), WHOLE(q_link_cluster), WHOLE(q_link_weight),
        WHOLE(irr), WHOLE(rad), WHOLE(clusters_light),
        &bounces, &change));
    printf("surfels %d clusters %d links %u\n", Q_SURFELS, Q_CLUSTERS, (unsigned)q_starts[Q_SURFELS]);
    printf("bounces %zu residual %08X %s\n", bounces, bits_of(change),
           bounces > 0 && change < 0.0001f ? "settled" : "open");
}

/* Reads the probes, and prints a line for each. */
static void read_probes(void)
{
    size_t dx, dy, dz, i;
    done("grid_build", interflect_grid_build(
        Q_SURFELS, WHOLE(q_p), Q_BOX, Q_CELL, WHOLE(starts), WHOLE(items), &dx, &dy, &dz));
    done("gather_all", interflect_gather_all(
        Q_SURFELS, WHOLE(starts), WHOLE(items), Q_BOX, Q_CELL,
        WHOLE(q_p), WHOLE(q_normals), WHOLE(irr),
        Q_PROBES, WHOLE(q_probe_p), WHOLE(q_probe_normals), Q_RADIUS,
        WHOLE(seen), WHOLE(light)));
    for (i = 0; i < Q_PROBES; i++)
        printf("probe %zu %s %08X %08X %08X\n", i, seen[i] ? "seen" : "unseen",
               bits_of(light[3 * i]), bits_of(light[3 * i + 1]), bits_of(light[3 * i + 2]));
}

int main(void)
{
    solve();
    read_probes();
    return 0;
}
