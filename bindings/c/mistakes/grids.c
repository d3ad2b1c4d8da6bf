/* Mistakes in the grid and the reading: four points in the four cells of Q's box. */
#include "mistakes.h"
#include "q.h"

#include <math.h>

enum { POINTS = 4, PROBES = 2 };

/* The grid of the four points, and what its functions are asked beside it. */
struct reading {
    size_t n;
    struct numbers starts, items;
    struct box box;
    float cell;
    struct floats p, normals, irr;
    size_t probes;
    struct floats probe_p, probe_normals;
    float radius;
    struct numbers seen;
    struct floats light;
    size_t reach;
    struct numbers list;
};

static struct floats ups(size_t n)
{
    static const float up[3 * POINTS] = {0, 0, 1, 0, 0, 1, 0, 0, 1, 0, 0, 1};
    return floats_of(up, 3 * n);
}

static struct reading right_reading(void)
{
    static const uint32_t starts[] = {0, 2, 3, 3, 4};
    static const uint32_t items[] = {1, 2, 3, 0};
    static const float p[] = {3.5f, 0.5f, 0.5f, 0.5f, 0.5f, 0.5f, 0.5f, 0.5f, 0.5f, 1.5f, 0.5f, 0.5f};
    static const float irr[3 * POINTS] = {NAN};
    struct reading c;
    c.n = POINTS;
    c.starts = numbers_of(WHOLE(starts));
    c.items = numbers_of(WHOLE(items));
    c.box = (struct box){{0.0f, 0.0f, 0.0f}, {4.0f, 1.0f, 1.0f}};
    c.cell = Q_CELL;
    c.p = floats_of(WHOLE(p));
    c.normals = ups(POINTS);
    c.irr = floats_of(WHOLE(irr));
    c.probes = PROBES;
    c.probe_p = floats_of(WHOLE(q_probe_p));
    c.probe_normals = ups(PROBES);
    c.radius = Q_RADIUS;
    c.seen = blank_numbers(PROBES);
    c.light = blank_floats(3 * PROBES);
    c.reach = 1;
    c.list = blank_numbers(3);
    return c;
}

#define GRID(c) (c)->n, LENT((c)->starts), LENT((c)->items), BOX((c)->box), (c)->cell
#define SURFELS(c) LENT((c)->p), LENT((c)->normals), LENT((c)->irr)

/* The grid is built into slices of the lengths that the call's starts and items have. */
static uint32_t grid_build(const struct reading *c)
{
    return interflect_grid_build(
        c->n, LENT(c->p), BOX(c->box), c->cell,
        LENT(blank_numbers(c->starts.len)), LENT(blank_numbers(c->items.len)),
        count_out(), count_out(), count_out());
}

/* The numbers near the second point. */
static uint32_t near(const struct reading *c)
{
    return interflect_near(GRID(c), 0.5f, 0.5f, 0.5f, c->reach, LENT(c->list), count_out());
}

/* The reading at the first probe. */
static uint32_t gather(const struct reading *c)
{
    return interflect_gather(
        GRID(c), SURFELS(c),
        c->probe_p.at[0], c->probe_p.at[1], c->probe_p.at[2], 0.0f, 0.0f, 1.0f, c->radius,
        number_out(), float_out(), float_out(), float_out());
}

static uint32_t gather_all(const struct reading *c)
{
    return interflect_gather_all(
        GRID(c), SURFELS(c), c->probes, LENT(c->probe_p), LENT(c->probe_normals), c->radius,
        LENT(c->seen), LENT(c->light));
}

RIGHT(build_right, reading, grid_build)
CALL(build_points, reading, grid_build, c.n = 400001)
CALL(build_cell, reading, grid_build, c.cell = NAN)
CALL(build_starts, reading, grid_build, c.starts.len = 4)
CALL(build_infinite, reading, grid_build, c.p.at[11] = INFINITY)
RIGHT(near_right, reading, near)
CALL(near_reach, reading, near, c.reach = 512)
CALL(near_list, reading, near, c.list = blank_numbers(2))
CALL(near_list_last, reading, near, c.list = blank_numbers(0); c.items.at[3] = POINTS)
RIGHT(gather_right, reading, gather)
CALL(gather_radius, reading, gather, c.radius = -1.0f)
CALL(gather_items, reading, gather, c.items = numbers_of(c.items.at, POINTS - 1))
CALL(gather_probe, reading, gather, c.probe_p.at[0] = NAN)
CALL(gather_starts, reading, gather, c.starts.at[1] = 4)
RIGHT(all_right, reading, gather_all)
CALL(all_none, reading, gather_all, c.probes = 0; c.seen = blank_numbers(0);
     c.probe_p = c.probe_normals = c.light = blank_floats(0))
CALL(all_probes, reading, gather_all, c.probes = 400001)
CALL(all_seen, reading, gather_all, c.seen = blank_numbers(PROBES - 1))
CALL(all_normal, reading, gather_all, c.normals.at[0] = -10001.0f)

void try_grids(void)
{
    static const struct mistake mistakes[] = {
        {"grid_build", INTERFLECT_DONE, build_right},
        {"grid_build with 400,001 points", INTERFLECT_COUNT_TOO_LARGE, build_points},
        {"grid_build with a cell of NaN", INTERFLECT_SIZE_OUT_OF_RANGE, build_cell},
        {"grid_build with starts a number short", INTERFLECT_SLICE_TOO_SHORT, build_starts},
        {"grid_build with an infinite point", INTERFLECT_FLOAT_OUT_OF_RANGE, build_infinite},
        {"near", INTERFLECT_DONE, near_right},
        {"near with a reach of 512", INTERFLECT_SIZE_OUT_OF_RANGE, near_reach},
        {"near with a list a number short", INTERFLECT_SLICE_TOO_SHORT, near_list},
        {"near with a null list and an item past the points", INTERFLECT_NUMBERS_INCONSISTENT, near_list_last},
        {"gather", INTERFLECT_DONE, gather_right},
        {"gather with a radius below 0", INTERFLECT_SIZE_OUT_OF_RANGE, gather_radius},
        {"gather with items a number short", INTERFLECT_SLICE_TOO_SHORT, gather_items},
        {"gather at a NaN", INTERFLECT_FLOAT_OUT_OF_RANGE, gather_probe},
        {"gather with starts that fall", INTERFLECT_NUMBERS_INCONSISTENT, gather_starts},
        {"gather_all", INTERFLECT_DONE, all_right},
        {"gather_all at no probes, with null slices", INTERFLECT_DONE, all_none},
        {"gather_all with 400,001 probes", INTERFLECT_COUNT_TOO_LARGE, all_probes},
        {"gather_all with seen a number short", INTERFLECT_SLICE_TOO_SHORT, all_seen},
        {"gather_all with a normal beyond 10,000", INTERFLECT_FLOAT_OUT_OF_RANGE, all_normal},
    };
    try_each(WHOLE(mistakes));
}
