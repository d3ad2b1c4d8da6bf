/* Mistakes in the solve of room Q, and in the resets. */
#include "mistakes.h"
#include "q.h"

#include <math.h>

struct solving {
    size_t n, nc, members, links, limit;
    struct floats albedo, area, direct, cluster_area;
    struct numbers first, count, member, starts, link_cluster;
    struct floats link_weight, irr, rad, scratch;
};

static struct solving right_solving(void)
{
    struct solving c;
    c.n = Q_SURFELS;
    c.nc = Q_CLUSTERS;
    c.members = Q_MEMBERS;
    c.links = Q_LINKS;
    c.limit = Q_LIMIT;
    c.albedo = floats_of(WHOLE(q_albedo));
    c.area = floats_of(WHOLE(q_area));
    c.direct = floats_of(WHOLE(q_light));
    c.cluster_area = floats_of(WHOLE(q_cluster_area));
    c.first = numbers_of(WHOLE(q_first));
    c.count = numbers_of(WHOLE(q_count));
    c.member = numbers_of(WHOLE(q_member));
    c.starts = numbers_of(WHOLE(q_starts));
    c.link_cluster = numbers_of(WHOLE(q_link_cluster));
    c.link_weight = floats_of(WHOLE(q_link_weight));
    c.irr = blank_floats(3 * Q_SURFELS);
    c.rad = floats_of(WHOLE(q_light));
    c.scratch = blank_floats(3 * Q_CLUSTERS);
    return c;
}

static uint32_t solve(const struct solving *c)
{
    return interflect_solve(
        c->n, c->nc, c->members, c->links, c->limit,
        LENT(c->albedo), LENT(c->area), LENT(c->direct),
        LENT(c->cluster_area), LENT(c->first), LENT(c->count), LENT(c->member),
        LENT(c->starts), LENT(c->link_cluster), LENT(c->link_weight),
        LENT(c->irr), LENT(c->rad), LENT(c->scratch), count_out(), float_out());
}

RIGHT(solve_right, solving, solve)
CALL(solve_limit, solving, solve, c.limit = 4097)
CALL(solve_links, solving, solve, c.links = 16777217)
CALL(solve_irr, solving, solve, c.irr = blank_floats(2))
CALL(solve_scratch, solving, solve, c.scratch = blank_floats(0))
CALL(solve_albedo, solving, solve, c.albedo.at[2] = NAN)
CALL(solve_weight, solving, solve, c.link_weight.at[0] = 2.5f)
CALL(solve_start, solving, solve, c.starts.at[0] = 1)
CALL(solve_cluster, solving, solve, c.link_cluster.at[0] = Q_CLUSTERS)
CALL(solve_member, solving, solve, c.member.at[0] = Q_SURFELS)

/* The light of two surfels, and the columns or records that it is set in. */
struct resetting {
    struct floats light, direct, irr, rad;
    struct records records;
};

static struct resetting right_resetting(void)
{
    static const float light[] = {1.0f, 2.0f, 3.0f, 0.0f, 0.5f, 1000000.0f};
    struct resetting c;
    c.light = floats_of(WHOLE(light));
    c.direct = blank_floats(c.light.len);
    c.irr = blank_floats(c.light.len);
    c.rad = blank_floats(c.light.len);
    c.records = blank_records(c.light.len / 3);
    return c;
}

static uint32_t reset(const struct resetting *c)
{
    return interflect_reset(LENT(c->light), LENT(c->direct), LENT(c->irr), LENT(c->rad));
}

static uint32_t reset_records(const struct resetting *c)
{
    return interflect_reset_records(LENT(c->light), LENT(c->records));
}

/* Both resets leave the light as direct and rad, and zeros as irr. */
static uint32_t records_as_columns(void)
{
    struct resetting c = right_resetting();
    uint32_t number = reset(&c) + reset_records(&c);
    size_t i, k;
    for (i = 0; i < c.records.len; i++)
        for (k = 0; k < 3; k++)
            if (c.records.at[i].direct[k] != c.light.at[3 * i + k] || c.direct.at[3 * i + k] != c.light.at[3 * i + k]
                || c.records.at[i].rad[k] != c.light.at[3 * i + k] || c.rad.at[3 * i + k] != c.light.at[3 * i + k]
                || c.records.at[i].irr[k] != 0.0f || c.irr.at[3 * i + k] != 0.0f)
                mismatch("reset and reset_records", "direct or rad is not the light, or irr not zero");
    return number;
}

CALL(reset_none, resetting, reset, c.light = c.direct = c.irr = c.rad = blank_floats(0))
CALL(reset_lengths, resetting, reset, c.rad = blank_floats(3))
CALL(reset_thirds, resetting, reset, c.light.len = c.direct.len = c.irr.len = c.rad.len = 4)
CALL(reset_light, resetting, reset, c.light.at[5] = INFINITY)
CALL(records_none, resetting, reset_records, c.light = blank_floats(0); c.records = blank_records(0))
CALL(records_many, resetting, reset_records, c.records = blank_records(400001))
CALL(records_lengths, resetting, reset_records, c.records = blank_records(1))
CALL(records_light, resetting, reset_records, c.light.at[0] = -0.5f)

void try_solves(void)
{
    static const struct mistake mistakes[] = {
        {"solve", INTERFLECT_DONE, solve_right},
        {"solve with a limit of 4,097", INTERFLECT_COUNT_TOO_LARGE, solve_limit},
        {"solve with 16,777,217 links", INTERFLECT_COUNT_TOO_LARGE, solve_links},
        {"solve with irr a float short", INTERFLECT_SLICE_TOO_SHORT, solve_irr},
        {"solve with a null scratch", INTERFLECT_SLICE_TOO_SHORT, solve_scratch},
        {"solve with an albedo of NaN", INTERFLECT_FLOAT_OUT_OF_RANGE, solve_albedo},
        {"solve with a weight of 2.5", INTERFLECT_FLOAT_OUT_OF_RANGE, solve_weight},
        {"solve with starts from 1", INTERFLECT_NUMBERS_INCONSISTENT, solve_start},
        {"solve with a link past the clusters", INTERFLECT_NUMBERS_INCONSISTENT, solve_cluster},
        {"solve with a member past the surfels", INTERFLECT_NUMBERS_INCONSISTENT, solve_member},
        {"reset and reset_records", INTERFLECT_DONE, records_as_columns},
        {"reset of null lists", INTERFLECT_DONE, reset_none},
        {"reset of lists of unequal length", INTERFLECT_SLICE_TOO_SHORT, reset_lengths},
        {"reset of lists of four floats", INTERFLECT_SLICE_TOO_SHORT, reset_thirds},
        {"reset to infinite light", INTERFLECT_FLOAT_OUT_OF_RANGE, reset_light},
        {"reset_records of none", INTERFLECT_DONE, records_none},
        {"reset_records of 400,001", INTERFLECT_COUNT_TOO_LARGE, records_many},
        {"reset_records with light of another length", INTERFLECT_SLICE_TOO_SHORT, records_lengths},
        {"reset_records to light below 0", INTERFLECT_FLOAT_OUT_OF_RANGE, records_light},
    };
    try_each(WHOLE(mistakes));
}
