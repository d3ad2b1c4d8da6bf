/* Mistakes in clusters and rows: two surfels that face each other, one on each of two planes. */
#include "mistakes.h"

#include <math.h>
#include <string.h>

enum { SURFELS = 2, CLUSTERS = 2 };

/* Clusters to be made of the two surfels. */
struct clustering {
    size_t n;
    struct floats p, normals, area;
    struct box box;
    size_t res;
    struct floats cluster_p, cluster_n, cluster_area, cluster_radius;
    struct numbers first, count, members, order, spare;
};

static const float places[] = {0.0f, 0.0f, 0.0f, 0.5f, 0.0f, 2.0f};
static const float facing[] = {0.0f, 0.0f, 1.0f, 0.0f, 0.0f, -1.0f};
static const float ones[] = {1.0f, 1.0f};

static struct clustering right_clustering(void)
{
    struct clustering c;
    c.n = SURFELS;
    c.p = floats_of(WHOLE(places));
    c.normals = floats_of(WHOLE(facing));
    c.area = floats_of(WHOLE(ones));
    c.box = box_of(0.0f, 2.0f);
    c.res = 2;
    c.cluster_p = blank_floats(3 * SURFELS);
    c.cluster_n = blank_floats(3 * SURFELS);
    c.cluster_area = blank_floats(SURFELS);
    c.cluster_radius = blank_floats(SURFELS);
    c.first = blank_numbers(SURFELS);
    c.count = blank_numbers(SURFELS);
    c.members = blank_numbers(SURFELS);
    c.order = blank_numbers(SURFELS);
    c.spare = blank_numbers(SURFELS);
    return c;
}

static uint32_t build_clusters(const struct clustering *c)
{
    return interflect_build_clusters(
        c->n, LENT(c->p), LENT(c->normals), LENT(c->area), BOX(c->box), c->res,
        LENT(c->cluster_p), LENT(c->cluster_n), LENT(c->cluster_area), LENT(c->cluster_radius),
        LENT(c->first), LENT(c->count), LENT(c->members), LENT(c->order), LENT(c->spare),
        count_out(), count_out());
}

RIGHT(clusters_right, clustering, build_clusters)
CALL(clusters_surfels, clustering, build_clusters, c.n = 400001)
CALL(clusters_res, clustering, build_clusters, c.res = 65)
CALL(clusters_spare, clustering, build_clusters, c.spare = blank_numbers(SURFELS - 1))
CALL(clusters_area, clustering, build_clusters, c.area.at[1] = -1.0f)

void try_clusters(void)
{
    static const struct mistake mistakes[] = {
        {"build_clusters", INTERFLECT_DONE, clusters_right},
        {"build_clusters of 400,001 surfels", INTERFLECT_COUNT_TOO_LARGE, clusters_surfels},
        {"build_clusters with 65 voxels on an axis", INTERFLECT_SIZE_OUT_OF_RANGE, clusters_res},
        {"build_clusters with spare a number short", INTERFLECT_SLICE_TOO_SHORT, clusters_spare},
        {"build_clusters with an area below 0", INTERFLECT_FLOAT_OUT_OF_RANGE, clusters_area},
    };
    try_each(WHOLE(mistakes));
}

/* Rows of the two surfels over two clusters, one of each. */
struct rows {
    struct scene scene;
    struct box box;
    size_t n;
    struct floats p, normals;
    size_t nc;
    struct floats cluster_p, cluster_n, cluster_area, cluster_radius;
    struct numbers starts, link_cluster;
    struct floats link_weight;
    struct numbers link;
    struct floats weight;
    size_t *links, *evals, *row;
    float *mean_row_sum;
};

/* With places for one link of each row, which is what each has. */
static struct rows right_rows(void)
{
    struct rows c;
    c.scene = two_planes();
    c.box = box_of(0.0f, 2.0f);
    c.n = SURFELS;
    c.p = floats_of(WHOLE(places));
    c.normals = floats_of(WHOLE(facing));
    c.nc = CLUSTERS;
    c.cluster_p = floats_of(WHOLE(places));
    c.cluster_n = floats_of(WHOLE(facing));
    c.cluster_area = floats_of(WHOLE(ones));
    c.cluster_radius = floats_of(WHOLE(ones));
    c.starts = blank_numbers(SURFELS + 1);
    c.link_cluster = blank_numbers(SURFELS);
    c.link_weight = blank_floats(SURFELS);
    c.link = blank_numbers(CLUSTERS);
    c.weight = blank_floats(CLUSTERS);
    c.links = count_out();
    c.mean_row_sum = float_out();
    c.evals = count_out();
    c.row = count_out();
    return c;
}

static uint32_t build(const struct rows *c)
{
    return interflect_build(
        SCENE(c->scene), BOX(c->box), c->n, LENT(c->p), LENT(c->normals),
        c->nc, LENT(c->cluster_p), LENT(c->cluster_n), LENT(c->cluster_area), LENT(c->cluster_radius),
        LENT(c->starts), LENT(c->link_cluster), LENT(c->link_weight), LENT(c->link), LENT(c->weight),
        c->links, c->mean_row_sum, c->evals, c->row);
}

/* A call whose second row has no place leaves the first row as a call with room for both does, and start
 * 0 and 1, and tells the second row's number; nothing else but scratch is written. */
static uint32_t build_full(void)
{
    struct rows all = right_rows();
    struct rows c = right_rows();
    uint32_t number;
    if (build(&all) != INTERFLECT_DONE || all.starts.at[1] != 1 || all.starts.at[2] != 2 || *all.links != 2)
        mismatch("build", "the two rows do not have one link each");
    if (!patterned(all.row, 0, sizeof *all.row))
        mismatch("build", "row was written by a call that was done");
    c.link_weight = blank_floats(1);
    number = build(&c);
    if (*c.row != 1)
        mismatch("build without a place for row 1", "row is not 1");
    if (memcmp(c.starts.at, all.starts.at, 2 * sizeof *c.starts.at) != 0
        || c.link_cluster.at[0] != all.link_cluster.at[0]
        || memcmp(c.link_weight.at, all.link_weight.at, sizeof *c.link_weight.at) != 0)
        mismatch("build without a place for row 1", "start 0, start 1 or row 0 is not as with room for both");
    if (!patterned(c.starts.at, 2 * sizeof *c.starts.at, 3 * sizeof *c.starts.at)
        || !patterned(c.link_cluster.at, sizeof *c.link_cluster.at, 2 * sizeof *c.link_cluster.at)
        || !patterned(c.links, 0, sizeof *c.links) || !patterned(c.evals, 0, sizeof *c.evals)
        || !patterned(c.mean_row_sum, 0, sizeof *c.mean_row_sum))
        mismatch("build without a place for row 1", "more than row 0 was written");
    return number;
}

RIGHT(rows_right, rows, build)
CALL(rows_clusters, rows, build, c.nc = 65537)
CALL(rows_box, rows, build, c.box.hi[2] = 10001.0f)
CALL(rows_starts, rows, build, c.starts = blank_numbers(SURFELS))
CALL(rows_weight, rows, build, c.weight = blank_floats(CLUSTERS - 1))
CALL(rows_radius, rows, build, c.cluster_radius.at[0] = NAN)
CALL(rows_kind, rows, build, c.scene.kinds.at[0] = 0)

void try_rows(void)
{
    static const struct mistake mistakes[] = {
        {"build", INTERFLECT_DONE, rows_right},
        {"build over 65,537 clusters", INTERFLECT_COUNT_TOO_LARGE, rows_clusters},
        {"build in a box beyond 10,000", INTERFLECT_SIZE_OUT_OF_RANGE, rows_box},
        {"build with starts a number short", INTERFLECT_SLICE_TOO_SHORT, rows_starts},
        {"build with weight a float short", INTERFLECT_SLICE_TOO_SHORT, rows_weight},
        {"build with a cluster's radius of NaN", INTERFLECT_FLOAT_OUT_OF_RANGE, rows_radius},
        {"build with a sphere as a plane's base", INTERFLECT_SCENE_INCONSISTENT, rows_kind},
        {"build without a place for row 1", INTERFLECT_LINKS_FULL, build_full},
    };
    try_each(WHOLE(mistakes));
}
