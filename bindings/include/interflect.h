/*
 * Bounced light in a room: the C interface of libinterflect.a, for C99 and C++.
 *
 * `rt lib` in crates/interflect writes crates/interflect/out/libinterflect.a, for
 * x86-64 Linux; of other libraries it needs memcpy and memset alone. The functions beneath are its
 * seventeen entries, and three float functions.
 *
 * Slices. A slice is a pointer and behind it its length, `p` and `p_len`, counted in elements of the
 * pointer's type: floats, numbers, bytes or records. Vectors stand flat in a slice, x y z one after
 * the other, so that n vectors take a length of 3 n. A slice may be longer than its need, and places
 * past the need keep what they held; only the resets ask for lengths that are equal. An empty slice
 * may be null with length 0.
 *
 * What a caller owes. Memory that is there, aligned for its type, behind each slice for the length
 * given and behind each pointer that is no slice (an out); and that no slice that is written, and no
 * out, overlaps anything else that the call is handed. Slices that are only read may overlap. The
 * processor rounds to nearest and keeps subnormals, as a program starts unless it is linked with
 * -ffast-math. Nothing else is asked: any numbers and any contents get an answer.
 *
 * Answers. The result is INTERFLECT_DONE, or the number that refuses the call. A refused call writes
 * nothing, neither slices nor scratch nor outs; only 8 leaves the rows that fitted. If several numbers
 * apply, the lowest is returned, but for the two 4s that interflect_near and interflect_room_report
 * name. What a comment does not list as written stays as it was. What scratch holds after a call is
 * open, up to its need, unless the comment says it.
 *
 * Threads. The library has no state of its own. Any number of threads may call any functions at once,
 * as long as none writes what another reads or writes.
 *
 * Ranges include both ends. 'Out of range' of a float includes NaN and the infinities. A coordinate is
 * from -10,000 to 10,000; points and normals are three of them.
 *
 * Order of calls, from the shapes of a room to its light:
 *   1. the tables of the scene (Scenes, beneath)
 *   2. interflect_generate: surfels in a box
 *   3. for each surfel the light that it gives off of the lamps', which is yours to find: its albedo times
 *      the irradiance from the lamps; interflect_soft_shadow says how much of a lamp is seen
 *   4. interflect_reset: that light becomes direct and rad, of the count surfels that were placed
 *   5. interflect_build_clusters: made clusters, and listed members
 *   6. interflect_build: the rows, over the surfels' p and n and the clusters' four columns
 *   7. interflect_solve: nc is made, members is listed, and member is the slice members of 5
 *   8. interflect_grid_build over the surfels' p, and interflect_gather_all: the readings of irr
 * One box serves 2, 5, 6 and 8. In all, a surface receives the irradiance from the lamps and irr.
 *
 * Units. Lengths are metres: some are fixed, as a step of a shadow ray, which is 0.006 to 0.12. Light is in
 * any unit of which 0.0001 is next to nothing, as lux: a solve ends at a change under 0.0001.
 *
 * What is accepted and gives wrong light all the same: a plane's normal, a ray's direction or a surfel's
 * normal that is not of length 1 (what then counts as a distance or a cosine is none, and a ray may pass into
 * a surface); light to reset that was not multiplied by the albedo; a cell smaller than the radius of the
 * readings (surfels within the radius are left out); a room left without walls (planes are endless, so that
 * a floor and a ceiling alone pass for a closed room).
 */
#ifndef INTERFLECT_H
#define INTERFLECT_H

#include <stddef.h>
#include <stdint.h>

#ifdef __cplusplus
extern "C" {
#endif

/* What a call returns: done, or why it is refused. Each function names the numbers that it can give. */
enum interflect_result {
    INTERFLECT_DONE = 0,
    /* A room file that is too short, too long or not of form 1, or whose offsets, length or spare
     * words are not what its counts give. */
    INTERFLECT_FILE_MALFORMED = 1,
    /* Surfels, members, points, probes or target over 400,000, clusters over 65,536, links over
     * 16,777,216, bounces over 4,096, or primitives, planes, objects or materials over 256. */
    INTERFLECT_COUNT_TOO_LARGE = 2,
    /* The box (lo above hi on an axis, or one of its floats no coordinate), a cell outside 0.0001 to
     * 10,000, a radius of a reading outside 0 to 10,000, a resolution outside 1 to 64, a reach over 511,
     * or a NaN among them. */
    INTERFLECT_SIZE_OUT_OF_RANGE = 3,
    /* A slice shorter than its need, or the lists of a reset not of one length. */
    INTERFLECT_SLICE_TOO_SHORT = 4,
    /* A float in a table, or a point or normal of the call's own, out of range. */
    INTERFLECT_FLOAT_OUT_OF_RANGE = 5,
    /* A scene whose kinds and parts do not fit together. */
    INTERFLECT_SCENE_INCONSISTENT = 6,
    /* Rows, links, members or a grid whose numbers do not fit together. */
    INTERFLECT_NUMBERS_INCONSISTENT = 7,
    /* A row whose links did not fit the link slices. */
    INTERFLECT_LINKS_FULL = 8
};

/* The light of a surfel as a record of nine floats: what it gives off of the lamps' light, the
 * indirect irradiance, and all that it gives off. */
struct interflect_light {
    float direct[3];
    float irr[3];
    float rad[3];
};

/*
 * Scenes
 *
 * A scene is lent as seven arguments, four of them slices:
 *   prims, planes, objects  how many primitives, planes and objects there are
 *   kinds                   prims numbers: the kind of each primitive
 *   lengths                 8 prims floats: the lengths of each, in the order beneath; the others of the
 *                           eight are ignored
 *   plane_parts             4 planes numbers: of each plane its base primitive, the first primitive that is
 *                           subtracted from it, how many are, and its material (any number)
 *   object_parts            4 objects numbers: the same of each object
 *
 *   0 sphere       centre, radius
 *   1 rounded box  centre, half-sizes with the rounding in them, radius of the edges, at most the least
 *                  half-size
 *   2 plane        normal n, of length 1, height h: a point p is at dot(p, n) - h
 *   3 capsule      the two ends of the axis, radius
 *   4 torus        centre, radius of the ring, which lies flat in x and z, radius of the tube
 *   5 cylinder     the centres of the two caps, radius
 *   6 cone         the centres of the two caps, the radius at each
 *
 * A function on a scene refuses with
 *   2  prims, planes or objects over 256
 *   4  one of the four slices too short
 *   5  a float that one of the prims primitives uses, in a part or not, out of range: points, normals and
 *      heights are coordinates, radii and half-sizes 0 to 10,000
 *   6  a kind over 6; a base that is not below prims; a subtracted range that passes prims, also a range
 *      of none; a plane's base that is not of kind 2, or an object's that is
 * and with what its own comment adds.
 */

/* The distance from x y z to the nearest plane or object, below 0 inside, and its material; of two as
 * near the earlier, planes first. Where nothing is nearer than the greatest float, d becomes that and
 * mat 0.
 * Outs: d, mat.
 * Refuses 2 4 5 6. 5 also: x, y or z no coordinate. */
uint32_t interflect_dist_mat(
    size_t prims, size_t planes, size_t objects,
    const uint32_t *kinds, size_t kinds_len,
    const float *lengths, size_t lengths_len,
    const uint32_t *plane_parts, size_t plane_parts_len,
    const uint32_t *object_parts, size_t object_parts_len,
    float x, float y, float z,
    float *d, uint32_t *mat);

/* The normal of the scene's distance at x y z. In an empty scene it has a NaN.
 * Outs: nx, ny, nz.
 * Refuses 2 4 5 6. 5 also: x, y or z no coordinate. */
uint32_t interflect_normal(
    size_t prims, size_t planes, size_t objects,
    const uint32_t *kinds, size_t kinds_len,
    const float *lengths, size_t lengths_len,
    const uint32_t *plane_parts, size_t plane_parts_len,
    const uint32_t *object_parts, size_t object_parts_len,
    float x, float y, float z,
    float *nx, float *ny, float *nz);

/* What the ray from ro along rd meets between tmin and tmax, in at most 128 steps; rd, tmin and tmax may
 * be any floats. Along an rd of length 1 tmin, tmax and t are distances. The first sample is at tmin,
 * whatever tmax is.
 * Outs: hit becomes 1, and then t (how far along rd), px py pz (the point), nx ny nz (the normal there)
 * and mat are written; or hit becomes 0, and those stay as they were. evals becomes how many distances
 * were evaluated, at most 132.
 * Refuses 2 4 5 6. 5 also: ro no point. */
uint32_t interflect_trace(
    size_t prims, size_t planes, size_t objects,
    const uint32_t *kinds, size_t kinds_len,
    const float *lengths, size_t lengths_len,
    const uint32_t *plane_parts, size_t plane_parts_len,
    const uint32_t *object_parts, size_t object_parts_len,
    float rox, float roy, float roz,
    float rdx, float rdy, float rdz,
    float tmin, float tmax,
    uint32_t *hit, float *t,
    float *px, float *py, float *pz,
    float *nx, float *ny, float *nz,
    uint32_t *mat, uint32_t *evals);

/* How much of a light along rd is seen from ro between tmin and tmax; the larger k, the harder the
 * shadow's edge. rd, tmin, tmax and k may be any floats; a NaN among them may give 1.
 * Let rd be of length 1. Begin above 0, off the surface that ro lies on, which else hides all, and end short
 * of the surface that the lamp hangs on, which else darkens it. The renderer takes ro 0.003 off the surface,
 * 0.015 as tmin, 1.25 radii of the lamp short of it, at least 0.05, as tmax, and distance over radius, 1.5 to
 * 96, as k.
 * Outs: visibility, 0 to 1; evals, how many distances were evaluated, at most 96.
 * Refuses 2 4 5 6. 5 also: ro no point. */
uint32_t interflect_soft_shadow(
    size_t prims, size_t planes, size_t objects,
    const uint32_t *kinds, size_t kinds_len,
    const float *lengths, size_t lengths_len,
    const uint32_t *plane_parts, size_t plane_parts_len,
    const uint32_t *object_parts, size_t object_parts_len,
    float rox, float roy, float roz,
    float rdx, float rdy, float rdz,
    float tmin, float tmax, float k,
    float *visibility, uint32_t *evals);

/* The part of 16 directions round the normal n that, from the point p, meet nothing within tmax, which
 * may be any float.
 * Outs: sky, 0 to 1; evals, how many distances were evaluated, at most 2,112.
 * Refuses 2 4 5 6. 5 also: p or n no point or normal. */
uint32_t interflect_hemisphere_closure(
    size_t prims, size_t planes, size_t objects,
    const uint32_t *kinds, size_t kinds_len,
    const float *lengths, size_t lengths_len,
    const uint32_t *plane_parts, size_t plane_parts_len,
    const uint32_t *object_parts, size_t object_parts_len,
    float px, float py, float pz,
    float nx, float ny, float nz,
    float tmax,
    float *sky, uint32_t *evals);

/*
 * Placement
 */

/* Places at most target surfels on the surface of a scene, within the box from lo to hi.
 * Needs: materials, 4 mats floats: albedo (three) and metallic of each. A material that is not below mats
 * has albedo 0.8 and metallic 0.
 * Writes: of each surfel placed p, n (its normal), albedo (its material's times 1 - metallic), area (for each
 * d d / 0.65, with d as beneath: areas need not sum to the surface's), and zeros as direct, irr and rad.
 * Each slice needs target vectors, area target floats. Places from the count on keep what they held.
 * Scratch: next, target numbers; head, a number for each cell of side d, the least distance of two
 * surfels. In float steps, none of them fused (-ffp-contract=off), with e = hi - lo:
 * d = fmaxf(root(ex ex + ey ey + ez ez) / root(target), 0.0001f),
 * head_len = count(ex (1 / d)) count(ey (1 / d)) count(ez (1 / d)); root is interflect_sqrt, count is
 * interflect_cell_count.
 * Outs: count, how many surfels were placed; often fewer than target.
 * Refuses 2 3 4 5 6. 2 also: target over 400,000, mats over 256. 3: the box. 4 also: any other slice too
 * short. 5 also: an albedo or metallic outside 0 to 1. */
uint32_t interflect_generate(
    size_t prims, size_t planes, size_t objects,
    const uint32_t *kinds, size_t kinds_len,
    const float *lengths, size_t lengths_len,
    const uint32_t *plane_parts, size_t plane_parts_len,
    const uint32_t *object_parts, size_t object_parts_len,
    size_t mats,
    const float *materials, size_t materials_len,
    float lox, float loy, float loz,
    float hix, float hiy, float hiz,
    size_t target,
    float *p, size_t p_len,
    float *n, size_t n_len,
    float *albedo, size_t albedo_len,
    float *area, size_t area_len,
    float *direct, size_t direct_len,
    float *irr, size_t irr_len,
    float *rad, size_t rad_len,
    uint32_t *head, size_t head_len,
    uint32_t *next, size_t next_len,
    size_t *count);

/*
 * The grid and the reading
 *
 * A grid of n points is lent as n, starts, items, the box from lo to hi and cell, the side of a cell.
 * Each axis has count(extent (1 / cell)) cells, in float steps, where count is interflect_cell_count;
 * cells are numbered with x fastest, then y. starts needs a number for each cell, where its points begin
 * in items, and one more, for the end; items needs n point numbers. A grid that interflect_grid_build
 * wrote is never refused with 7. For readings take a cell of their radius: the cells within one of a point's
 * own are visited, so that with a smaller cell surfels within the radius are left out. A radius of two or
 * three times the least distance of the surfels mostly covers a surface.
 *
 * A function on a grid refuses with
 *   2  n over 400,000
 *   3  the box or the cell
 *   4  starts or items too short
 *   7  starts that do not begin at 0, that fall, or that do not end at n; an item that is not below n
 * and with what its own comment adds.
 */

/* Puts n points into the cells of the box; a point outside goes to the nearest cell.
 * Needs: p, n points.
 * Writes: starts, and items: the numbers of the points of cell 0, ascending, then those of cell 1, and so on.
 * Outs: dx, dy, dz, how many cells there are on each axis, 1 to 512.
 * Refuses 2 3 4 5: as a function on a grid; 4 also: p too short. 5: one of the n points no point. */
uint32_t interflect_grid_build(
    size_t n,
    const float *p, size_t p_len,
    float lox, float loy, float loz,
    float hix, float hiy, float hiz,
    float cell,
    uint32_t *starts, size_t starts_len,
    uint32_t *items, size_t items_len,
    size_t *dx, size_t *dy, size_t *dz);

/* Lists the items of the cells within reach of the one that px py pz lies in, z outermost, x innermost.
 * Writes: list, as many numbers as there are; that is its need.
 * Outs: count, how many there are.
 * Refuses 2 3 4 5 7. 3 also: reach over 511. 5: px, py or pz no coordinate. The 4 of a list that is too
 * short comes last, after 7. */
uint32_t interflect_near(
    size_t n,
    const uint32_t *starts, size_t starts_len,
    const uint32_t *items, size_t items_len,
    float lox, float loy, float loz,
    float hix, float hiy, float hiz,
    float cell,
    float px, float py, float pz,
    size_t reach,
    uint32_t *list, size_t list_len,
    size_t *count);

/* The indirect irradiance at a point with a normal, read from the surfels within radius in the cells
 * within one of the point's cell. With c the dot product of its normal and the reading's, a surfel weighs
 * (1 - distance^2 / radius^2)^2 c where c is over 0.15, else nothing. Where the weights sum to at most
 * 0.000001 the point is unseen, which is not dark. A point in the air is seen within the radius of such
 * surfels.
 * Needs: p, normals, irr: n vectors each. irr may be any floats.
 * Outs: seen becomes 1 and x y z the indirect irradiance, or seen becomes 0 and x y z zero: ask seen first.
 * Refuses 2 3 4 5 7. 3 also: the radius. 4 also: p, normals or irr too short. 5: a point or normal of
 * a surfel or of the reading out of range. */
uint32_t interflect_gather(
    size_t n,
    const uint32_t *starts, size_t starts_len,
    const uint32_t *items, size_t items_len,
    float lox, float loy, float loz,
    float hix, float hiy, float hiz,
    float cell,
    const float *p, size_t p_len,
    const float *normals, size_t normals_len,
    const float *irr, size_t irr_len,
    float atx, float aty, float atz,
    float nx, float ny, float nz,
    float radius,
    uint32_t *seen,
    float *x, float *y, float *z);

/* The same reading at each of many probes. It checks the tables once, where interflect_gather checks
 * them at each call.
 * Needs: p, normals, irr as interflect_gather; probe_p and probe_normals, probes vectors each.
 * Writes: seen, probes numbers, 1 or 0; light, probes vectors, the indirect irradiance, zeros where seen
 * is 0.
 * Refuses 2 3 4 5 7, as interflect_gather. 2 also: probes over 400,000. 4 also: a slice of the probes
 * too short. 5 also: a probe's point or normal out of range. */
uint32_t interflect_gather_all(
    size_t n,
    const uint32_t *starts, size_t starts_len,
    const uint32_t *items, size_t items_len,
    float lox, float loy, float loz,
    float hix, float hiy, float hiz,
    float cell,
    const float *p, size_t p_len,
    const float *normals, size_t normals_len,
    const float *irr, size_t irr_len,
    size_t probes,
    const float *probe_p, size_t probe_p_len,
    const float *probe_normals, size_t probe_normals_len,
    float radius,
    uint32_t *seen, size_t seen_len,
    float *light, size_t light_len);

/*
 * Clusters and rows
 */

/* Makes clusters of n surfels: those in one of res x res x res voxels of the box whose normals point
 * along one axis are one cluster. A cluster whose area is at most 1e-12 is dropped.
 * Needs: p, normals (n vectors each), area (n floats).
 * Writes: of each cluster cluster_p, cluster_n (vectors), cluster_area, cluster_radius, first and count
 * (its members are the count numbers of members from first on); members, surfel numbers. Each slice
 * needs n entries; entries from made and listed on keep what they held.
 * Scratch: order, spare, n numbers each.
 * Outs: made, how many clusters there are; listed, how many members in all.
 * Refuses 2 3 4 5. 2: n over 400,000. 3: the box, or res outside 1 to 64. 4: a slice too short. 5: a point
 * or normal out of range, or an area outside 0 to 1,000,000.
 * More than 65,536 clusters may be made, which interflect_build refuses: take a smaller res. */
uint32_t interflect_build_clusters(
    size_t n,
    const float *p, size_t p_len,
    const float *normals, size_t normals_len,
    const float *area, size_t area_len,
    float lox, float loy, float loz,
    float hix, float hiy, float hiz,
    size_t res,
    float *cluster_p, size_t cluster_p_len,
    float *cluster_n, size_t cluster_n_len,
    float *cluster_area, size_t cluster_area_len,
    float *cluster_radius, size_t cluster_radius_len,
    uint32_t *first, size_t first_len,
    uint32_t *count, size_t count_len,
    uint32_t *members, size_t members_len,
    uint32_t *order, size_t order_len,
    uint32_t *spare, size_t spare_len,
    size_t *made, size_t *listed);

/* Builds the transfer rows of n surfels over nc clusters: which clusters light a surfel, and by how much.
 * A weight is the cluster's form factor times what is seen of it. A row whose sum is over 0.00001 is scaled,
 * by at most 8, to sum to the part of 16 directions that meets something. The diagonal of the box says how
 * far off the surfel rays begin and how far the 16 directions go: take the box of the placement.
 * The rows of some of the surfels, built by themselves with the same scene, box and clusters, are those
 * rows of the whole: parts may be built on several threads.
 * Needs: p, normals (n vectors each); cluster_p, cluster_n (nc vectors each), cluster_area, cluster_radius
 * (nc floats each).
 * Writes: starts, n + 1 numbers, where each row begins among the links, and the end; link_cluster and
 * link_weight, a link each, as long as the caller likes: n nc places suffice where that is at most
 * 16,777,216, and mostly far fewer do.
 * Scratch: link (nc numbers), weight (nc floats).
 * Outs: links, how many links there are; mean_row_sum, the mean of the row sums over the rows with links,
 * 0 if none has any; evals, how many distances were evaluated, at most n (96 nc + 2,112). row is left alone.
 * Refuses 2 3 4 5 6 8. 2 also: n over 400,000, nc over 65,536. 3: the box. 4 also: any slice but the two
 * of links too short. 5 also: a point or normal out of range, a cluster's area outside 0 to 1e12 or its
 * radius outside 0 to 1,000,000.
 * 8: the links of a row, after those of the rows before it, do not fit the shorter link slice, of which
 * at most 16,777,216 places are used. row becomes that row's number r, the rows before r and starts 0 to
 * r are written, and scratch; the other outs and places stay as they were. */
uint32_t interflect_build(
    size_t prims, size_t planes, size_t objects,
    const uint32_t *kinds, size_t kinds_len,
    const float *lengths, size_t lengths_len,
    const uint32_t *plane_parts, size_t plane_parts_len,
    const uint32_t *object_parts, size_t object_parts_len,
    float lox, float loy, float loz,
    float hix, float hiy, float hiz,
    size_t n,
    const float *p, size_t p_len,
    const float *normals, size_t normals_len,
    size_t nc,
    const float *cluster_p, size_t cluster_p_len,
    const float *cluster_n, size_t cluster_n_len,
    const float *cluster_area, size_t cluster_area_len,
    const float *cluster_radius, size_t cluster_radius_len,
    uint32_t *starts, size_t starts_len,
    uint32_t *link_cluster, size_t link_cluster_len,
    float *link_weight, size_t link_weight_len,
    uint32_t *link, size_t link_len,
    float *weight, size_t weight_len,
    size_t *links, float *mean_row_sum, size_t *evals, size_t *row);

/*
 * The solve
 */

/* Bounces the light of n surfels until the last change is under 0.0001 or limit bounces are made.
 * Needs: albedo, direct (n vectors each), area (n floats); cluster_area, first, count (nc entries each:
 * a cluster's members are the count numbers of member from first on); member (members surfel numbers);
 * starts (n + 1 numbers), link_cluster, link_weight (links entries each): the rows.
 * Writes: irr and rad, n vectors each: the indirect irradiance, and all that a surfel gives off. The
 * bounces go on from the rad that is lent. scratch, nc vectors: the clusters' light of the last bounce.
 * Without clusters, or with a limit of 0, no bounce is made and all three stay as they were.
 * Outs: bounces, how many were made; change, the greatest step of any channel of rad in the last of them,
 * 0 if there was none. The light has settled if bounces is above 0 and change under 0.0001; a white room
 * in lux mostly takes more than 12 bounces to.
 * Refuses 2 4 5 7. 2: n or members over 400,000, nc over 65,536, links over 16,777,216, limit over 4,096.
 * 4: a slice too short. 5: an albedo outside 0 to 1, an area or direct light outside 0 to 1,000,000,
 * a cluster's area outside 0 to 1e12, a weight outside 0 to 2 (irr and rad may be any floats).
 * 7: starts that do not begin at 0, that fall, or that do not end at links; a link to a cluster that is
 * not below nc; links that do not ascend strictly in a row; ranges of members that do not follow one
 * another from 0 to members; a member that is not below n. */
uint32_t interflect_solve(
    size_t n, size_t nc, size_t members, size_t links, size_t limit,
    const float *albedo, size_t albedo_len,
    const float *area, size_t area_len,
    const float *direct, size_t direct_len,
    const float *cluster_area, size_t cluster_area_len,
    const uint32_t *first, size_t first_len,
    const uint32_t *count, size_t count_len,
    const uint32_t *member, size_t member_len,
    const uint32_t *starts, size_t starts_len,
    const uint32_t *link_cluster, size_t link_cluster_len,
    const float *link_weight, size_t link_weight_len,
    float *irr, size_t irr_len,
    float *rad, size_t rad_len,
    float *scratch, size_t scratch_len,
    size_t *bounces, float *change);

/* Sets the light of surfels before the first bounce: direct and rad become light, irr zero.
 * Needs: light, three floats a surfel: what it gives off of the lamps' light, albedo times irradiance.
 * Writes: direct, irr, rad, all of the length of light.
 * Refuses 2 4 5. 2: one of the four over 1,200,000 floats. 4: the four not of one length, or of one that
 * is no multiple of three. 5: a float of light outside 0 to 1,000,000. */
uint32_t interflect_reset(
    const float *light, size_t light_len,
    float *direct, size_t direct_len,
    float *irr, size_t irr_len,
    float *rad, size_t rad_len);

/* The same for light that is kept in records: direct and rad of each become its light, irr zero.
 * Needs: light, three floats a record.
 * Writes: records; records_len counts records.
 * Refuses 2 4 5. 2: light over 1,200,000 floats, or over 400,000 records. 4: light that is not three
 * floats a record. 5: a float of light outside 0 to 1,000,000. */
uint32_t interflect_reset_records(
    const float *light, size_t light_len,
    struct interflect_light *records, size_t records_len);

/*
 * Room files
 *
 * A room file is a header of 16 little-endian words (form 1; how many surfels, clusters, members, links,
 * probes; the limit of bounces; the byte offsets of the six blocks; the length in bytes; two zeros), and
 * from byte 64 on with no gaps: of each surfel p, n, albedo, area, direct; of each cluster its area, first
 * member and how many members; the members; the row starts, one more than surfels; of each link its
 * cluster and weight; lo, hi, cell and radius, and then p and n of each probe.
 */

/* Reads the room that the bytes of a file hold into columns, as the solve and the reading take them.
 * Needs: bytes, 100 to 268,435,456.
 * Writes: p, normals, albedo, direct (a vector a surfel), area (a float a surfel); cluster_area, first,
 * count (an entry a cluster); member (a number a member); starts (one more than surfels); link_cluster,
 * link_weight (an entry a link); probe_p, probe_normals (a vector a probe).
 * Outs: counts, how many surfels, clusters, members, links and probes there are and the limit of bounces;
 * sizes, lo, hi, cell and radius. Each is in the file's order.
 * Refuses 1 2 3 4 5 7. 1: under 64 bytes or over the most, form not 1, a spare word not zero, an offset,
 * the length word or the number of bytes not what the counts give. 2: as interflect_solve, or probes over
 * 400,000. 3: the box, the cell or the radius. 4: a column too short. 5 and 7: as interflect_solve, or a
 * point or normal out of range. */
uint32_t interflect_room_read(
    const uint8_t *bytes, size_t bytes_len,
    float *p, size_t p_len,
    float *normals, size_t normals_len,
    float *albedo, size_t albedo_len,
    float *area, size_t area_len,
    float *direct, size_t direct_len,
    float *cluster_area, size_t cluster_area_len,
    uint32_t *first, size_t first_len,
    uint32_t *count, size_t count_len,
    uint32_t *member, size_t member_len,
    uint32_t *starts, size_t starts_len,
    uint32_t *link_cluster, size_t link_cluster_len,
    float *link_weight, size_t link_weight_len,
    float *probe_p, size_t probe_p_len,
    float *probe_normals, size_t probe_normals_len,
    size_t counts[6], float sizes[8]);

/* Writes what `roomlight` prints of a file: the room reset, solved and read at its probes, or `refused`
 * and the number that refuses the file, which may have at most 65,536 bytes and 16,383 cells.
 * Writes: text, which needs 131,072 bytes: the report in front, with no zero byte behind it.
 * Outs: length, how many bytes the report has.
 * Refuses 4, before it looks at the file: text too short. A file that is refused is reported, and the
 * result is then INTERFLECT_DONE.
 * The call works on some 1.1 MB of stack. */
uint32_t interflect_room_report(
    const uint8_t *bytes, size_t bytes_len,
    uint8_t *text, size_t text_len,
    size_t *length);

/*
 * Floats
 */

/* The square root: the float nearest the exact root, ties to even; -0 gives -0, a number below 0 NaN. */
float interflect_sqrt(float x);

/* The cell, 0 to dim - 1, that holds the coordinate x, counted in cells: the fraction is dropped, outside
 * counts for the nearest cell, NaN for cell 0. With a dim of 0 it is 0. */
size_t interflect_cell(float x, size_t dim);

/* How many cells an extent of x cells takes: x rounded up, at least 1 and at most 512; 1 for NaN. */
size_t interflect_cell_count(float x);

#ifdef __cplusplus
}
#endif

#endif
