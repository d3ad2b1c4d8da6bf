/* Mistakes in the five queries on a scene. */
#include "mistakes.h"

#include <math.h>

struct scene two_planes(void)
{
    static const uint32_t kinds[] = {2, 2};
    static const float lengths[] = {
        0.0f, 0.0f, 1.0f, 0.0f, 0.0f, 0.0f, 0.0f, 0.0f,
        0.0f, 0.0f, -1.0f, -2.0f, 0.0f, 0.0f, 0.0f, 0.0f,
    };
    static const uint32_t plane_parts[] = {0, 0, 0, 0, 1, 0, 0, 1};
    struct scene s;
    s.prims = 2;
    s.planes = 2;
    s.objects = 0;
    s.kinds = numbers_of(WHOLE(kinds));
    s.lengths = floats_of(WHOLE(lengths));
    s.plane_parts = numbers_of(WHOLE(plane_parts));
    s.object_parts = blank_numbers(0);
    return s;
}

struct box box_of(float lo, float hi)
{
    struct box b = {{lo, lo, lo}, {hi, hi, hi}};
    return b;
}

/* A point p, a direction or normal v, and the ends of a march. */
struct query {
    struct scene scene;
    float p[3], v[3];
    float tmin, tmax;
};

static struct query right_query(void)
{
    struct query c = {two_planes(), {0.0f, 0.0f, 0.5f}, {0.0f, 0.0f, 1.0f}, 0.01f, 10.0f};
    return c;
}

#define XYZ(v) (v)[0], (v)[1], (v)[2]

static uint32_t dist_mat(const struct query *c)
{
    return interflect_dist_mat(SCENE(c->scene), XYZ(c->p), float_out(), number_out());
}

static uint32_t normal(const struct query *c)
{
    return interflect_normal(SCENE(c->scene), XYZ(c->p), float_out(), float_out(), float_out());
}

static uint32_t trace(const struct query *c)
{
    return interflect_trace(
        SCENE(c->scene), XYZ(c->p), XYZ(c->v), c->tmin, c->tmax,
        number_out(), float_out(),
        float_out(), float_out(), float_out(),
        float_out(), float_out(), float_out(),
        number_out(), number_out());
}

static uint32_t soft_shadow(const struct query *c)
{
    return interflect_soft_shadow(
        SCENE(c->scene), XYZ(c->p), XYZ(c->v), c->tmin, c->tmax, 8.0f, float_out(), number_out());
}

static uint32_t hemisphere_closure(const struct query *c)
{
    return interflect_hemisphere_closure(
        SCENE(c->scene), XYZ(c->p), XYZ(c->v), c->tmax, float_out(), number_out());
}

RIGHT(dist_mat_right, query, dist_mat)
CALL(dist_mat_empty, query, dist_mat,
     c.scene.prims = c.scene.planes = 0; c.scene.kinds = c.scene.plane_parts = blank_numbers(0);
     c.scene.lengths = blank_floats(0))
CALL(dist_mat_kind, query, dist_mat, c.scene.kinds.at[1] = 7)
CALL(dist_mat_object, query, dist_mat, c.scene.objects = 1; c.scene.object_parts = c.scene.plane_parts)
CALL(dist_mat_point, query, dist_mat, c.p[2] = 10001.0f)
RIGHT(normal_right, query, normal)
CALL(normal_length, query, normal, c.scene.lengths.at[8] = INFINITY)
CALL(normal_point, query, normal, c.p[0] = NAN)
RIGHT(trace_right, query, trace)
CALL(trace_any_ray, query, trace, c.v[0] = NAN; c.tmax = INFINITY)
CALL(trace_parts, query, trace, c.scene.plane_parts = numbers_of(c.scene.plane_parts.at, 7))
RIGHT(shadow_right, query, soft_shadow)
CALL(shadow_prims, query, soft_shadow, c.scene.prims = 257)
CALL(shadow_huge, query, soft_shadow, c.scene.prims = SIZE_MAX)
CALL(shadow_subtracted, query, soft_shadow, c.scene.plane_parts.at[2] = 3)
RIGHT(closure_right, query, hemisphere_closure)
CALL(closure_normal, query, hemisphere_closure, c.v[1] = -INFINITY)
CALL(closure_kinds, query, hemisphere_closure, c.scene.kinds = blank_numbers(0))

void try_scenes(void)
{
    static const struct mistake mistakes[] = {
        {"dist_mat", INTERFLECT_DONE, dist_mat_right},
        {"dist_mat of an empty scene of null slices", INTERFLECT_DONE, dist_mat_empty},
        {"dist_mat with a kind of 7", INTERFLECT_SCENE_INCONSISTENT, dist_mat_kind},
        {"dist_mat with a plane as an object's base", INTERFLECT_SCENE_INCONSISTENT, dist_mat_object},
        {"dist_mat at a point beyond 10,000", INTERFLECT_FLOAT_OUT_OF_RANGE, dist_mat_point},
        {"normal", INTERFLECT_DONE, normal_right},
        {"normal with an infinite length", INTERFLECT_FLOAT_OUT_OF_RANGE, normal_length},
        {"normal at a NaN", INTERFLECT_FLOAT_OUT_OF_RANGE, normal_point},
        {"trace", INTERFLECT_DONE, trace_right},
        {"trace along a NaN without an end", INTERFLECT_DONE, trace_any_ray},
        {"trace with plane_parts a number short", INTERFLECT_SLICE_TOO_SHORT, trace_parts},
        {"soft_shadow", INTERFLECT_DONE, shadow_right},
        {"soft_shadow with 257 primitives", INTERFLECT_COUNT_TOO_LARGE, shadow_prims},
        {"soft_shadow with the greatest count of primitives", INTERFLECT_COUNT_TOO_LARGE, shadow_huge},
        {"soft_shadow with a subtracted range past the table", INTERFLECT_SCENE_INCONSISTENT, shadow_subtracted},
        {"hemisphere_closure", INTERFLECT_DONE, closure_right},
        {"hemisphere_closure with an infinite normal", INTERFLECT_FLOAT_OUT_OF_RANGE, closure_normal},
        {"hemisphere_closure with null kinds", INTERFLECT_SLICE_TOO_SHORT, closure_kinds},
    };
    try_each(WHOLE(mistakes));
}
