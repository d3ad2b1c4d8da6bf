/* Mistakes in placement. Its scratch is exactly what the header says. */
#include "mistakes.h"

struct placing {
    struct scene scene;
    size_t mats;
    struct floats materials;
    struct box box;
    size_t target;
    struct floats p, n, albedo, area, direct, irr, rad;
    struct numbers head, next;
};

/* How many numbers head needs, in the float steps of the header. */
static size_t head_need(struct box b, size_t target)
{
    float ex = b.hi[0] - b.lo[0];
    float ey = b.hi[1] - b.lo[1];
    float ez = b.hi[2] - b.lo[2];
    float diagonal = interflect_sqrt(ex * ex + ey * ey + ez * ez);
    float d = diagonal / interflect_sqrt((float)target);
    float per_metre = 1.0f / (d > 0.0001f ? d : 0.0001f);
    return interflect_cell_count(ex * per_metre) * interflect_cell_count(ey * per_metre)
        * interflect_cell_count(ez * per_metre);
}

static struct placing right_placing(void)
{
    static const float materials[] = {0.8f, 0.7f, 0.6f, 0.0f, 0.5f, 0.5f, 0.5f, 0.25f};
    enum { TARGET = 20 };
    struct placing c;
    c.scene = two_planes();
    c.mats = 2;
    c.materials = floats_of(WHOLE(materials));
    c.box = box_of(-1.0f, 2.5f);
    c.target = TARGET;
    c.p = blank_floats(3 * TARGET);
    c.n = blank_floats(3 * TARGET);
    c.albedo = blank_floats(3 * TARGET);
    c.area = blank_floats(TARGET);
    c.direct = blank_floats(3 * TARGET);
    c.irr = blank_floats(3 * TARGET);
    c.rad = blank_floats(3 * TARGET);
    c.head = blank_numbers(head_need(c.box, TARGET));
    c.next = blank_numbers(TARGET);
    return c;
}

static uint32_t generate(const struct placing *c)
{
    return interflect_generate(
        SCENE(c->scene), c->mats, LENT(c->materials), BOX(c->box), c->target,
        LENT(c->p), LENT(c->n), LENT(c->albedo), LENT(c->area),
        LENT(c->direct), LENT(c->irr), LENT(c->rad),
        LENT(c->head), LENT(c->next), count_out());
}

RIGHT(generate_right, placing, generate)
CALL(generate_none, placing, generate, c.target = 0; c.head = blank_numbers(1);
     c.p = c.n = c.albedo = c.area = c.direct = c.irr = c.rad = blank_floats(0); c.next = blank_numbers(0))
CALL(generate_target, placing, generate, c.target = 400001)
CALL(generate_mats, placing, generate, c.mats = 257)
CALL(generate_box, placing, generate, c.box.lo[1] = 3.0f)
CALL(generate_head, placing, generate, c.head = blank_numbers(c.head.len - 1))
CALL(generate_rad, placing, generate, c.rad = blank_floats(c.rad.len - 1))
CALL(generate_metallic, placing, generate, c.materials.at[7] = 1.5f)
CALL(generate_base, placing, generate, c.scene.plane_parts.at[4] = 2)

void try_placement(void)
{
    static const struct mistake mistakes[] = {
        {"generate", INTERFLECT_DONE, generate_right},
        {"generate with a target of 0 and null columns", INTERFLECT_DONE, generate_none},
        {"generate with a target of 400,001", INTERFLECT_COUNT_TOO_LARGE, generate_target},
        {"generate with 257 materials", INTERFLECT_COUNT_TOO_LARGE, generate_mats},
        {"generate with lo above hi", INTERFLECT_SIZE_OUT_OF_RANGE, generate_box},
        {"generate with head a number short", INTERFLECT_SLICE_TOO_SHORT, generate_head},
        {"generate with rad a float short", INTERFLECT_SLICE_TOO_SHORT, generate_rad},
        {"generate with a metallic of 1.5", INTERFLECT_FLOAT_OUT_OF_RANGE, generate_metallic},
        {"generate with a base past the table", INTERFLECT_SCENE_INCONSISTENT, generate_base},
    };
    try_each(WHOLE(mistakes));
}
