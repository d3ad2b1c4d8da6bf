/* Calls that are right in all but one thing, and the number that must refuse each. */
#ifndef MISTAKES_H
#define MISTAKES_H

#include "interflect.h"
#include "slices.h"

/* A call, and the number that it must return. */
struct mistake {
    const char *what;
    uint32_t number;
    uint32_t (*call)(void);
};

/* Declares the call `name`: the entry called with right arguments `c`, of struct kind, but for one change.
 * right_KIND makes arguments with which the entry answers. */
#define CALL(name, kind, entry, change) \
    static uint32_t name(void)          \
    {                                   \
        struct kind c = right_##kind(); \
        change;                         \
        keep_lent();                    \
        return entry(&c);               \
    }

/* The same with no change. */
#define RIGHT(name, kind, entry) CALL(name, kind, entry, (void)0)

/* Makes each call, and ends the program with a line at the first that returns another number, or that is
 * refused and has written something. */
void try_each(const struct mistake *mistakes, size_t len);

/* Ends the program with this line. */
void mismatch(const char *what, const char *why);

/* The mistakes of each part of the interface. */
void try_scenes(void);
void try_placement(void);
void try_grids(void);
void try_clusters(void);
void try_rows(void);
void try_solves(void);
void try_files(const char *room);

/* A scene of two planes that face each other, two metres apart: arguments of a call. */
struct scene {
    size_t prims, planes, objects;
    struct numbers kinds;
    struct floats lengths;
    struct numbers plane_parts, object_parts;
};

struct scene two_planes(void);

#define SCENE(s)                                                                                   \
    (s).prims, (s).planes, (s).objects, LENT((s).kinds), LENT((s).lengths), LENT((s).plane_parts), \
        LENT((s).object_parts)

/* A box, six arguments of a call. */
struct box {
    float lo[3], hi[3];
};

struct box box_of(float lo, float hi);

#define BOX(b) (b).lo[0], (b).lo[1], (b).lo[2], (b).hi[0], (b).hi[1], (b).hi[2]

#endif
