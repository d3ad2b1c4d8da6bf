//! Refused calls: each row of document 01's table that touches a scene, at its limits.

use super::*;
use crate::tables::{OBJECTS, PLANES, PRIMS};

const NAN: f32 = f32::NAN;
const INF: f32 = f32::INFINITY;
const LEAST: f32 = f32::from_bits(1);

pub(super) fn write(script: &mut Script) {
    counts(script);
    short_tables(script);
    coordinates(script);
    lengths(script);
    unused_floats(script);
    kinds(script);
    bases(script);
    ranges(script);
    lowest_first(script);
}

const P: Vec3 = Vec3::new(0.25, 3.0, 0.5);

fn part(base: u32, first: u32, many: u32) -> Part {
    Part {
        base,
        first,
        many,
        mat: 3,
    }
}

/// Primitive 0 is a ball, 1 a floor, 2 a box; the floor is the plane, the ball and the box objects.
fn good() -> Room {
    Room {
        shapes: vec![
            sphere(at(0.0, 1.0, 0.0), 0.5),
            plane(Vec3::Y, 0.0),
            round_box(at(2.0, 0.5, 0.0), at(0.5, 0.25, 0.75), 0.125),
        ],
        planes: vec![part(1, 0, 1)],
        objects: vec![part(0, 1, 2), part(2, 0, 0)],
    }
}

/// A room of as many parts as the tables hold, all of them good.
fn full() -> Room {
    let shapes = (0..PRIMS).map(|k| match k {
        0 => plane(Vec3::Y, 0.0),
        _ => sphere(at(k as f32, 1.0, 0.0), 0.5),
    });
    Room {
        shapes: shapes.collect(),
        planes: vec![part(0, 1, 2); PLANES],
        objects: (0..OBJECTS as u32).map(|j| part(j.max(1), 15, 1)).collect(),
    }
}

/// Counts over 256 are 2, whatever is lent.
fn counts(script: &mut Script) {
    script.room(&full());
    script.each(P);
    for count in [257, 1000, u32::MAX] {
        for [prims, planes, objects] in [[count, 0, 0], [16, count, 16], [16, 8, count]] {
            script.counts(prims, planes, objects);
            script.dist("dist_mat", P);
        }
    }
    script.counts(257, 8, 16);
    script.each(P);
}

/// Counts up to 256 that the tables have no places for are 4.
fn short_tables(script: &mut Script) {
    for [prims, planes, objects] in [[16, 8, 16], [0, 0, 0], [16, 0, 0]] {
        script.counts(prims, planes, objects);
        script.dist("dist_mat", P);
    }
    for [prims, planes, objects] in [
        [17, 8, 16],
        [16, 9, 16],
        [16, 8, 17],
        [256, 8, 16],
        [16, 256, 16],
        [16, 8, 256],
        [256, 256, 256],
        [17, 0, 0],
        [0, 9, 0],
        [0, 0, 17],
    ] {
        script.counts(prims, planes, objects);
        script.dist("dist_mat", P);
    }
    script.counts(17, 8, 16);
    script.each(P);
    // Places that are not there: nothing is stored.
    script.prim(16, shape(7, &[NAN]));
    script.prim(u32::MAX, shape(7, &[NAN]));
    script.plane(8, part(99, 99, 99));
    script.object(16, part(99, 99, 99));
    script.counts(16, 8, 16);
    script.dist("dist_mat", P);
}

/// Points and normals within ±10,000. Directions, ends and sharpness are not looked at.
fn coordinates(script: &mut Script) {
    script.room(&good());
    let end = 10_000f32;
    let floats = [
        end,
        -end,
        end.next_up(),
        (-end).next_down(),
        NAN,
        INF,
        -INF,
        1e30,
        -0.0,
    ];
    for x in floats {
        let in_place = [at(x, 3.0, 0.5), at(0.25, x, 0.5), at(0.25, 3.0, x)];
        for v in in_place {
            script.dist("dist_mat", v);
            script.ask("normal", &[v], &[]);
            script.ask("trace", &[v, Vec3::Y], &[0.0, 9.0]);
            script.ask("soft_shadow", &[v, Vec3::Y], &[0.01, 1.0, 8.0]);
            script.ask("closure", &[v, Vec3::Y], &[9.0]);
            script.ask("closure", &[P, v], &[9.0]);
            script.ask("project", &[v], &[0.01, 20.0]);
            script.ask("trace", &[P, v], &[0.0, 9.0]);
            script.ask("soft_shadow", &[P, v], &[0.01, 1.0, 8.0]);
        }
        script.dist("dist_any", in_place[1]);
        script.ask("normal_any", &[in_place[1]], &[]);
        script.ask("trace_any", &[in_place[1], Vec3::Y], &[0.0, 9.0]);
        script.ask("shadow_any", &[in_place[1], Vec3::Y], &[0.01, 1.0, 8.0]);
        script.ask("closure_any", &[in_place[1], in_place[2]], &[9.0]);
        script.ask("trace", &[P, Vec3::Y], &[x, 9.0]);
        script.ask("soft_shadow", &[P, Vec3::Y], &[0.01, 1.0, x]);
    }
}

/// Each float that a kind uses, at the ends of its range and beyond them.
fn lengths(script: &mut Script) {
    // How many floats are coordinates, and how many after them are radii or half-sizes.
    let used = [(3, 1), (3, 4), (4, 0), (6, 1), (3, 2), (6, 1), (6, 2)];
    let end = 10_000f32;
    script.room(&good());
    for (kind, (positions, sizes)) in (0..).zip(used) {
        for i in 0..positions + sizes {
            let least = if i < positions { -end } else { 0.0 };
            let below = if i < positions {
                (-end).next_down()
            } else {
                -LEAST
            };
            for x in [end, least, end.next_up(), below, NAN, INF] {
                let mut odd = shape(kind, &[0.5; 8]);
                odd.lengths[i] = x;
                script.prim(1, odd);
                let part = part(1, 0, 1);
                if kind == 2 {
                    script.counts(2, 1, 0);
                    script.plane(0, part);
                } else {
                    script.counts(2, 0, 1);
                    script.object(0, part);
                }
                script.dist("dist_mat", P);
            }
        }
    }
}

/// Floats that a kind does not use are ignored, and so are primitives past the count; a primitive
/// that no part uses is checked as the others are.
fn unused_floats(script: &mut Script) {
    for (kind, used) in [(0, 4), (1, 7), (2, 4), (3, 7), (4, 5), (5, 7)] {
        for x in [NAN, -INF, 1e30, -1.0] {
            let mut odd = shape(kind, &[x; 8]);
            odd.lengths[..used].fill(0.5);
            if kind == 3 || kind == 5 {
                odd.lengths[0] = 0.0;
            }
            script.room(&Room::with(odd, &[]));
            script.dist("dist_mat", P);
        }
    }
    for x in [NAN, 10_000f32.next_up()] {
        let mut room = good();
        room.shapes.push(sphere(at(0.0, 0.0, x), 0.5));
        script.room(&room);
        script.dist("dist_mat", P);
        script.counts(3, 1, 2);
        script.dist("dist_mat", P);
    }
    script.room(&Room::with(sphere(P, NAN), &[]));
    script.each(P);
    // No part at all, and one bad primitive.
    script.counts(1, 0, 0);
    script.dist("dist_mat", P);
    script.counts(0, 0, 0);
    script.dist("dist_mat", P);
}

/// Kinds over 6 are 6, used or not, and have no float in use.
fn kinds(script: &mut Script) {
    for kind in [6, 7, 8, 255, 256, 1 << 16, 0x8000_0000, u32::MAX] {
        let mut room = good();
        room.shapes.push(shape(kind, &[0.5; 8]));
        script.room(&room);
        script.dist("dist_mat", P);
        room.objects.push(part(3, 0, 0));
        script.room(&room);
        script.dist("dist_mat", P);
        script.counts(3, 1, 2);
        script.dist("dist_mat", P);
    }
    let mut room = good();
    room.shapes.push(shape(7, &[NAN; 8]));
    script.room(&room);
    script.each(P);
}

/// A base that is outside the table, a plane as an object's base, another shape as a plane's.
fn bases(script: &mut Script) {
    for base in [2, 3, 4, 255, 256, 0x8000_0000, u32::MAX] {
        script.room(&good());
        script.object(1, part(base, 0, 0));
        script.dist("dist_mat", P);
        script.room(&good());
        script.plane(0, part(base, 0, 0));
        script.dist("dist_mat", P);
    }
    for kind in 0..7 {
        let mut room = good();
        room.shapes
            .push(shape(kind, &[0.0, 0.25, 0.5, 0.5, 0.75, 0.25, 0.5, 0.25]));
        for (planes, objects) in [(vec![part(3, 0, 0)], vec![]), (vec![], vec![part(3, 0, 0)])] {
            room.planes = planes;
            room.objects = objects;
            script.room(&room);
            script.dist("dist_mat", P);
        }
    }
    // The last of several parts, and a part past the count.
    let mut room = good();
    room.objects.push(part(1, 0, 0));
    script.room(&room);
    script.each(P);
    script.counts(3, 1, 2);
    script.dist("dist_mat", P);
}

/// Subtracted ranges: first and how many come to at most the count of primitives.
fn ranges(script: &mut Script) {
    let (most, half) = (u32::MAX, 0x8000_0000);
    let ends = [
        (0, 3),
        (1, 2),
        (3, 0),
        (2, 1),
        (0, 4),
        (1, 3),
        (3, 1),
        (4, 0),
        (256, 0),
        (most, 0),
        (most, 1),
        (most, 2),
        (1, most),
        (0, most),
        (half, half),
        (most, most),
    ];
    for (first, many) in ends {
        script.room(&good());
        script.object(0, part(0, first, many));
        script.dist("dist_mat", P);
        script.room(&good());
        script.plane(0, part(1, first, many));
        script.dist("dist_mat", P);
    }
    // A range within the table and past the count.
    script.room(&good());
    script.object(1, part(2, 2, 2));
    script.dist("dist_mat", P);
    script.counts(4, 1, 2);
    script.dist("dist_mat", P);
    script.room(&good());
    script.object(0, part(0, 3, 1));
    script.each(P);
}

/// Several apply: the lowest number is returned.
fn lowest_first(script: &mut Script) {
    let (far, bad_kind) = (at(0.0, 0.0, 10_001.0), shape(7, &[0.0]));
    let mut room = good();
    room.shapes[2] = bad_kind;
    script.room(&room);
    // 6, then 5 by the point, by a length, then 4, then 2.
    script.dist("dist_mat", P);
    script.dist("dist_mat", far);
    script.ask("closure", &[P, far], &[9.0]);
    script.ask("project", &[far], &[0.01, 9.0]);
    script.prim(0, sphere(P, INF));
    script.dist("dist_mat", P);
    script.dist("dist_any", far);
    script.object(0, part(9, 9, 9));
    script.dist("dist_mat", P);
    script.counts(3, 9, 2);
    script.dist("dist_mat", far);
    script.counts(17, 1, 2);
    script.dist("dist_mat", far);
    script.counts(17, 1, 257);
    script.dist("dist_mat", far);
    script.each(far);
    script.room(&good());
    script.each(far);
    script.each(P);
}
