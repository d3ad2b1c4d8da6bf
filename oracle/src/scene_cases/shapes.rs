//! Points where a shape's cases change, ties, and shapes that have no size in some direction.

use super::*;
use crate::random::Random;

const LEAST: f32 = f32::from_bits(1);

pub(super) fn write(script: &mut Script) {
    each_kind(script);
    half_way(script);
    ties(script);
    equal_ends(script);
    short_axes(script);
    no_size(script);
    minus_zero(script);
    planes_without_normal(script);
    subtractions(script);
    limits_of_size(script);
}

/// Stores the room and asks for distance and normal at each point.
fn at_points(script: &mut Script, room: &Room, points: &[Vec3]) {
    script.room(room);
    for &p in points {
        script.dist("dist_mat", p);
        script.ask("normal", &[p], &[]);
    }
}

/// The axis from (0, 0, 0) to (0, 2, 0), its ends and middle, sides, edges and what lies beyond.
fn around_an_axis() -> Vec<Vec3> {
    let mut points = vec![
        at(-0.0, -0.0, -0.0),
        at(-0.5, 0.5, 0.25),
        at(0.3, 1.7, -0.2),
    ];
    for y in [-1.0, 0.0, 0.5, 1.0, 2.0, 2.5] {
        points.extend([0.0, 0.25, 0.5, 1.0].map(|x| at(x, y, 0.0)));
    }
    points
}

fn each_kind(script: &mut Script) {
    let (a, b) = (Vec3::ZERO, at(0.0, 2.0, 0.0));
    let kinds = [
        sphere(at(0.0, 1.0, 0.0), 0.5),
        round_box(at(0.0, 1.0, 0.0), at(0.5, 1.0, 0.75), 0.125),
        plane(at(0.6, 0.8, 0.0), 0.5),
        capsule(a, b, 0.5),
        torus(at(0.0, 1.0, 0.0), 0.5, 0.25),
        cylinder(a, b, 0.5),
        cone(a, b, 0.5, 0.25),
        cone(a, b, 0.25, 1.0),
    ];
    for shape in kinds {
        at_points(script, &Room::with(shape, &[]), &around_an_axis());
    }
}

/// Halfway along a cone's axis, where the nearer cap changes: there the edge of the wider cap is as
/// far off by the cap as by the side, but for rounding.
fn half_way(script: &mut Script) {
    let random = &mut Random::new(0x636F_6E65);
    for _ in 0..4 {
        let (ra, rb) = (random.between(0.1, 1.0), random.between(4.0, 8.0));
        script.room(&Room::with(
            cone(Vec3::ZERO, at(0.0, 2.0, 0.0), ra, rb),
            &[],
        ));
        for _ in 0..10 {
            script.dist("dist_mat", at(random.between(0.0, 20.0), 1.0, 0.0));
        }
    }
    // A wide and flat one, just before and beyond the half, close to the edge.
    script.room(&Room::with(
        cone(Vec3::ZERO, at(0.0, 0.25, 0.0), 0.125, 2.0),
        &[],
    ));
    for along in [0.3, 0.4, 0.45, 0.499, 0.5, 0.501, 0.55, 0.7] {
        for x in [0.1, 1.9, 1.96, 2.1] {
            script.dist("dist_mat", at(x, 0.25 * along, 0.0));
        }
    }
}

/// "only a strictly smaller distance replaces the best".
fn ties(script: &mut Script) {
    let ball = sphere(at(0.0, 2.0, 0.0), 1.0);
    let larger = sphere(at(0.0, 2.0, 0.0), 1f32.next_up());
    let smaller = sphere(at(0.0, 2.0, 0.0), 1f32.next_down());
    let floor = plane(Vec3::Y, 0.0);
    let lists = [
        vec![ball, ball],
        vec![ball, larger, ball],
        vec![ball, smaller],
        vec![ball, floor],
        vec![floor, ball],
        vec![floor, floor, ball, ball],
        vec![larger, floor],
        vec![
            sphere(at(-2.0, 0.5, 0.0), 1.0),
            sphere(at(2.0, 0.5, 0.0), 1.0),
        ],
    ];
    for shapes in lists {
        at_points(script, &Room::of(&shapes), &[at(0.0, 0.5, 0.0)]);
        script.ask("trace", &[at(0.0, 0.5, 0.0), Vec3::Y], &[0.0, 9.0]);
        script.ask("trace", &[at(0.0, 0.5, 0.0), -Vec3::Y], &[0.0, 9.0]);
    }
    // Zeros of either sign are a tie too: on a plane without a normal the distance is -0 below.
    let (no_normal, wall) = (plane(Vec3::ZERO, 0.0), plane(at(1.0, 0.0, 0.0), -1.0));
    for shapes in [[no_normal, wall], [wall, no_normal]] {
        script.room(&Room::of(&shapes));
        script.dist("dist_mat", at(-1.0, -1.0, -1.0));
    }
}

/// "A capsule with equal ends has distance NaN: alone it is never nearest, and a subtraction
/// leaves −s."
fn equal_ends(script: &mut Script) {
    let a = at(0.5, 1.0, -0.25);
    let (dot, ball) = (capsule(a, a, 0.25), sphere(at(0.0, 1.0, 0.0), 0.5));
    let points = [a, Vec3::ZERO, at(0.1, 1.2, 0.0), at(2.0, 3.0, -1.0)];
    let mut rooms = vec![
        Room::with(dot, &[]),
        Room::with(dot, &[ball]),
        Room::with(dot, &[ball, dot]),
        Room::with(dot, &[dot]),
        Room::with(ball, &[dot]),
        Room::of(&[dot, ball]),
        Room::of(&[ball, dot]),
        Room::of(&[plane(Vec3::Y, -1.0), dot]),
    ];
    // Ends that differ, by so little that the axis' dot product is zero or subnormal.
    for x in [1e-23, 1e-20, LEAST] {
        rooms.push(Room::with(capsule(Vec3::ZERO, at(x, 0.0, 0.0), 0.25), &[]));
        rooms.push(Room::with(
            capsule(at(x, -x, 0.0), Vec3::ZERO, 0.25),
            &[ball],
        ));
    }
    for room in rooms {
        at_points(script, &room, &points);
        script.ask(
            "trace",
            &[at(0.0, 1.0, 3.0), at(0.0, 0.0, -1.0)],
            &[0.0, 9.0],
        );
        script.ask(
            "soft_shadow",
            &[at(0.0, 1.0, 3.0), at(0.0, 0.0, -1.0)],
            &[0.0, 5.0, 8.0],
        );
        script.ask("project", &[at(0.2, 1.5, 0.5)], &[0.01, 9.0]);
    }
}

/// Cylinders and cones whose axis is short: below a squared length of 1e-12 they are balls.
fn short_axes(script: &mut Script) {
    let points = [
        Vec3::ZERO,
        at(0.5, 0.25, 0.0),
        at(-1.0, 2.0, 0.5),
        at(1e-6, 1e-7, 0.0),
    ];
    for x in [
        0.0,
        1e-7,
        1e-6f32.next_down(),
        1e-6,
        1e-6f32.next_up(),
        2e-6,
        1e-3,
    ] {
        let (a, b) = (Vec3::ZERO, at(x, 0.0, 0.0));
        at_points(script, &Room::with(cylinder(a, b, 0.5), &[]), &points);
        at_points(script, &Room::with(cone(a, b, 0.5, 0.25), &[]), &points);
        at_points(script, &Room::with(cone(b, a, 0.25, 0.5), &[]), &points);
    }
}

fn no_size(script: &mut Script) {
    let (a, b) = (at(0.0, 0.5, 0.0), at(0.5, 2.0, -0.25));
    let shapes = [
        sphere(a, 0.0),
        sphere(a, -0.0),
        sphere(a, LEAST),
        round_box(a, Vec3::ZERO, 0.0),
        round_box(a, Vec3::ZERO, 0.5),
        round_box(a, at(1.0, 0.0, 0.5), 0.0),
        round_box(a, at(1.0, 0.25, 0.5), 0.5),
        round_box(a, at(-0.0, 0.25, 0.5), -0.0),
        capsule(a, b, 0.0),
        torus(a, 0.0, 0.5),
        torus(a, 0.5, 0.0),
        torus(a, 0.0, 0.0),
        cylinder(a, b, 0.0),
        cone(a, b, 0.0, 0.0),
        cone(a, b, 0.5, 0.0),
        cone(a, b, 0.0, 0.5),
        cone(a, a, 0.0, -0.0),
    ];
    let points = [
        a,
        b,
        Vec3::ZERO,
        at(0.25, 1.25, -0.125),
        at(1.0, 0.5, 0.5),
        at(-0.2, 0.7, 0.9),
    ];
    for shape in shapes {
        at_points(script, &Room::with(shape, &[]), &points);
        script.ask(
            "trace",
            &[at(0.1, 0.6, 3.0), at(0.0, 0.0, -1.0)],
            &[0.0, 9.0],
        );
        script.ask("project", &[at(0.2, 1.5, 0.5)], &[0.01, 9.0]);
    }
}

/// Just within a cylinder or a cone, so close to the surface that the square is zero: -0.
fn minus_zero(script: &mut Script) {
    let (a, b) = (Vec3::ZERO, at(0.0, 2.0, 0.0));
    for r in [1e-23, 1e-20, LEAST] {
        let points = [at(0.0, 1.0, 0.0), at(0.0, 0.5, 0.0), at(r, 1.0, 0.0), a, b];
        at_points(script, &Room::with(cylinder(a, b, r), &[]), &points);
        at_points(script, &Room::with(cone(a, b, r, r), &[]), &points);
    }
    // Just within the ends of a short one.
    let end = 1.1e-6f32;
    let points = [end.next_down(), end, 0.5 * end, LEAST].map(|y| at(0.0, y, 0.0));
    for shape in [
        cylinder(a, at(0.0, end, 0.0), 0.5),
        cone(a, at(0.0, end, 0.0), 0.5, 0.5),
    ] {
        at_points(script, &Room::with(shape, &[]), &points);
    }
}

fn planes_without_normal(script: &mut Script) {
    let points = [at(1.0, 2.0, 3.0), at(-1.0, -2.0, -3.0), at(0.0, -1.0, 0.0)];
    for h in [0.0, -0.0, 1.0, -1.0] {
        at_points(script, &Room::with(plane(Vec3::ZERO, h), &[]), &points);
        script.ask("trace", &[at(0.0, 0.5, 0.0), Vec3::Y], &[0.0, 9.0]);
        script.ask(
            "soft_shadow",
            &[at(0.0, 0.5, 0.0), Vec3::Y],
            &[0.0, 9.0, 8.0],
        );
        script.ask("closure", &[at(0.0, 0.5, 0.0), Vec3::Y], &[9.0]);
        script.ask("project", &[at(0.0, 0.5, 0.0)], &[0.01, 9.0]);
    }
    // A normal so small that the four taps give no gradient, and a long one.
    for n in [
        at(0.0, 1e-10, 0.0),
        at(1e-20, 0.0, 0.0),
        at(0.0, 100.0, -50.0),
    ] {
        at_points(script, &Room::with(plane(n, 0.0), &[]), &points);
        script.ask("project", &[at(0.0, 0.5, 0.0)], &[0.01, 90.0]);
    }
}

fn subtractions(script: &mut Script) {
    let (ball, bite) = (sphere(Vec3::ZERO, 1.0), sphere(at(0.75, 0.0, 0.0), 0.5));
    let (floor, cut) = (plane(Vec3::Y, 0.0), plane(at(0.6, 0.8, 0.0), 0.25));
    let ring = torus(at(0.0, 0.25, 0.0), 0.75, 0.2);
    let pole = cylinder(at(0.0, -2.0, 0.0), at(0.0, 2.0, 0.0), 0.3);
    let points = [
        at(0.5, 0.1, 0.2),
        at(1.5, 0.0, 0.0),
        at(0.0, 0.0, 0.125),
        at(-0.3, 1.2, 0.4),
        at(0.1, -0.7, 0.6),
    ];
    let rooms = [
        Room::with(ball, &[bite]),
        Room::with(ball, &[bite, cut, pole]),
        Room::with(ball, &[pole, cut, bite]),
        Room::with(ball, &[cut]),
        Room::with(ball, &[ball]),
        Room::with(floor, &[bite]),
        Room::with(floor, &[cut, ring]),
        Room::with(bite, &[ball]),
    ];
    for room in rooms {
        at_points(script, &room, &points);
        script.ask(
            "trace",
            &[at(2.5, 0.1, 0.05), at(-1.0, 0.0, 0.0)],
            &[0.0, 9.0],
        );
        script.ask(
            "trace",
            &[at(0.7, 3.0, 0.05), at(0.0, -1.0, 0.0)],
            &[0.0, 9.0],
        );
        script.ask(
            "soft_shadow",
            &[at(0.75, -0.4, 0.0), Vec3::Y],
            &[0.015, 4.0, 8.0],
        );
        script.ask("closure", &[at(0.0, 1.0, 0.0), Vec3::Y], &[9.0]);
        script.ask("project", &[at(0.6, 0.3, 0.1)], &[0.001, 9.0]);
    }
    shared_ranges(script, &[ball, bite, ring, floor, pole], &points);
}

/// One primitive in several parts: as a base, in two ranges, and in the range of its own base.
fn shared_ranges(script: &mut Script, shapes: &[Shape], points: &[Vec3]) {
    let part = |base, first, many, mat| Part {
        base,
        first,
        many,
        mat,
    };
    let room = Room {
        shapes: shapes.to_vec(),
        planes: vec![part(3, 1, 2, 9), part(3, 5, 0, 8)],
        objects: vec![
            part(0, 1, 4, u32::MAX),
            part(4, 1, 2, 0),
            part(2, 2, 1, 5),
            part(1, 0, 0, 6),
        ],
    };
    at_points(script, &room, points);
}

/// The ends of the ranges: points and shapes at 10,000.
fn limits_of_size(script: &mut Script) {
    let far = Vec3::splat(10_000.0);
    let shapes = [
        sphere(-far, 10_000.0),
        round_box(-far, far, 10_000.0),
        plane(far, -10_000.0),
        capsule(-far, far, 10_000.0),
        torus(-far, 10_000.0, 10_000.0),
        cylinder(-far, at(0.0, 10_000.0, 10_000.0), 10_000.0),
        cone(-far, at(10_000.0, 0.0, 10_000.0), 10_000.0, 0.0),
    ];
    let points = [far, -far, at(10_000.0, -10_000.0, 0.5), at(0.25, -0.5, 1.0)];
    for shape in shapes {
        at_points(script, &Room::with(shape, &[]), &points);
        script.ask("trace", &[far, at(-0.6, -0.8, -0.1)], &[0.0, 40_000.0]);
        script.ask(
            "trace",
            &[at(0.0, 9_999.0, -3.0), at(0.5, -0.5, 0.7)],
            &[0.0, 40_000.0],
        );
        script.ask("project", &[at(3.0, -7_000.0, 12.0)], &[1.0, 60_000.0]);
    }
}
