//! Marches whose directions, ends or sharpness are any float, points that are no coordinates, and
//! the scene that has nothing in it.

use super::*;
use std::f32::consts::FRAC_1_SQRT_2;

const NAN: f32 = f32::NAN;
const INF: f32 = f32::INFINITY;
const LEAST: f32 = f32::from_bits(1);

pub(super) fn write(script: &mut Script) {
    empty(script);
    points_of_any_float(script);
    odd_marches(script);
    step_limits(script);
    odd_shadows(script);
    odd_closures(script);
    odd_projections(script);
}

fn one_of_each_kind() -> [Shape; 7] {
    let (a, b) = (at(0.25, 0.5, 0.0), at(0.5, 2.0, -0.25));
    [
        sphere(a, 0.5),
        round_box(a, at(0.5, 0.25, 0.75), 0.125),
        plane(at(0.0, 1.0, 0.0), -0.5),
        capsule(a, b, 0.25),
        torus(a, 0.75, 0.25),
        cylinder(a, b, 0.25),
        cone(a, b, 0.5, 0.25),
    ]
}

/// A floor and a ball above it.
fn plain_room() -> Room {
    Room::of(&[plane(Vec3::Y, 0.0), sphere(at(0.0, 1.5, 0.0), 0.5)])
}

/// Nothing in the scene, with primitives in the table and with none: the distance is MAX, the
/// material 0, the normal (0, NaN, 0), and a march hits where its end is infinite or NaN.
fn empty(script: &mut Script) {
    let mut unused = Room::of(&one_of_each_kind());
    unused.planes.clear();
    unused.objects.clear();
    for room in [Room::default(), unused] {
        script.room(&room);
        script.each(at(0.5, 0.25, -1.0));
        script.each(Vec3::ZERO);
        let (p, rd) = (at(0.5, 0.25, -1.0), at(0.6, 0.0, -0.8));
        for tmax in [INF, NAN, f32::MAX, 1.0, 0.0, -1.0, -INF] {
            for tmin in [0.0, -1.0, 1e-3, f32::MAX, INF, -INF, NAN] {
                script.ask("trace", &[p, rd], &[tmin, tmax]);
            }
            script.ask("soft_shadow", &[p, rd], &[0.01, tmax, 8.0]);
            script.ask("closure", &[p, rd], &[tmax]);
        }
        script.ask("trace", &[p, Vec3::ZERO], &[0.0, INF]);
        script.ask("trace", &[Vec3::ZERO, at(1.0, -1.0, 0.5)], &[0.0, INF]);
    }
}

/// Infinite, NaN and very large coordinates in each place, in scenes of one shape and of all.
fn points_of_any_float(script: &mut Script) {
    let mut points = vec![Vec3::splat(NAN), at(NAN, INF, -INF), Vec3::splat(-INF)];
    for x in [NAN, INF, -INF, 1e10, -1e10, 1e20, f32::MAX, f32::MIN, LEAST] {
        points.extend([at(x, 0.5, 0.25), at(0.5, x, 0.25), at(0.5, 0.25, x)]);
    }
    let kinds = one_of_each_kind();
    for shape in kinds {
        script.room(&Room::with(shape, &[]));
        for &p in &points {
            script.dist("dist_any", p);
        }
        for &p in points.iter().step_by(4) {
            script.ask("normal_any", &[p], &[]);
        }
    }
    // As a subtraction and from one: max passes over a NaN.
    let rooms = [
        Room::of(&kinds),
        Room::with(kinds[0], &[kinds[1], kinds[5]]),
        Room::with(kinds[5], &[kinds[0], kinds[3]]),
        Room::with(kinds[2], &[kinds[6], kinds[4]]),
    ];
    for room in rooms {
        script.room(&room);
        for &p in &points {
            script.dist("dist_any", p);
        }
        for &p in points.iter().step_by(3) {
            script.ask("normal_any", &[p], &[]);
            script.ask("trace_any", &[p, at(0.6, 0.0, 0.8)], &[0.0, 50.0]);
            script.ask("shadow_any", &[p, at(0.6, 0.0, 0.8)], &[0.0, 5.0, 8.0]);
            script.ask("project", &[p], &[0.01, INF]);
        }
        script.ask("closure_any", &[Vec3::splat(NAN), Vec3::Y], &[9.0]);
        script.ask("closure_any", &[at(1e10, 0.0, 0.0), Vec3::Y], &[9.0]);
    }
}

/// Directions and ends of any float.
fn odd_marches(script: &mut Script) {
    let rooms = [
        plain_room(),
        Room::with(one_of_each_kind()[1], &[]),
        Room::with(one_of_each_kind()[5], &[]),
        Room::with(one_of_each_kind()[3], &[]),
    ];
    let directions = [
        at(0.0, -1.0, 0.0),
        Vec3::ZERO,
        at(NAN, 0.0, 0.0),
        at(0.0, INF, 0.0),
        at(-INF, 0.0, 1.0),
        at(0.0, -1e-20, LEAST),
        at(1e30, -1e30, 0.0),
        at(0.0, -3.0, 0.0),
    ];
    let ends = [
        (0.0, 10.0),
        (5.0, 1.0),
        (0.25, 0.25),
        (-2.0, 10.0),
        (0.0, INF),
        (0.0, NAN),
        (NAN, 10.0),
        (INF, INF),
        (-INF, 10.0),
        (NAN, NAN),
        (1e-3, -INF),
        (f32::MAX, INF),
    ];
    for room in rooms {
        script.room(&room);
        let from = at(0.75, 0.75, 0.25);
        for rd in directions {
            for (tmin, tmax) in [(0.0, 10.0), (0.0, NAN), (1e-3, INF)] {
                script.ask("trace", &[from, rd], &[tmin, tmax]);
            }
            script.ask("soft_shadow", &[from, rd], &[0.01, 10.0, 8.0]);
            script.ask("shadow_any", &[from, rd], &[0.01, INF, 8.0]);
        }
        for (tmin, tmax) in ends {
            let down = at(0.0, -FRAC_1_SQRT_2, FRAC_1_SQRT_2);
            script.ask("trace", &[from, down], &[tmin, tmax]);
            script.ask("trace", &[from, -down], &[tmin, tmax]);
            script.ask("soft_shadow", &[from, -down], &[tmin, tmax, 8.0]);
        }
    }
}

/// Marches that use up their steps: 128 and 96. Along a floor each step is the same height.
fn step_limits(script: &mut Script) {
    script.room(&plain_room());
    let along = at(1.0, 0.0, 0.0);
    for height in [0.0078125, 0.01, 0.1, 1e-4, 1.001e-4] {
        let from = at(-1.0, height, 2.0);
        for steps in [126.0, 127.0, 128.0, 1000.0] {
            script.ask("trace", &[from, along], &[0.0, steps * height]);
        }
        script.ask("trace", &[from, along], &[0.0, NAN]);
        script.ask("soft_shadow", &[from, along], &[0.01, 100.0, 8.0]);
        script.ask("soft_shadow", &[from, along], &[0.01, 0.5, 1000.0]);
    }
    // The hit's size grows with the way: far off, a larger distance is enough.
    for size in [1.0, 100.0, 9_000.0] {
        script.ask(
            "trace",
            &[at(0.0, size, 5.0), at(0.8, -0.6, 0.0)],
            &[0.0, INF],
        );
        script.ask(
            "trace",
            &[at(0.0, size, 5.0), at(1.0, -0.001, 0.0)],
            &[0.0, INF],
        );
    }
    // Samples at and beside 1e-4, where a shadow ends at 0.
    for height in [
        1e-4f32.next_down(),
        1e-4,
        1e-4f32.next_up(),
        0.006,
        0.12,
        0.125,
    ] {
        script.ask(
            "soft_shadow",
            &[at(3.0, height, 0.0), Vec3::Y],
            &[0.0, 1.0, 8.0],
        );
        script.ask(
            "soft_shadow",
            &[at(3.0, height, 0.0), along],
            &[0.0, 1.0, 1000.0],
        );
        script.ask(
            "soft_shadow",
            &[at(3.0, height, 0.0), along],
            &[0.0, 1.0, 0.001],
        );
        script.ask("trace", &[at(3.0, height, 0.0), Vec3::Y], &[0.0, 5.0]);
    }
}

/// Sharpness of any float, and ends where no sample is taken.
fn odd_shadows(script: &mut Script) {
    script.room(&plain_room());
    let sharpness = [
        0.0,
        -0.0,
        1.0,
        8.0,
        64.0,
        1e4,
        1e-3,
        -1.0,
        LEAST,
        -LEAST,
        f32::MAX,
        INF,
        -INF,
        NAN,
    ];
    let rays = [
        (at(2.0, 0.5, 0.0), Vec3::Y),
        (at(0.55, 0.25, 0.0), Vec3::Y),
        (at(0.2, 0.25, 0.1), Vec3::Y),
        (at(1.0, 1e-5, 0.0), Vec3::Y),
        (at(2.0, 0.5, 0.0), at(-0.8, 0.6, 0.0)),
    ];
    for k in sharpness {
        for (ro, rd) in rays {
            script.ask("soft_shadow", &[ro, rd], &[0.015, 3.0, k]);
        }
    }
    // Ends at which no sample is taken, and starts before 0.
    for (tmin, tmax) in [
        (1.0, 1.0),
        (0.5, NAN),
        (NAN, 0.5),
        (2.0, 1.0),
        (INF, INF),
        (0.0, LEAST),
    ] {
        script.ask("soft_shadow", &[rays[0].0, rays[0].1], &[tmin, tmax, 8.0]);
        script.ask("soft_shadow", &[rays[3].0, rays[3].1], &[tmin, tmax, NAN]);
    }
    for tmin in [-1.0, -0.4, -INF, 0.0, -0.0] {
        script.ask("soft_shadow", &[rays[0].0, rays[0].1], &[tmin, 3.0, 8.0]);
    }
    // With samples of MAX: nothing is near.
    script.room(&Room::default());
    for k in sharpness {
        script.ask("soft_shadow", &[Vec3::ZERO, Vec3::Y], &[0.015, 1.0, k]);
        script.ask("shadow_any", &[Vec3::splat(NAN), Vec3::Y], &[0.015, 1.0, k]);
    }
}

/// Normals that are none, and those that decide the frame's sign and its division.
fn odd_closures(script: &mut Script) {
    script.room(&plain_room());
    let normals = [
        at(0.0, 0.0, 1.0),
        at(0.0, 0.0, -1.0),
        at(0.0, 0.0, (-1f32).next_down()),
        at(0.0, 1.0, -0.0),
        at(0.0, 1.0, -LEAST),
        at(-0.6, 0.8, 0.0),
        at(0.36, 0.48, -0.8),
        Vec3::ZERO,
        at(10_000.0, -10_000.0, 10_000.0),
        at(1e-20, 0.0, 1e-20),
    ];
    for n in normals {
        script.ask("closure", &[at(0.75, 0.5, 0.25), n], &[9.0]);
    }
    for n in [at(NAN, 0.0, 0.0), at(0.0, INF, 0.0), at(1e20, 1e20, -1e20)] {
        script.ask("closure", &[at(0.75, 0.5, 0.25), n], &[9.0]);
        script.ask("closure_any", &[at(0.75, 0.5, 0.25), n], &[9.0]);
    }
    for tmax in [0.0, 0.5, 1.0, 2.0, 100.0, INF, NAN, -INF, f32::MAX] {
        script.ask("closure", &[at(0.75, 0.0, 0.25), Vec3::Y], &[tmax]);
        script.ask("closure", &[at(0.0, 1.5, 0.0), Vec3::Y], &[tmax]);
    }
}

/// Sizes and widths of any float; seeds that arrive late or never.
fn odd_projections(script: &mut Script) {
    script.room(&plain_room());
    for eps in [0.0, -0.0, -1.0, LEAST, 1e-9, 1e-3, 1.0, 10.0, INF, NAN] {
        for diag in [9.0, 0.25, 0.0, INF, NAN] {
            script.ask("project", &[at(0.75, 0.75, 0.25)], &[eps, diag]);
        }
    }
    // A plane whose normal is short: each step leaves a part of the way. The last of the ten tests
    // comes before the tenth move.
    let slow = plane(at(0.0, 0.5, 0.0), 0.0);
    script.room(&Room::with(slow, &[]));
    for power in 7..13 {
        script.ask("project", &[at(0.1, 1.0, -0.2)], &[0.5f32.powi(power), 9.0]);
        script.ask(
            "project",
            &[at(0.1, -1.0, -0.2)],
            &[0.5f32.powi(power).next_up(), 9.0],
        );
    }
    // A distance that is as large as the room is wide.
    script.room(&Room::with(plane(Vec3::Y, 0.0), &[]));
    for diag in [1f32.next_down(), 1.0, 1f32.next_up()] {
        script.ask("project", &[at(0.1, 1.0, -0.2)], &[0.01, diag]);
        script.ask("project", &[at(0.1, -1.0, -0.2)], &[0.01, diag]);
    }
    // A plane whose normal is long: each step goes farther away.
    script.room(&Room::with(plane(at(0.0, 3.0, 0.0), 0.0), &[]));
    for diag in [1e3, 1e6, INF] {
        script.ask("project", &[at(0.1, 1.0, -0.2)], &[0.01, diag]);
    }
}
