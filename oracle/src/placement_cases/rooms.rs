//! Rooms of some metres with shapes of all kinds, drawn at random, and rooms closed by six planes.

use super::*;
use crate::scene_cases::rooms::{drawn_shape, point, Drawn};
use crate::scene_cases::{cone, cylinder, torus};
use crate::transfer_cases::closed;

pub(super) fn write(script: &mut Script) {
    for seed in 0..DRAWN {
        drawn_room(script, seed);
    }
    for seed in 0..CROWDED {
        crowded_room(script, seed);
    }
    closed_rooms(script);
    furnished_room(script);
}

const DRAWN: u64 = 60;
const CROWDED: u64 = 12;

const TARGETS: [u32; 13] = [1, 24, 2, 10, 40, 3, 64, 5, 16, 33, 7, 50, 12];

/// One to six objects and none to three planes, some of them with subtractions, in bounds that hold
/// them all or a part of them.
fn drawn_room(script: &mut Script, seed: u64) {
    let random = &mut Random::new(0x706C_6163 + seed);
    script.scene(&Drawn::new(seed as u32, random).room);
    let mats = drawn_materials(script, random);
    let turn = seed as usize;
    for target in [TARGETS[turn % 13], TARGETS[(5 * turn + 3) % 13]] {
        let bounds = drawn_bounds(random);
        script.placed(bounds.told(mats, target));
    }
}

/// Eight objects, one or two of each kind, some with a shape taken from them, and a floor.
fn crowded_room(script: &mut Script, seed: u64) {
    let random = &mut Random::new(0x6372_6F77 + seed);
    let mut room = Room::default();
    room.add(plane(Vec3::Y, -1.5), &[], 7);
    for j in 0..8 {
        let kind = [0, 1, 3, 4, 5, 6][((seed + j) % 6) as usize];
        let spot = (point(random, 1.6), random.between(0.3, 1.0));
        let base = drawn_shape(kind, spot, random);
        let hole = (spot.0 + point(random, 0.4 * spot.1), 0.6 * spot.1);
        let taken = [drawn_shape(random.below(7), hole, random)];
        room.add(base, &taken[..(j % 2) as usize], j as u32);
    }
    script.scene(&room);
    let mats = drawn_materials(script, random);
    let target = [20, 48, 96, 8][seed as usize % 4];
    let size = random.between(1.5, 3.0);
    script.placed(Bounds::within(size).told(mats, target));
}

/// Bounds around the middle, or any box; how long its sides are has no rule.
fn drawn_bounds(random: &mut Random) -> Bounds {
    if random.below(3) == 0 {
        return Bounds::within(random.between(1.5, 4.0));
    }
    let (a, b) = (point(random, 3.0), point(random, 3.0));
    Bounds {
        lo: a.min(b) - Vec3::splat(0.5),
        hi: a.max(b) + Vec3::splat(0.5),
    }
}

/// None to five materials; parts have the numbers 0 to 4, or 7.
fn drawn_materials(script: &mut Script, random: &mut Random) -> u32 {
    let mats = random.below(6);
    let list: Vec<Material> = (0..mats)
        .map(|_| std::array::from_fn(|_| random.between(0.0, 1.0)))
        .collect();
    script.materials(&list);
    mats
}

/// Six planes in the bounds have more surface than most targets ask for, and the call ends before its
/// seeds do; six planes inside the bounds have less.
fn closed_rooms(script: &mut Script) {
    script.materials(&PAINTS);
    script.scene(&closed(2.0));
    for target in [1, 2, 6, 32, 100, SURFELS as u32] {
        let placed = script.placed(Bounds::within(2.0).told(5, target));
        let reached = ![2, 32].contains(&target);
        assert_eq!(placed == target as usize, reached);
    }
    script.scene(&closed(1.25));
    for target in [4, 60] {
        let placed = script.placed(Bounds::within(2.0).told(5, target));
        assert!(placed < target as usize);
    }
}

/// A room with a table, a shelf, a lamp, a bowl and a ring.
fn furnished_room(script: &mut Script) {
    let mut room = closed(2.5);
    let board = round_box(at(0.5, -0.2, -1.5), at(0.8, 0.5, 0.05), 0.02);
    room.add(board, &[], 1);
    for (x, y) in [(-0.2, -0.6), (1.2, -0.6), (-0.2, 0.2), (1.2, 0.2)] {
        room.add(cylinder(at(x, y, -2.5), at(x, y, -1.5), 0.06), &[], 2);
    }
    let shelf = round_box(at(-2.2, 0.5, -1.0), at(0.3, 1.0, 1.5), 0.0);
    let hollow = round_box(at(-2.0, 0.5, -0.9), at(0.3, 0.9, 0.5), 0.0);
    room.add(shelf, &[hollow], 0);
    room.add(cone(at(0.0, 0.0, 2.5), at(0.0, 0.0, 1.9), 0.1, 0.5), &[], 3);
    room.add(sphere(at(0.6, -0.2, -1.3), 0.2), &[], 4);
    room.add(torus(at(1.5, 1.5, -2.0), 0.6, 0.2), &[], 9);
    script.scene(&room);
    script.materials(&PAINTS);
    for target in [12, 100, SURFELS as u32] {
        script.placed(Bounds::within(2.5).told(5, target));
    }
    // Bounds within the room: most of the walls are outside of them.
    let inside = Bounds {
        lo: at(-2.5, -1.5, -2.4),
        hi: at(2.4, 1.5, 2.3),
    };
    assert!(script.placed(inside.told(5, 80)) < 80);
}
