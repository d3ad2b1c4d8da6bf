//! What a surfel takes from its surface: the material, the normal; and surfaces that give no number.

use super::*;
use crate::scene_cases::rooms::drawn_shape;
use crate::scene_cases::{capsule, shape, Shape};

pub(super) fn write(script: &mut Script) {
    each_kind(script);
    materials(script);
    outside_the_table(script);
    ties(script);
    short_capsules(script);
    equal_ends(script);
    taken_whole(script);
}

/// Each kind alone, and with a ball taken from it.
fn each_kind(script: &mut Script) {
    script.materials(&PAINTS);
    for kind in 0..7 {
        let random = &mut Random::new(0x6B69_6E64 + u64::from(kind));
        let base = drawn_shape(kind, (at(0.1, -0.2, 0.3), 1.0), random);
        let ball = sphere(at(0.4, 0.1, 0.5), 0.5);
        for taken in [&[][..], &[ball]] {
            script.scene(&Room::with(base, taken));
            assert!(script.placed(Bounds::within(1.5).told(5, 20)) > 0);
        }
    }
}

/// "A surfel's albedo is its material's albedo × (1 − metallic)": metallic at its ends, zeros of both
/// signs, and floats that leave a rounding in the difference and in the product.
fn materials(script: &mut Script) {
    script.scene(&Room::of(&[sphere(at(0.0, 0.0, 0.0), 1.0)]));
    let rest = [0.3, 0.7, 0.9];
    for metallic in [
        0.0,
        -0.0,
        0.5,
        1.0,
        LEAST,
        1.0f32.next_down(),
        0.1,
        1.0 / 3.0,
    ] {
        script.materials(&[PAINTS[0], [rest[0], rest[1], rest[2], metallic]]);
        assert!(script.placed(Bounds::within(1.5).told(2, 3)) > 0);
    }
    for albedo in [[-0.0, 0.0, 1.0], [LEAST, 1.0, -0.0], [0.2, 0.4, 0.8]] {
        script.materials(&[PAINTS[0], [albedo[0], albedo[1], albedo[2], 0.75]]);
        assert!(script.placed(Bounds::within(1.5).told(2, 2)) > 0);
    }
}

/// "a material number outside the table means albedo 0.8, metallic 0": no material at all, numbers at
/// the count and far beyond it. The table holds more than are counted.
fn outside_the_table(script: &mut Script) {
    script.materials(&PAINTS);
    for (mats, number) in [
        (0, 0),
        (0, 5),
        (1, 0),
        (1, 1),
        (1, 5),
        (5, 4),
        (5, 5),
        (16, 15),
        (16, 16),
        (3, 0x4000_0000),
        (3, 0x8000_0000),
        (1, u32::MAX),
    ] {
        let mut room = Room::default();
        room.add(sphere(at(0.0, 0.0, 0.0), 1.0), &[], number);
        room.add(plane(Vec3::Y, -1.0), &[], 0);
        script.scene(&room);
        assert!(script.placed(Bounds::within(1.5).told(mats, 4)) > 0);
    }
}

/// Two surfaces in one place: the first has the surfels, and a plane comes before an object.
fn ties(script: &mut Script) {
    let ball = sphere(at(0.0, 0.0, 0.0), 1.0);
    script.materials(&PAINTS);
    script.scene(&Room::of(&[ball, ball]));
    assert!(script.placed(Bounds::within(1.5).told(5, 8)) > 0);
    let mut room = Room::default();
    room.add(
        round_box(at(0.0, -2.0, 0.0), at(2.0, 2.0, 2.0), 0.0),
        &[],
        3,
    );
    room.add(plane(Vec3::Y, 0.0), &[], 4);
    room.add(plane(Vec3::Y, 0.0), &[], 0);
    script.scene(&room);
    assert!(script.placed(Bounds::within(1.5).told(5, 8)) > 0);
}

/// A capsule whose ends differ by so little that the axis' dot product with itself is zero. Where the
/// point's dot product with the axis is zero too the distance is NaN, at x up to 0.5: the capsule is
/// not there. Two of the normal's taps miss it: x of the normal is NaN, or y, or z.
fn short_capsules(script: &mut Script) {
    script.materials(&PAINTS);
    for axis in 0..3 {
        let mut ends = [0.0; 3];
        ends[axis] = LEAST;
        let [x, y, z] = ends;
        script.scene(&Room::of(&[capsule(at(0.0, 0.0, 0.0), at(x, y, z), 0.8)]));
        for target in [1, 4, 40] {
            let mut bounds = Bounds::within(1.0);
            crate::transfer_cases::put(&mut bounds.lo, axis, 0.5);
            crate::transfer_cases::put(&mut bounds.hi, axis, 0.5004);
            assert!(script.placed(bounds.told(2, target)) > 0);
            assert!(script.site.n[..3].iter().any(|x| x.is_nan()));
        }
        // Farther out all taps meet it.
        script.placed(Bounds::within(1.0).told(2, 24));
    }
}

/// "A capsule with equal ends has distance NaN": alone it has no surface, and a subtraction leaves its
/// own.
fn equal_ends(script: &mut Script) {
    let c = at(0.25, 0.5, -0.25);
    let none = capsule(c, c, 0.75);
    script.scene(&Room::of(&[none]));
    assert_eq!(script.placed(Bounds::within(1.0).told(0, 12)), 0);
    let ball = sphere(at(0.0, 0.0, 0.0), 0.75);
    script.scene(&Room::with(none, &[ball]));
    assert!(script.placed(Bounds::within(1.0).told(0, 12)) > 0);
    script.scene(&Room::of(&[none, ball]));
    assert!(script.placed(Bounds::within(1.0).told(3, 12)) > 0);
}

/// Shapes without size, and a box that is taken from itself: distances of zero in a point, a plane or
/// nowhere.
fn taken_whole(script: &mut Script) {
    let o = at(0.0, 0.0, 0.0);
    let cube = round_box(o, at(0.5, 0.5, 0.5), 0.0);
    let shapes: [(Shape, &[Shape]); 5] = [
        (cube, &[cube]),
        (sphere(o, 0.0), &[]),
        (round_box(o, o, 0.0), &[]),
        (shape(4, &[0.0; 8]), &[]),
        (shape(6, &[0.0, 0.0, 0.0, 0.0, 1.0, 0.0, 0.0, 0.0]), &[]),
    ];
    for (base, taken) in shapes {
        script.scene(&Room::with(base, taken));
        script.placed(Bounds::within(1.0).told(2, 9));
    }
}
