//! Refusal 3: the box, the size of its cells and the radius at their limits.

use super::*;

pub(super) fn write(script: &mut Script) {
    sizes(script);
    order(script);
    ends(script);
}

/// Patterns that are no numbers.
const NO_NUMBERS: [u32; 6] = [
    0x7FC0_0000,
    0xFFC0_0000,
    0x7F80_0001,
    0xFFFF_FFFF,
    0x7F80_0000,
    0xFF80_0000,
];

/// The room, in cells so large that it is never a grid of too many, with another word in its box.
fn changed(k: usize, word: u32) -> Vec<u32> {
    let mut room = several_of_each();
    room.cell = 10.0;
    let words = room.words();
    let at = place(&words, PROBES, k);
    edited(&words, &[(at, word)])
}

/// "beyond 10,000 in size": each of the six floats of the box.
fn sizes(script: &mut Script) {
    let most = 10_000.0f32;
    for axis in 0..3 {
        for (size, number) in [
            (most, 0),
            (most.next_up(), 3),
            (most.next_down(), 0),
            (f32::MAX, 3),
        ] {
            script.tried(&changed(axis, (-size).to_bits()), number);
            script.tried(&changed(3 + axis, size.to_bits()), number);
            // lo so large is above hi, hi so small below lo.
            script.tried(&changed(axis, size.to_bits()), 3);
            script.tried(&changed(3 + axis, (-size).to_bits()), 3);
        }
        for word in NO_NUMBERS {
            script.tried(&changed(axis, word), 3);
            script.tried(&changed(3 + axis, word), 3);
        }
    }
    // The magnitude, not the extent, is limited.
    let mut room = several_of_each();
    (room.lo, room.hi, room.cell) = (Vec3::splat(-6_000.0), Vec3::splat(6_000.0), 1_000.0);
    script.printed(&room);
    (room.lo, room.hi) = (Vec3::splat(most), Vec3::splat(most));
    script.printed(&room);
    (room.lo, room.hi) = (Vec3::splat(-most), Vec3::splat(-most));
    script.printed(&room);
}

/// "lo above hi on an axis", by one float and by the sign of a zero.
fn order(script: &mut Script) {
    let pairs = [
        (1.0, 1.0, 0),
        (1.0f32.next_up(), 1.0, 3),
        (1.0f32.next_down(), 1.0, 0),
        (0.0, -0.0, 0),
        (-0.0, 0.0, 0),
        (LEAST, 0.0, 3),
        (LEAST, -0.0, 3),
        (0.0, -LEAST, 3),
        (-LEAST, LEAST, 0),
        (-2.0, -1.0, 0),
        (-1.0, -2.0, 3),
        (-INF, INF, 3),
        (NAN, NAN, 3),
    ];
    for axis in 0..3 {
        for (lo, hi, number) in pairs {
            let words = changed(axis, lo.to_bits());
            let at = place(&words, PROBES, 3 + axis);
            script.tried(&edited(&words, &[(at, hi.to_bits())]), number);
        }
    }
    let mut room = several_of_each();
    (room.lo, room.hi) = (room.hi, room.lo);
    script.tried(&room.words(), 3);
}

/// "cell outside 0.0001..10,000; radius outside 0..10,000". A cell of 0.0001 makes too many.
fn ends(script: &mut Script) {
    let (least, most) = (0.0001f32, 10_000.0f32);
    let cells = [
        (least, 4),
        (least.next_up(), 4),
        (least.next_down(), 3),
        (most, 0),
        (most.next_down(), 0),
        (most.next_up(), 3),
        (0.0, 3),
        (-0.0, 3),
        (LEAST, 3),
        (-1.0, 3),
        (-least, 3),
        (f32::MAX, 3),
    ];
    for (cell, number) in cells {
        script.tried(&changed(6, cell.to_bits()), number);
    }
    let radii = [
        (0.0, 0),
        (-0.0, 0),
        (LEAST, 0),
        (f32::MIN_POSITIVE, 0),
        (-LEAST, 3),
        (-1.0, 3),
        (most, 0),
        (most.next_down(), 0),
        (most.next_up(), 3),
        (f32::MAX, 3),
    ];
    for (radius, number) in radii {
        script.tried(&changed(7, radius.to_bits()), number);
    }
    for word in NO_NUMBERS {
        script.tried(&changed(6, word), 3);
        script.tried(&changed(7, word), 3);
    }
}
