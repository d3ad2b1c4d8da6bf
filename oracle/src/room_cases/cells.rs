//! Grids: the least and the largest cell, 512 cells on an axis, as many cells as there are places for
//! starts and one more, and readings that depend on the cells.

use super::*;
use crate::room_refusals as refusals;

pub(super) fn write(script: &mut Script) {
    limits(script);
    clamped(script);
    steps(script);
    least_and_largest(script);
    neighbours(script);
    outside(script);
}

/// A room of several surfels about the box from 0 to this corner, read near some of them.
fn within(hi: Vec3, cell: f32) -> RoomFile {
    let mut room = several_of_each();
    room.hi = hi;
    room.cell = cell;
    room.radius = (2.0 * cell).min(10_000.0);
    for (k, s) in room.surfels.iter_mut().enumerate() {
        s.p = hi * (0.4 * k as f32);
    }
    let near = |s: &Patch| Probe {
        p: (s.p + Vec3::splat(0.25 * cell)).min(Vec3::splat(10_000.0)),
        n: UP,
    };
    room.probes = room.surfels.iter().map(near).collect();
    room
}

/// The room with this many cells on each axis, of size 1; refused with 4 or not.
fn of_dims(script: &mut Script, dims: [u32; 3]) {
    let [x, y, z] = dims.map(|d| d as f32);
    let cells: u32 = dims.iter().product();
    let words = within(Vec3::new(x, y, z), 1.0).words();
    script.tried(&words, if cells + 1 > 16_384 { 4 } else { 0 });
}

/// 16,383 cells, 16,384 cells and others about as many, along each axis.
fn limits(script: &mut Script) {
    let dims = [
        [127, 43, 3],
        [128, 128, 1],
        [512, 32, 1],
        [512, 31, 1],
        [16, 32, 32],
        [113, 29, 5],
        [36, 35, 13],
        [26, 25, 25],
        [26, 26, 25],
        [129, 127, 1],
        [1, 1, 512],
        [512, 512, 512],
        [512, 512, 1],
    ];
    for [a, b, c] in dims {
        for dims in [[a, b, c], [b, c, a], [c, a, b], [c, b, a]] {
            of_dims(script, dims);
        }
    }
}

/// Boxes longer than 512 cells: the last cell of an axis holds all that lies behind it.
fn clamped(script: &mut Script) {
    for hi in [
        Vec3::new(513.0, 1.0, 1.0),
        Vec3::new(1.0, 2_000.0, 2.0),
        Vec3::new(3.0, 3.0, 10_000.0),
        Vec3::new(10_000.0, 31.0, 0.0),
        Vec3::new(0.0, 10_000.0, 32.0),
    ] {
        let mut room = within(hi, 1.0);
        let cells = hi.x.clamp(1.0, 512.0) * hi.y.clamp(1.0, 512.0) * hi.z.clamp(1.0, 512.0);
        let number = if cells >= 16_384.0 { 4 } else { 0 };
        room.probes.push(Probe { p: hi, n: UP });
        script.tried(&room.words(), number);
        room.radius = 10_000.0;
        script.tried(&room.words(), number);
    }
}

/// Cells are counted by extent × (1 / cell): where a division gives another count, and 128 × 128 cells
/// are one too many.
fn steps(script: &mut Script) {
    let mut random = Random::new(0x6365_6C6C);
    let mut found = [0; 2];
    while found.iter().any(|&many| many < 4) {
        let cell = random.between(0.01, 1.0);
        let extent = 127.0 * cell;
        let by_product = (extent * (1.0 / cell)).ceil();
        if by_product == (extent / cell).ceil() {
            continue;
        }
        let refused = usize::from(by_product == 128.0);
        found[refused] += 1;
        if found[refused] <= 4 {
            let hi = Vec3::new(127.5 * cell, extent, cell / 2.0);
            let words = within(hi, cell).words();
            script.tried(&words, if refused == 1 { 4 } else { 0 });
        }
    }
}

/// "cells 0, 0.0001, 10,000": those that are accepted.
fn least_and_largest(script: &mut Script) {
    let tiny = Vec3::new(0.0005, 0.00095, 0.0);
    let number = |cells: u32| if cells + 1 > 16_384 { 4 } else { 0 };
    for (hi, cell, cells) in [
        (tiny, 0.0001, 50),
        (Vec3::splat(0.0025), 0.0001, 15_625),
        (Vec3::splat(0.0026), 0.0001, 17_576),
        (Vec3::new(1.0, 0.0, 0.0), 0.0001, 512),
        (Vec3::new(1.0, 1.0, 0.0), 0.0001, 262_144),
        (Vec3::new(4.0, 1.0, 1.0), 0.0001, 134_217_728),
        (Vec3::new(4.0, 1.0, 1.0), 10_000.0, 1),
        (Vec3::splat(10_000.0), 10_000.0, 1),
        (Vec3::splat(10_000.0), 400.0, 15_625),
        (Vec3::splat(10_000.0), 390.0, 17_576),
        (Vec3::ZERO, 0.0001, 1),
        (Vec3::ZERO, 10_000.0, 1),
    ] {
        let room = within(hi, cell);
        assert_eq!(refusals::cells(&room), cells as usize);
        script.tried(&room.words(), number(cells));
    }
    let mut room = within(Vec3::splat(10_000.0), 10_000.0);
    room.lo = Vec3::splat(-10_000.0);
    script.printed(&room);
}

/// A surfel two cells off is not read, however large the radius; one in the cell beside is.
fn neighbours(script: &mut Script) {
    let mut room = RoomFile::q();
    room.radius = 10.0;
    room.hi = Vec3::splat(4.0);
    room.probes.clear();
    for k in 0..9 {
        let x = 0.5 * k as f32;
        for p in [(x, 0.0, 0.0), (0.0, x, 0.0), (0.0, 0.0, x), (x, x, x)] {
            room.probes.push(probe(p.0, p.1, p.2));
        }
    }
    let printed = script.printed(&room);
    assert!(printed.contains("probe 12 seen") && printed.contains("probe 16 unseen"));
    for edge in [2.0f32.next_down(), 2.0f32.next_up()] {
        room.probes = vec![probe(edge, 0.0, 0.0), probe(0.0, 0.0, edge)];
        script.printed(&room);
    }
    // Normals that face away, and that lie across.
    room.probes = vec![probe(0.0, 0.0, 0.0); 4];
    room.probes[1].n = Vec3::new(0.0, 0.0, -1.0);
    room.probes[2].n = Vec3::Y;
    room.probes[3].n = Vec3::new(1.0, 0.0, 0.25);
    script.printed(&room);
}

/// Probes and surfels outside the box belong to the cells at its sides.
fn outside(script: &mut Script) {
    let mut random = Random::new(0x6F75_7473);
    for k in 0..12 {
        let mut room = several_of_each();
        let far = [1.0, 3.0, 100.0, 10_000.0][k % 4];
        let mut any = || {
            let mut x = || random.between(-far, far);
            Vec3::new(x(), x(), x())
        };
        for s in &mut room.surfels {
            s.p = any();
        }
        room.radius = far.min(5_000.0) * 2.0;
        room.probes = (0..4).map(|_| Probe { p: any(), n: UP }).collect();
        script.printed(&room);
    }
}
