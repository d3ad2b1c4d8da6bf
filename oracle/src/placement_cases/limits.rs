//! Refused calls: rows 2 to 6 of document 01's table at their limits, each table at its need and one
//! place short of it, several at once.

use super::*;
use crate::scene_cases::shape;
use crate::tables::Part;
use crate::transfer_cases::{ends, put};

pub(super) fn write(script: &mut Script) {
    stored(script);
    counts(script);
    bounds(script);
    short_tables(script);
    cell_counts(script);
    material_floats(script);
    scene_floats(script);
    kinds_and_bases(script);
    ranges(script);
    pairs_of_numbers(script);
}

/// A floor, a ball of which a box is taken, and the box.
fn room() -> Room {
    let part = |base, first, many| Part {
        base,
        first,
        many,
        mat: base,
    };
    Room {
        shapes: vec![
            sphere(at(0.0, 0.0, 0.5), 0.75),
            plane(at(0.0, 0.0, 1.0), -1.0),
            round_box(at(1.0, 0.0, 0.5), at(0.5, 0.6, 0.4), 0.05),
        ],
        planes: vec![part(1, 0, 0)],
        objects: vec![part(0, 2, 1), part(2, 0, 0)],
    }
}

/// Four surfels, and eight cells.
fn told() -> Told {
    let told = Bounds::within(2.0).told(3, 4);
    assert_eq!(told.cells(), 8);
    told
}

/// All of it, and tables of the need with some places more.
fn stored(script: &mut Script) {
    script.scene(&room());
    script.materials(&PAINTS);
    script.lend(roomy());
}

fn roomy() -> Lent {
    let lent = Lent {
        materials: 20,
        head: 30,
        ..Lent::default()
    };
    Lent {
        next: 9,
        ..lent.for_surfels(6)
    }
    .whole_scene()
}

/// A call, what it answers, and all as it was.
fn tried(script: &mut Script, told: Told, number: u32) {
    assert_eq!(script.ask(told)[0], number);
    stored(script);
}

/// Each count at its limit and over it: 2, whatever is lent; up to it the tables are too short.
fn counts(script: &mut Script) {
    let t = told();
    tried(script, t, 0);
    for target in [7, 399_999, 400_000, 400_001, 0x5555_5556, u32::MAX] {
        let number = if target > 400_000 { 2 } else { 4 };
        tried(script, Told { target, ..t }, number);
    }
    for mats in [6, 255, 256, 257, 0x4000_0000, u32::MAX] {
        let number = if mats > 256 { 2 } else { 4 };
        tried(script, Told { mats, ..t }, number);
    }
    for count in [17, 256, 257, u32::MAX] {
        let number = if count > 256 { 2 } else { 4 };
        for counts in [[count, 1, 2], [3, count, 2], [3, 1, count]] {
            scene_counts(script, counts);
            tried(script, t, number);
        }
    }
    // Nothing is lent.
    for (target, mats, number) in [(400_001, 3, 2), (4, 257, 2), (4, 3, 4), (0, 0, 4)] {
        script.lend(Lent::default());
        tried(script, Told { target, mats, ..t }, number);
    }
    // Nothing in the scene, and no surfel: one cell.
    for (head, number) in [(0, 4), (1, 0)] {
        scene_counts(script, [0, 0, 0]);
        script.lend(Lent {
            head,
            ..Lent::default()
        });
        let none = Told {
            target: 0,
            mats: 0,
            ..t
        };
        tried(script, none, number);
    }
}

fn scene_counts(script: &mut Script, counts: [u32; 3]) {
    script.scene_line(Case {
        name: "counts",
        operands: counts.to_vec(),
    });
}

/// The ends of each axis.
fn bounds(script: &mut Script) {
    for (lo, hi, passes) in ends() {
        for axis in 0..3 {
            let mut t = told();
            put(&mut t.lo, axis, lo);
            put(&mut t.hi, axis, hi);
            tried(script, t, if passes { 0 } else { 3 });
        }
    }
    // A target of 0 has no separation, and its bounds are looked at.
    let none = Told {
        target: 0,
        ..told()
    };
    tried(script, none, 0);
    tried(
        script,
        Told {
            lo: Vec3::splat(3.0),
            ..none
        },
        3,
    );
}

/// One of the lengths, to be set.
type Length = fn(&mut Lent) -> &mut usize;

const LENGTHS: [Length; 14] = [
    |lent| &mut lent.kinds,
    |lent| &mut lent.lengths,
    |lent| &mut lent.plane_parts,
    |lent| &mut lent.object_parts,
    |lent| &mut lent.materials,
    |lent| &mut lent.p,
    |lent| &mut lent.n,
    |lent| &mut lent.albedo,
    |lent| &mut lent.area,
    |lent| &mut lent.direct,
    |lent| &mut lent.irr,
    |lent| &mut lent.rad,
    |lent| &mut lent.head,
    |lent| &mut lent.next,
];

/// Each table one short of its need and of no place, the others at their need or longer.
fn short_tables(script: &mut Script) {
    for length in LENGTHS {
        let mut need = script.need(told());
        let exact = *length(&mut need);
        *length(&mut need) = exact - 1;
        script.lend(need);
        tried(script, told(), 4);
        for short in [0, exact] {
            let mut wide = roomy();
            *length(&mut wide) = short;
            script.lend(wide);
            tried(script, told(), if short < exact { 4 } else { 0 });
        }
    }
    script.lend(script.need(told()));
    tried(script, told(), 0);
}

/// How many cells there are follows the bounds and the target. They are counted by one over the
/// separation: by division there would be 5 where there are 6, and 12 where there are 11.
fn cell_counts(script: &mut Script) {
    let six = f32::from_bits(0x3F86_6667);
    for (size, target, cells) in [
        (at(0.0, 0.0, 0.0), 4, 1),
        (at(4.0, 0.0, 0.0), 4, 2),
        (at(4.0, 4.0, 0.0), 4, 4),
        (at(4.0, 0.5, 0.25), 4, 2),
        (at(six, 0.0, 0.0), 25, 6),
        (at(0.0, 0.0, 0.8), 121, 11),
        (at(1.0, 1.0, 1.0), 128, 343),
    ] {
        let t = Bounds::to(size).told(3, target);
        assert_eq!(t.cells(), cells);
        for head in [cells - 1, cells] {
            script.lend(Lent {
                head,
                ..script.need(t)
            });
            tried(script, t, if head < cells { 4 } else { 0 });
        }
    }
}

/// "albedo and metallic 0..1", each channel; those past the count are not looked at.
fn material_floats(script: &mut Script) {
    let list = [
        (0.0, true),
        (-0.0, true),
        (LEAST, true),
        (1.0, true),
        (1.0f32.next_up(), false),
        (-LEAST, false),
        (-1.0, false),
        (NAN, false),
        (INF, false),
        (-INF, false),
    ];
    for (k, (x, passes)) in list.into_iter().enumerate() {
        for place in [k % 4, 4 + (k + 1) % 4, 8 + (k + 2) % 4] {
            script.poke(place, x);
            tried(script, told(), if passes { 0 } else { 5 });
        }
    }
    for place in 0..12 {
        script.poke(place, NAN);
        tried(script, told(), 5);
    }
    for place in [12, 13, 15, 19] {
        script.poke(place, NAN);
        tried(script, told(), 0);
    }
}

/// A float of the scene out of range, in a shape that is used and in one that is not; floats that a
/// kind does not use.
fn scene_floats(script: &mut Script) {
    for x in [10_000f32.next_up(), NAN, INF, -1.0] {
        for k in 0..3 {
            let mut other = room();
            let place = [3, 2, 5][k];
            other.shapes[k].lengths[place] = x;
            script.scene(&other);
            let passes = k == 1 && x == -1.0;
            tried(script, told(), if passes { 0 } else { 5 });
        }
    }
    for (lone, number) in [
        (sphere(at(NAN, 0.0, 0.0), 1.0), 5),
        (shape(0, &[0.0, 0.0, 0.0, 0.5, NAN, INF]), 0),
    ] {
        let mut other = room();
        other.shapes.push(lone);
        script.scene(&other);
        tried(script, told(), number);
    }
}

/// Kinds over 6; bases outside the table, a plane as an object's base and the reverse.
fn kinds_and_bases(script: &mut Script) {
    for kind in [6, 7, 256, u32::MAX] {
        let mut other = room();
        other.shapes.push(shape(kind, &[0.5; 8]));
        script.scene(&other);
        tried(script, told(), if kind > 6 { 6 } else { 0 });
    }
    for base in 0..4 {
        let mut other = room();
        other.objects[1].base = base;
        script.scene(&other);
        tried(script, told(), if base == 0 || base == 2 { 0 } else { 6 });
        let mut other = room();
        other.planes[0].base = base;
        script.scene(&other);
        tried(script, told(), if base == 1 { 0 } else { 6 });
    }
}

/// Subtracted ranges: first and how many come to at most the count of primitives.
fn ranges(script: &mut Script) {
    let list = [
        (0, 3, true),
        (3, 0, true),
        (0, 4, false),
        (4, 0, false),
        (u32::MAX, 1, false),
        (2, u32::MAX, false),
    ];
    for (first, many, passes) in list {
        let mut other = room();
        (other.objects[0].first, other.objects[0].many) = (first, many);
        script.scene(&other);
        tried(script, told(), if passes { 0 } else { 6 });
        let mut other = room();
        (other.planes[0].first, other.planes[0].many) = (first, many);
        script.scene(&other);
        tried(script, told(), if passes { 0 } else { 6 });
    }
}

/// Each two of 2 to 6, by each of their ways: the lower number is returned.
fn pairs_of_numbers(script: &mut Script) {
    for low in 2..=6 {
        for high in low + 1..=6 {
            for way in 0..3 {
                let mut t = told();
                misfit(script, &mut t, high, way);
                misfit(script, &mut t, low, way);
                tried(script, t, low);
            }
        }
    }
    // All at once, and one less each time.
    for lowest in 2..=6 {
        let mut t = told();
        for number in lowest..=6 {
            misfit(script, &mut t, number, 1);
        }
        tried(script, t, lowest);
    }
    tried(script, told(), 0);
}

/// Something that this number refuses, in one of three ways.
fn misfit(script: &mut Script, t: &mut Told, number: u32, way: usize) {
    match (number, way) {
        (2, 0) => t.target = 400_001,
        (2, 1) => t.mats = 257,
        (2, _) => scene_counts(script, [3, 1, 257]),
        (3, 0) => t.hi.y = t.lo.y.next_down(),
        (3, 1) => t.lo.z = NAN,
        (3, _) => t.hi.x = 10_000f32.next_up(),
        (4, 0) => script.lend(Lent { head: 7, ..roomy() }),
        (4, 1) => script.lend(Lent { rad: 11, ..roomy() }),
        (4, _) => script.lend(Lent {
            materials: 11,
            ..roomy()
        }),
        (5, 0) => script.poke(11, 2.0),
        (5, 1) => script.poke(4, NAN),
        (5, _) => script.scene_line(sphere_line(INF)),
        (_, 0) => script.scene_line(object_line(1)),
        (_, 1) => script.scene_line(object_line(u32::MAX)),
        _ => script.scene_line(object_line(3)),
    }
}

/// The line that stores the ball with another radius.
fn sphere_line(r: f32) -> Case {
    let mut other = room();
    other.shapes[0].lengths[3] = r;
    other.lines().swap_remove(1)
}

/// The line that stores the box with another base.
fn object_line(base: u32) -> Case {
    let mut other = room();
    other.objects[1].base = base;
    other.lines().pop().expect("a line")
}
