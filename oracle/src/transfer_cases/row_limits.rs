//! Refused calls for rows: rows 2 to 6 of document 01's table at their limits, several at once.

use super::cluster_limits::{ends, put};
use super::*;
use crate::scene_cases::{round_box, shape};
use crate::tables::Part;

pub(super) fn write(script: &mut Script) {
    stored(script);
    counts(script);
    bounds(script);
    short_tables(script);
    coordinates(script);
    sizes(script);
    scene_floats(script);
    kinds_and_bases(script);
    ranges(script);
    pairs_of_numbers(script);
}

/// A floor, a ball of which a box is taken, and the box; three surfels and two clusters.
fn room() -> Room {
    let part = |base, first, many| Part {
        base,
        first,
        many,
        mat: 1,
    };
    Room {
        shapes: vec![
            sphere(at(0.0, 0.0, 2.0), 0.5),
            plane(UP, 0.0),
            round_box(at(1.5, 0.0, 0.5), at(0.3, 0.3, 0.3), 0.05),
        ],
        planes: vec![part(1, 0, 0)],
        objects: vec![part(0, 2, 1), part(2, 0, 0)],
    }
}

fn surfels() -> Vec<Patch> {
    (0..3)
        .map(|k| patch(at(0.4 * k as f32 - 0.5, 0.2, 0.0), UP, 1.0))
        .collect()
}

fn emitters() -> Vec<Emitter> {
    vec![
        emitter(at(0.2, 1.0, 1.5), at(0.0, -0.6, -0.8), 0.8, 0.3),
        emitter(at(-1.0, -0.5, 1.0), DOWN, 0.5, 0.2),
    ]
}

fn told() -> RowsTold {
    Bounds::within(2.0).rows(3, 2)
}

/// All of it, and tables of the need with some places more.
fn stored(script: &mut Script) {
    script.scene(&room());
    script.surfels(&surfels());
    script.emitters(&emitters());
    script.lend_rows(roomy());
}

fn roomy() -> RowsLent {
    RowsLent {
        starts: 6,
        link: 3,
        ..RowsLent::need(4, 4, 8)
    }
}

/// A call, what it answers, and all as it was.
fn tried(script: &mut Script, told: RowsTold, number: u32) {
    assert_eq!(script.rows(told)[0], number);
    script.scene(&room());
    script.surfels(&surfels());
    script.emitters(&emitters());
}

/// Each count at its limit and over it: 2, whatever is lent; up to it the tables are too short.
fn counts(script: &mut Script) {
    let t = told();
    tried(script, t, 0);
    for n in [5, 399_999, 400_000, 400_001, 0x5555_5556, u32::MAX] {
        let number = if n > 400_000 { 2 } else { 4 };
        tried(script, RowsTold { n, ..t }, number);
    }
    for nc in [5, 65_535, 65_536, 65_537, 0x5555_5556, u32::MAX] {
        let number = if nc > 65_536 { 2 } else { 4 };
        tried(script, RowsTold { nc, ..t }, number);
    }
    for count in [17, 256, 257, u32::MAX] {
        let number = if count > 256 { 2 } else { 4 };
        for counts in [[count, 1, 2], [3, count, 2], [3, 1, count]] {
            scene_counts(script, counts);
            tried(script, t, number);
        }
    }
    // Nothing is lent.
    script.lend_rows(RowsLent {
        starts: 0,
        ..RowsLent::need(0, 0, 0)
    });
    tried(script, RowsTold { n: 400_001, ..t }, 2);
    tried(script, RowsTold { nc: 65_537, ..t }, 2);
    tried(script, RowsTold { n: 0, nc: 0, ..t }, 4);
    script.lend_rows(RowsLent::need(0, 0, 0));
    tried(script, RowsTold { n: 0, nc: 0, ..t }, 0);
    script.lend_rows(roomy());
}

fn scene_counts(script: &mut Script, counts: [u32; 3]) {
    script.scene_line(Case {
        name: "counts",
        operands: counts.to_vec(),
    });
}

/// The ends of each axis.
fn bounds(script: &mut Script) {
    for (lo, hi, passes) in ends() {
        for axis in 0..3 {
            let mut t = told();
            put(&mut t.lo, axis, lo);
            put(&mut t.hi, axis, hi);
            tried(script, t, if passes { 0 } else { 3 });
        }
    }
}

/// One of the lengths, to be set.
type Length = fn(&mut RowsLent) -> &mut usize;

const LENGTHS: [Length; 9] = [
    |lent| &mut lent.p,
    |lent| &mut lent.normals,
    |lent| &mut lent.cluster_p,
    |lent| &mut lent.cluster_n,
    |lent| &mut lent.cluster_area,
    |lent| &mut lent.radius,
    |lent| &mut lent.starts,
    |lent| &mut lent.link,
    |lent| &mut lent.weight,
];

/// Each table one short of its need and of no place, the others at their need or longer.
fn short_tables(script: &mut Script) {
    for length in LENGTHS {
        let mut need = RowsLent::need(3, 2, 6);
        let exact = *length(&mut need);
        *length(&mut need) = exact - 1;
        script.lend_rows(need);
        tried(script, told(), 4);
        for short in [0, exact] {
            let mut wide = RowsLent::need(5, 4, 9);
            *length(&mut wide) = short;
            script.lend_rows(wide);
            tried(script, told(), if short < exact { 4 } else { 0 });
        }
    }
    script.lend_rows(RowsLent::need(3, 2, 6));
    tried(script, told(), 0);
    script.lend_rows(roomy());
}

/// Points and normals of surfels and clusters within ±10,000; those past the counts are not looked
/// at.
fn coordinates(script: &mut Script) {
    let end = 10_000f32;
    let list = [
        (end, true),
        (-end, true),
        (-0.0, true),
        (end.next_up(), false),
        ((-end).next_down(), false),
        (NAN, false),
        (INF, false),
        (-INF, false),
    ];
    let places = [
        ("put_p", 0),
        ("put_p", 8),
        ("put_normals", 1),
        ("put_normals", 6),
        ("put_cluster_p", 2),
        ("put_cluster_p", 3),
        ("put_cluster_n", 0),
        ("put_cluster_n", 5),
    ];
    for (x, passes) in list {
        for (name, place) in places {
            script.poke(name, place, x);
            tried(script, told(), if passes { 0 } else { 5 });
        }
    }
    let past = [
        ("put_p", 9),
        ("put_normals", 9),
        ("put_cluster_p", 6),
        ("put_cluster_n", 6),
        ("put_cluster_area", 2),
        ("put_radius", 2),
    ];
    for (name, place) in past {
        script.poke(name, place, NAN);
        tried(script, told(), 0);
        script.poke(name, place, 0.0);
    }
    // A surfel's area is not looked at by this call, nor is it lent.
    script.poke("put_area", 0, NAN);
    tried(script, told(), 0);
}

/// Cluster areas up to 1e12, radii up to 1,000,000.
fn sizes(script: &mut Script) {
    for (name, most) in [("put_cluster_area", 1e12f32), ("put_radius", 1e6)] {
        let list = [
            (0.0, true),
            (-0.0, true),
            (LEAST, true),
            (most, true),
            (most.next_up(), false),
            (-LEAST, false),
            (-1.0, false),
            (NAN, false),
            (INF, false),
        ];
        for (x, passes) in list {
            for place in 0..2 {
                script.poke(name, place, x);
                tried(script, told(), if passes { 0 } else { 5 });
            }
        }
    }
}

/// A float of the scene out of range, in a shape that is used and in one that is not.
fn scene_floats(script: &mut Script) {
    for x in [10_000f32.next_up(), NAN, INF, -1.0] {
        for k in 0..3 {
            let mut other = room();
            let place = [3, 2, 5][k];
            other.shapes[k].lengths[place] = x;
            script.scene(&other);
            let passes = k == 1 && x == -1.0;
            tried(script, told(), if passes { 0 } else { 5 });
        }
    }
    let mut other = room();
    other.shapes.push(sphere(at(NAN, 0.0, 0.0), 1.0));
    script.scene(&other);
    tried(script, told(), 5);
}

/// Kinds over 6; bases outside the table, a plane as an object's base and the reverse.
fn kinds_and_bases(script: &mut Script) {
    for kind in [6, 7, 8, 256, u32::MAX] {
        let mut other = room();
        other.shapes.push(shape(kind, &[0.5; 8]));
        script.scene(&other);
        tried(script, told(), if kind > 6 { 6 } else { 0 });
    }
    for base in 0..5 {
        let mut other = room();
        other.objects[1].base = base;
        script.scene(&other);
        tried(script, told(), if base == 0 || base == 2 { 0 } else { 6 });
        let mut other = room();
        other.planes[0].base = base;
        script.scene(&other);
        tried(script, told(), if base == 1 { 0 } else { 6 });
    }
}

/// Subtracted ranges: first and how many come to at most the count of primitives.
fn ranges(script: &mut Script) {
    let most = u32::MAX;
    let list = [
        (0, 3, true),
        (3, 0, true),
        (2, 1, true),
        (0, 4, false),
        (3, 1, false),
        (4, 0, false),
        (most, 1, false),
        (2, most, false),
        (0x8000_0000, 0x8000_0000, false),
    ];
    for (first, many, passes) in list {
        let mut other = room();
        (other.objects[0].first, other.objects[0].many) = (first, many);
        script.scene(&other);
        tried(script, told(), if passes { 0 } else { 6 });
        let mut other = room();
        (other.planes[0].first, other.planes[0].many) = (first, many);
        script.scene(&other);
        tried(script, told(), if passes { 0 } else { 6 });
    }
}

/// Each two of 2 to 6: the lower number is returned.
fn pairs_of_numbers(script: &mut Script) {
    for low in 2..=6 {
        for high in low..=6 {
            let mut t = told();
            misfit(script, &mut t, high);
            misfit(script, &mut t, low);
            tried(script, t, low);
            script.lend_rows(roomy());
        }
    }
    // All at once, and one less each time.
    for lowest in 2..=6 {
        let mut t = told();
        for number in lowest..=6 {
            misfit(script, &mut t, number);
        }
        tried(script, t, lowest);
        script.lend_rows(roomy());
    }
    tried(script, told(), 0);
}

/// Something that this number refuses.
fn misfit(script: &mut Script, t: &mut RowsTold, number: u32) {
    match number {
        2 => t.nc = 65_537,
        3 => t.hi.y = t.lo.y.next_down(),
        4 => script.lend_rows(RowsLent {
            weight: 1,
            ..roomy()
        }),
        5 => script.poke("put_cluster_n", 4, INF),
        _ => {
            let mut other = room();
            other.objects[1].base = 1;
            script.scene(&other);
        }
    }
}
