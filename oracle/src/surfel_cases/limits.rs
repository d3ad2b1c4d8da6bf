//! Refused calls, for each entry: rows 2, 3 and 4 of document 01's table at their limits.

use super::*;

pub(super) fn write(script: &mut Script) {
    counts(script);
    boxes(script);
    cells_and_radii(script);
    reaches(script);
    short_tables(script);
}

pub(super) const P: Vec3 = Vec3::new(0.5, 0.5, 0.25);

/// The surfels of `good`: how many.
pub(super) const N: u32 = 6;

/// Six surfels in Q's grid, and probes, all of them good.
pub(super) fn good(script: &mut Script) {
    script.bounds(of_q());
    let list: Vec<Patch> = (0..N)
        .map(|k| {
            let x = 0.7 * k as f32;
            patch(at(x, 0.5, 0.0), UP, at(1.0, x, 0.25))
        })
        .collect();
    assert_eq!(script.surfels(&list), N);
    script.surfel(N, point(at(9.0, 9.0, 9.0)));
    for k in 0..3 {
        script.probe(k, at(k as f32, 0.5, 0.25), UP);
    }
    script.lend(Lent::ALL);
    tables(script);
}

/// The tables of that grid.
pub(super) fn tables(script: &mut Script) {
    script.tables(&[0, 2, 3, 5, 6], &[0, 1, 2, 3, 4, 5]);
}

/// The four entries; what they may have written is shown where one is refused, and all that the
/// buffers hold where an entry is refused with a number for the first time.
pub(super) fn each(script: &mut Script, n: u32) {
    let mut numbers = vec![script.near(n, P, 1)[0]];
    numbers.push(script.gather(n, P, UP, 1.0)[0]);
    numbers.push(script.gather_all(n, 2, 1.0)[0]);
    numbers.push(script.build(n)[0]);
    let refused = || {
        numbers
            .iter()
            .copied()
            .enumerate()
            .filter(|&(_, number)| number != 0)
    };
    let first = refused().any(|pair| !script.shown.contains(&pair));
    script.shown.extend(refused());
    if first {
        script.show_all();
    } else if refused().next().is_some() {
        written(script);
    }
}

/// The first places of what a call can write.
pub(super) fn written(script: &mut Script) {
    script.ask("starts", vec![0]);
    script.ask("items", vec![0]);
    script.ask("list", vec![0]);
    script.ask("seen", vec![0]);
    script.ask("light", vec![0]);
}

/// Counts over 400,000 are 2, whatever is lent; up to it the tables are too short for them.
fn counts(script: &mut Script) {
    good(script);
    script.fill();
    tables(script);
    each(script, N);
    for n in [
        33,
        399_999,
        400_000,
        400_001,
        1 << 24,
        0x8000_0000,
        u32::MAX,
    ] {
        script.fill();
        tables(script);
        each(script, n);
    }
    for probes in [
        0,
        3,
        8,
        9,
        399_999,
        400_000,
        400_001,
        0x8000_0000,
        0x5555_5556,
        u32::MAX,
    ] {
        script.gather_all(N, probes, 1.0);
        written(script);
    }
    // Both counts.
    for (n, probes) in [
        (400_001, 3),
        (400_000, 400_001),
        (400_001, 400_000),
        (400_001, 400_001),
    ] {
        script.gather_all(n, probes, 1.0);
    }
    script.show_all();
}

/// lo above hi, and bounds beyond 10,000, on each axis.
fn boxes(script: &mut Script) {
    let far = 10_000.0f32;
    let pairs = [
        (1.0, 1.0f32.next_down()),
        (1.0, 1.0),
        (2.0, 1.0),
        (-1.0, -2.0),
        (LEAST, 0.0),
        (0.0, -LEAST),
        (0.0, -0.0),
        (-far, -far),
        (far, far),
        (far, far.next_up()),
        (far.next_up(), far.next_up()),
        ((-far).next_down(), -far),
        ((-far).next_down(), 0.0),
        (-INF, 0.0),
        (0.0, INF),
        (NAN, 0.0),
        (0.0, NAN),
        (NAN, NAN),
        (INF, INF),
    ];
    for (i, (from, to)) in pairs.into_iter().enumerate() {
        // Each pair on one axis, and every fourth on each.
        for axis in (0..3).filter(|&axis| axis == i % 3 || i % 4 == 2) {
            let (mut lo, mut hi) = ([0.0; 3], [4.0, 1.0, 1.0]);
            (lo[axis], hi[axis]) = (from, to);
            // Along x an accepted box has one cell, and the tables below do not fit it: 7.
            let cell = if axis == 0 { 10_000.0 } else { 1.0 };
            script.bounds(bounds(
                at(lo[0], lo[1], lo[2]),
                at(hi[0], hi[1], hi[2]),
                cell,
            ));
            script.fill();
            tables(script);
            each(script, N);
        }
    }
    // "beyond 10,000 in size" is said of lo and of hi, not of what lies between them.
    script.bounds(bounds(Vec3::splat(-6_000.0), Vec3::splat(6_000.0), 6_000.0));
    each(script, N);
    script.bounds(bounds(Vec3::splat(-far), Vec3::splat(far), far));
    each(script, N);
}

/// The size of a cell and the radius: the ends of their ranges, and the floats beyond them.
fn cells_and_radii(script: &mut Script) {
    good(script);
    let least = 0.0001f32;
    let most = 10_000.0f32;
    let odd = [
        0.0,
        -0.0,
        -LEAST,
        LEAST,
        -1.0,
        least,
        least.next_down(),
        least.next_up(),
        most,
        most.next_up(),
        most.next_down(),
        INF,
        -INF,
        NAN,
        f32::MAX,
    ];
    for cell in odd {
        script.bounds(bounds(Vec3::ZERO, at(4.0 * least, 0.0, 0.0), cell));
        script.fill();
        tables(script);
        each(script, N);
    }
    good(script);
    for radius in odd {
        script.gather(N, P, UP, radius);
        script.gather_all(N, 2, radius);
        script.show_readings();
    }
}

/// A reach is at most 511.
fn reaches(script: &mut Script) {
    good(script);
    script.fill();
    tables(script);
    for reach in [
        0,
        1,
        4,
        510,
        511,
        512,
        513,
        1 << 16,
        0x7FFF_FFFF,
        0x8000_0000,
        u32::MAX,
    ] {
        script.near(N, P, reach);
        script.show("list", 8);
    }
}

/// Each slice at its need, one short of it, and of no place.
fn short_tables(script: &mut Script) {
    good(script);
    let n = N as usize;
    let all = Lent::ALL;
    let lents = [
        all,
        Lent { p: 3 * n, ..all },
        Lent {
            p: 3 * n - 1,
            ..all
        },
        Lent { p: 0, ..all },
        Lent {
            normals: 3 * n,
            ..all
        },
        Lent {
            normals: 3 * n - 1,
            ..all
        },
        Lent { irr: 3 * n, ..all },
        Lent {
            irr: 3 * n - 1,
            ..all
        },
        Lent { starts: 5, ..all },
        Lent { starts: 4, ..all },
        Lent { starts: 0, ..all },
        Lent { items: n, ..all },
        Lent {
            items: n - 1,
            ..all
        },
        Lent { items: 0, ..all },
        Lent { list: 3, ..all },
        Lent { list: 2, ..all },
        Lent { list: 0, ..all },
        Lent { probe_p: 6, ..all },
        Lent { probe_p: 5, ..all },
        Lent {
            probe_normals: 6,
            ..all
        },
        Lent {
            probe_normals: 5,
            ..all
        },
        Lent { seen: 2, ..all },
        Lent { seen: 1, ..all },
        Lent { light: 6, ..all },
        Lent { light: 5, ..all },
        Lent {
            p: 3 * n,
            normals: 3 * n,
            irr: 3 * n,
            starts: 5,
            items: n,
            list: 3,
            probe_p: 6,
            probe_normals: 6,
            seen: 2,
            light: 6,
        },
    ];
    for lent in lents {
        script.lend(lent);
        script.fill();
        tables(script);
        each(script, N);
    }
    // No point at all: a start for each cell and one more, and nothing else.
    for starts in [5, 4] {
        script.lend(Lent {
            p: 0,
            normals: 0,
            irr: 0,
            starts,
            items: 0,
            list: 0,
            ..all
        });
        script.fill();
        script.tables(&[0; 5], &[]);
        each(script, 0);
    }
    script.lend(all);
    // As many points as there are places, and one more.
    let list: Vec<Patch> = (0..32)
        .map(|k| point(at(0.1 * k as f32, 0.5, 0.0)))
        .collect();
    script.surfels(&list);
    script.fill();
    script.built(32);
    each(script, 32);
    each(script, 33);
    script.show_all();
}
