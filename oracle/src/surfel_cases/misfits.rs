//! Refused calls, for each entry: rows 5 and 7 of document 01's table at their limits, and several at
//! once.

use super::limits::{each, good, tables, written, N, P};
use super::*;

pub(super) fn write(script: &mut Script) {
    coordinates(script);
    starts(script);
    items(script);
    lowest_first(script);
}

/// Points and normals within ±10,000, of surfels and of probes; those past the count are not
/// looked at.
fn coordinates(script: &mut Script) {
    let end = 10_000f32;
    let odd_floats = [
        end,
        -end,
        end.next_up(),
        (-end).next_down(),
        NAN,
        INF,
        -INF,
        1e30,
        -0.0,
    ];
    for (i, x) in odd_floats.into_iter().enumerate() {
        for axis in 0..3 {
            let odd = |v: Vec3| {
                let mut v = floats(v);
                v[axis] = x;
                at(v[0], v[1], v[2])
            };
            // Of a reading's own point and normal, and of a list's point.
            good(script);
            script.near(N, odd(P), 1);
            script.gather(N, odd(P), UP, 1.0);
            script.gather(N, P, odd(UP), 1.0);
            if axis != i % 3 {
                continue;
            }
            // Of the first surfel, of the last, of one past the count.
            for k in [0, N - 1, N] {
                let s = patch(P, UP, Vec3::ONE);
                script.surfel(k, patch(odd(s.p), s.n, s.irr));
                tables(script);
                script.gather(N, P, UP, 1.0);
                script.build(N);
                script.ask("starts", vec![0]);
                script.ask("items", vec![0]);
                script.surfel(k, patch(s.p, odd(s.n), s.irr));
                tables(script);
                script.gather_all(N, 2, 1.0);
                script.gather(N, P, UP, 1.0);
                script.surfel(k, s);
            }
            // Of the first probe, of the last, of one past the count.
            for k in 0..3 {
                script.probe(k, odd(P), UP);
                script.gather_all(N, 2, 1.0);
                script.probe(k, P, odd(UP));
                script.gather_all(N, 2, 1.0);
                script.ask("seen", vec![0]);
                script.probe(k, P, UP);
            }
        }
    }
    // With no surfel and no probe nothing is looked at.
    script.surfel(0, patch(Vec3::splat(NAN), Vec3::splat(NAN), Vec3::ONE));
    script.probe(0, Vec3::splat(NAN), Vec3::splat(NAN));
    script.tables(&[0; 5], &[]);
    script.gather_all(0, 0, 1.0);
    script.gather(0, P, UP, 1.0);
    each(script, 0);
}

/// Starts from 0, never falling, that end at the count; starts past the cells are not looked at.
fn starts(script: &mut Script) {
    good(script);
    let list: [[u32; 6]; 20] = [
        [0, 2, 3, 5, 6, 0],
        [0, 2, 3, 5, 6, 99],
        [1, 2, 3, 5, 6, 6],
        [0, 2, 1, 5, 6, 6],
        [0, 2, 3, 2, 6, 6],
        [0, 2, 3, 7, 6, 6],
        [0, 2, 3, 6, 5, 6],
        [0, 2, 3, 5, 5, 6],
        [0, 2, 3, 5, 7, 6],
        [0, 2, 3, 5, 0, 6],
        [0, 7, 7, 7, 6, 6],
        [0, 0, 0, 0, 6, 6],
        [0, 6, 6, 6, 6, 6],
        [0, 0, 0, 0, 0, 6],
        [6, 6, 6, 6, 6, 6],
        [u32::MAX, 2, 3, 5, 6, 6],
        [0, u32::MAX, 3, 5, 6, 6],
        [0, 2, 3, 5, u32::MAX, 6],
        [0, 2, 3, 0x8000_0000, 6, 6],
        [0, 2, 3, 5, 0x0001_0006, 6],
    ];
    for starts in list {
        script.tables(&starts, &[0, 1, 2, 3, 4, 5]);
        each(script, N);
    }
    // The tables of another count.
    good(script);
    for n in [5, 7, 0, 1] {
        tables(script);
        each(script, n);
    }
    // One cell.
    script.bounds(bounds(Vec3::ZERO, Vec3::ONE, 1.0));
    for starts in [[0, 6], [0, 5], [0, 7], [1, 6], [6, 6], [0, 0]] {
        script.tables(&starts, &[5, 4, 3, 2, 1, 0]);
        each(script, N);
    }
}

/// Items below the count; items past the count are not looked at.
fn items(script: &mut Script) {
    good(script);
    let list: [[u32; 7]; 9] = [
        [5, 5, 5, 5, 5, 5, 99],
        [6, 1, 2, 3, 4, 5, 0],
        [0, 1, 2, 3, 4, 6, 0],
        [0, 1, 6, 3, 4, 5, 0],
        [0, 1, 2, 3, 4, u32::MAX, 0],
        [0x8000_0000, 1, 2, 3, 4, 5, 0],
        [0, 1, 2, 3, 0x0001_0000, 5, 0],
        [0, 0, 0, 0, 0, 0, 6],
        [0, 1, 2, 3, 4, 5, 6],
    ];
    for items in list {
        script.tables(&[0, 2, 3, 5, 6], &items);
        each(script, N);
    }
    // An item that is bad in a cell that is not visited.
    script.tables(&[0, 2, 3, 5, 6], &[0, 1, 2, 3, 4, 32]);
    script.near(N, P, 0);
    script.gather(N, P, UP, 1.0);
}

/// Several apply: the lowest number is returned, but that a list too short is told last.
fn lowest_first(script: &mut Script) {
    let far = at(0.0, 10_001.0, 0.0);
    let bad = |script: &mut Script| script.tables(&[0, 2, 3, 5, 6], &[0, 1, 2, 3, 4, 6]);
    good(script);
    // A list too short, and then 7, 5, 4, 3, 2 before it.
    let list = Lent {
        list: 0,
        ..Lent::ALL
    };
    script.lend(list);
    assert_eq!(script.near(N, P, 1), [4]);
    bad(script);
    assert_eq!(script.near(N, P, 1), [7]);
    assert_eq!(script.near(N, far, 1), [5]);
    script.lend(Lent { items: 5, ..list });
    assert_eq!(script.near(N, far, 1), [4]);
    assert_eq!(script.near(N, far, 512), [3]);
    assert_eq!(script.near(400_001, far, 512), [2]);
    script.show("list", 16);

    // A reading: 7, then 5 by the point, the normal, a surfel, then 4, 3 and 2.
    script.lend(Lent::ALL);
    assert_eq!(script.gather(N, P, UP, 1.0), [7]);
    assert_eq!(script.gather(N, far, UP, 1.0), [5]);
    assert_eq!(script.gather(N, P, far, 1.0), [5]);
    script.surfel(3, patch(far, UP, Vec3::ONE));
    assert_eq!(script.gather(N, P, UP, 1.0), [5]);
    script.surfel(3, patch(P, far, Vec3::ONE));
    assert_eq!(script.gather(N, P, UP, 1.0), [5]);
    for lent in [
        Lent { p: 17, ..Lent::ALL },
        Lent {
            normals: 17,
            ..Lent::ALL
        },
        Lent {
            irr: 17,
            ..Lent::ALL
        },
        Lent {
            starts: 4,
            ..Lent::ALL
        },
        Lent {
            items: 5,
            ..Lent::ALL
        },
    ] {
        script.lend(lent);
        assert_eq!(script.gather(N, far, far, 1.0), [4]);
        assert_eq!(script.gather(N, far, far, -1.0), [3]);
        assert_eq!(script.gather(400_001, far, far, NAN), [2]);
    }

    // Many probes, the same.
    script.lend(Lent::ALL);
    script.surfel(3, patch(P, UP, Vec3::ONE));
    assert_eq!(script.gather_all(N, 2, 1.0), [7]);
    script.probe(1, far, UP);
    assert_eq!(script.gather_all(N, 2, 1.0), [5]);
    assert_eq!(script.gather_all(N, 1, 1.0), [7]);
    for lent in [
        Lent {
            seen: 1,
            ..Lent::ALL
        },
        Lent {
            light: 5,
            ..Lent::ALL
        },
        Lent {
            probe_p: 5,
            ..Lent::ALL
        },
        Lent {
            probe_normals: 5,
            ..Lent::ALL
        },
        Lent {
            irr: 17,
            ..Lent::ALL
        },
    ] {
        script.lend(lent);
        assert_eq!(script.gather_all(N, 2, 1.0), [4]);
        assert_eq!(script.gather_all(N, 2, 10_001.0), [3]);
        assert_eq!(script.gather_all(N, 400_001, 10_001.0), [2]);
        assert_eq!(script.gather_all(400_001, 2, 1.0), [2]);
    }
    written(script);

    // A grid: 5, then 4, 3 and 2.
    script.lend(Lent::ALL);
    script.surfel(3, patch(far, UP, Vec3::ONE));
    assert_eq!(script.build(N), [5]);
    for lent in [
        Lent { p: 17, ..Lent::ALL },
        Lent {
            starts: 4,
            ..Lent::ALL
        },
        Lent {
            items: 5,
            ..Lent::ALL
        },
    ] {
        script.lend(lent);
        script.bounds(of_q());
        assert_eq!(script.build(N), [4]);
        script.bounds(bounds(Vec3::ONE, Vec3::ZERO, 1.0));
        assert_eq!(script.build(N), [3]);
        assert_eq!(script.build(400_001), [2]);
        script.bounds(bounds(Vec3::ZERO, Vec3::ONE, NAN));
        assert_eq!(script.build(N), [3]);
    }
    // A box of more cells than the tables hold, and a point out of range.
    script.lend(Lent::ALL);
    script.bounds(bounds(Vec3::ZERO, Vec3::splat(9.0), 1.0));
    each(script, N);
    script.bounds(bounds(
        Vec3::splat(-10_000.0),
        Vec3::splat(10_000.0),
        0.0001,
    ));
    each(script, N);
    each(script, 400_001);
    good(script);
    each(script, N);
}
