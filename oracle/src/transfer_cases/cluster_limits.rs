//! Refused calls for clusters: rows 2 to 5 of document 01's table at their limits, several at once.

use super::*;

pub(super) fn write(script: &mut Script) {
    script.surfels(&good());
    script.lend_clusters(ClustersLent::need(SURFELS));
    counts(script);
    resolutions(script);
    bounds(script);
    short_tables(script);
    floats(script);
    lowest_first(script);
}

/// Four surfels in two voxels, all of them good.
fn good() -> Vec<Patch> {
    (0..4)
        .map(|k| patch(at(k as f32 - 1.5, 0.5, 0.25), AXES[k], 0.5 + k as f32))
        .collect()
}

fn told() -> ClustersTold {
    Bounds::within(2.0).clusters(4, 2)
}

/// Over 400,000: 2, whatever is lent; up to it the tables are too short.
fn counts(script: &mut Script) {
    let t = told();
    assert_eq!(script.clusters(t)[0], 0);
    for n in [
        33,
        399_999,
        400_000,
        400_001,
        0x5555_5556,
        0x8000_0000,
        u32::MAX,
    ] {
        let number = if n > 400_000 { 2 } else { 4 };
        assert_eq!(script.clusters(ClustersTold { n, ..t }), [number]);
    }
    script.lend_clusters(ClustersLent::need(0));
    assert_eq!(script.clusters(ClustersTold { n: 400_001, ..t }), [2]);
    assert_eq!(script.clusters(ClustersTold { n: 0, ..t }), [0, 0, 0]);
    script.lend_clusters(ClustersLent::need(SURFELS));
}

/// "cluster resolution outside 1..64".
fn resolutions(script: &mut Script) {
    let t = told();
    for res in [
        0,
        1,
        64,
        65,
        66,
        128,
        1 << 16,
        0x8000_0000,
        0x8000_0001,
        u32::MAX,
    ] {
        let number = if (1..=64).contains(&res) { 0 } else { 3 };
        assert_eq!(script.clusters(ClustersTold { res, ..t })[0], number);
        assert_eq!(script.clusters(ClustersTold { res, n: 0, ..t })[0], number);
    }
}

/// Each end of each axis: above the other, beyond 10,000 in size, not a number.
fn bounds(script: &mut Script) {
    for (lo, hi, passes) in ends() {
        for axis in 0..3 {
            let mut t = told();
            put(&mut t.lo, axis, lo);
            put(&mut t.hi, axis, hi);
            assert_eq!(script.clusters(t)[0] == 0, passes, "{lo} {hi}");
        }
    }
}

/// Ends of an axis, and whether they pass.
pub(crate) fn ends() -> Vec<(f32, f32, bool)> {
    let end = 10_000f32;
    vec![
        (-end, end, true),
        (end, end, true),
        (-end, -end, true),
        (0.0, -0.0, true),
        (-6_000.0, 6_000.0, true),
        (1.0, 1.0f32.next_down(), false),
        (2.0, -2.0, false),
        ((-end).next_down(), 0.0, false),
        (0.0, end.next_up(), false),
        (end.next_up(), end.next_up(), false),
        (-INF, INF, false),
        (NAN, 1.0, false),
        (-1.0, NAN, false),
        (INF, INF, false),
    ]
}

pub(crate) fn put(v: &mut Vec3, axis: usize, x: f32) {
    match axis {
        0 => v.x = x,
        1 => v.y = x,
        _ => v.z = x,
    }
}

/// One of the lengths, to be set.
type Length = fn(&mut ClustersLent) -> &mut usize;

const LENGTHS: [Length; 12] = [
    |lent| &mut lent.p,
    |lent| &mut lent.normals,
    |lent| &mut lent.area,
    |lent| &mut lent.cluster_p,
    |lent| &mut lent.cluster_n,
    |lent| &mut lent.cluster_area,
    |lent| &mut lent.radius,
    |lent| &mut lent.first,
    |lent| &mut lent.count,
    |lent| &mut lent.member,
    |lent| &mut lent.order,
    |lent| &mut lent.spare,
];

/// Each table one short of its need and of no place, the others at their need or longer.
fn short_tables(script: &mut Script) {
    for length in LENGTHS {
        let mut need = ClustersLent::need(4);
        let exact = *length(&mut need);
        *length(&mut need) = exact - 1;
        script.lend_clusters(need);
        assert_eq!(script.clusters(told()), [4]);
        for short in [0, exact] {
            let mut wide = ClustersLent::need(7);
            *length(&mut wide) = short;
            script.lend_clusters(wide);
            let number = if short < exact { 4 } else { 0 };
            assert_eq!(script.clusters(told())[0], number);
        }
    }
    script.lend_clusters(ClustersLent::need(4));
    assert_eq!(script.clusters(told())[0], 0);
}

/// Each float at the ends of its range and beyond them; those past the count are not looked at.
fn floats(script: &mut Script) {
    let (end, most) = (10_000f32, 1_000_000f32);
    let coordinates = [
        (end, true),
        (-end, true),
        (-0.0, true),
        (end.next_up(), false),
        ((-end).next_down(), false),
        (NAN, false),
        (INF, false),
        (-INF, false),
    ];
    let areas = [
        (0.0, true),
        (-0.0, true),
        (most, true),
        (most.next_up(), false),
        (-LEAST, false),
        (-1.0, false),
        (NAN, false),
        (INF, false),
    ];
    for (x, passes) in coordinates {
        for (name, place) in [
            ("put_p", 0),
            ("put_p", 11),
            ("put_normals", 4),
            ("put_normals", 9),
        ] {
            one_float(script, name, place, x, passes);
        }
    }
    for (x, passes) in areas {
        for place in [0, 3] {
            one_float(script, "put_area", place, x, passes);
        }
    }
    for (name, place) in [("put_p", 12), ("put_normals", 12), ("put_area", 4)] {
        one_float(script, name, place, NAN, true);
        script.poke(name, place, 0.0);
    }
}

/// A call with one float of another value, which is put back.
fn one_float(script: &mut Script, name: &'static str, place: usize, x: f32, passes: bool) {
    script.poke(name, place, x);
    assert_eq!(script.clusters(told())[0], if passes { 0 } else { 5 });
    script.surfels(&good());
}

/// Several rows apply: the lowest number is returned.
fn lowest_first(script: &mut Script) {
    let t = told();
    let many = ClustersTold { n: 400_001, ..t };
    let odd = ClustersTold { res: 65, ..t };
    let none = ClustersTold { res: 0, ..many };
    for name in ["put_p", "put_normals", "put_area"] {
        script.poke(name, 2, NAN);
        assert_eq!(script.clusters(t), [5]);
        assert_eq!(script.clusters(odd), [3]);
        script.lend_clusters(ClustersLent {
            spare: 3,
            ..ClustersLent::need(4)
        });
        assert_eq!(script.clusters(t), [4]);
        assert_eq!(script.clusters(odd), [3]);
        assert_eq!(script.clusters(many), [2]);
        assert_eq!(script.clusters(none), [2]);
        script.lend_clusters(ClustersLent::need(4));
        assert_eq!(script.clusters(none), [2]);
        script.surfels(&good());
    }
    assert_eq!(script.clusters(ClustersTold { n: 5, ..odd }), [3]);
    assert_eq!(script.clusters(ClustersTold { n: 5, ..t }), [4]);
    assert_eq!(script.clusters(t)[0], 0);
}
