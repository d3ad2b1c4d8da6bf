//! Bounds without extent, the largest bounds, and points on the bounds and beyond them.

use super::*;
use crate::transfer_cases::{closed, AXES};

pub(super) fn write(script: &mut Script) {
    script.materials(&PAINTS);
    on_the_bounds(script);
    without_extent(script);
    small_extents(script);
    largest(script);
}

/// A plane in one side of the bounds: seeds land on it exactly and are kept. Where the plane is one
/// float outside most that land on it are dropped, and farther out all, but for those that were on
/// the surface at once.
fn on_the_bounds(script: &mut Script) {
    let told = Bounds::within(1.0).told(3, 20);
    for (k, n) in AXES.into_iter().enumerate() {
        let mut counts = [1.0, 1.0f32.next_up(), 1.000_01].map(|h| {
            script.scene(&Room::with(plane(n, -h), &[]));
            let placed = script.placed(told);
            let side = |p: &[f32]| p[k / 2].abs() == 1.0;
            let on = script.site.p[..3 * placed]
                .chunks_exact(3)
                .filter(|p| side(p));
            (placed, on.count())
        });
        assert!(counts[0].1 > 0);
        counts.reverse();
        assert!(counts.is_sorted() && counts[0].0 < counts[2].0);
    }
}

/// One point, a line, a sheet: the separation of a point is 0.0001, and it has one cell.
fn without_extent(script: &mut Script) {
    script.scene(&Room::of(&[sphere(at(0.0, 0.0, 0.0), 1.0)]));
    let points = [
        (at(1.0, 0.0, 0.0), 1),
        (at(0.0, 0.6, 0.8), 1),
        (at(1.000_001, 0.0, 0.0), 1),
        (at(1.000_01, 0.0, 0.0), 0),
        (at(0.5, 0.25, 0.0), 0),
    ];
    for (p, placed) in points {
        for target in [0, 1, 2, 25] {
            let told = Bounds { lo: p, hi: p }.told(3, target);
            assert_eq!(script.placed(told), placed.min(target as usize));
        }
    }
    for (lo, hi) in [
        (at(-1.0, 0.0, 0.0), at(1.0, 0.0, 0.0)),
        (at(0.0, -2.0, 0.0), at(0.0, 2.0, 0.0)),
        (at(0.5, 0.5, -1.0), at(0.5, 0.5, 1.0)),
        (at(-1.0, -1.0, 0.0), at(1.0, 1.0, 0.0)),
        (at(0.0, -1.0, -2.0), at(0.0, 1.0, 2.0)),
        (at(-1.5, 0.5, -1.5), at(1.5, 0.5, 1.5)),
    ] {
        for target in [5, 40] {
            script.placed(Bounds { lo, hi }.told(3, target));
        }
    }
}

/// Bounds so small that the separation is 0.0001 whatever the target, or close to it.
fn small_extents(script: &mut Script) {
    script.scene(&Room::with(plane(Vec3::Y, 0.0), &[]));
    for size in [LEAST, 1e-30, 1e-6, 5e-5, 1e-4, 3e-4, 1e-3] {
        for target in [3, 90] {
            script.placed(Bounds::within(size).told(1, target));
        }
    }
}

/// ±10,000: areas over 1,000,000, which the next entry refuses, and points on the last coordinates.
fn largest(script: &mut Script) {
    script.scene(&closed(10_000.0));
    for target in [1, 2, 20] {
        let told = Bounds::within(10_000.0).told(5, target);
        assert!(script.placed(told) > 0);
        assert!(script.site.area[0] > 1_000_000.0);
    }
    script.scene(&Room::of(&[sphere(at(0.0, 0.0, 0.0), 10_000.0)]));
    script.placed(Bounds::within(10_000.0).told(5, 30));
    let corner = Vec3::splat(10_000.0);
    script.placed(
        Bounds {
            lo: corner,
            hi: corner,
        }
        .told(5, 1),
    );
}
