//! Which seeds are kept: the tests of the projection, the near neighbour, the end of the seeds.

use super::*;

pub(super) fn write(script: &mut Script) {
    script.materials(&PAINTS);
    lines_of_seeds(script);
    sheets_of_seeds(script);
    eps(script);
    slow_planes(script);
    long_steps(script);
    far_away(script);
    out_of_seeds(script);
}

/// Bounds that are a part of an axis, on a plane that holds it: each seed is on the surface at once.
/// On x the seeds are 2, 1, 3, 0.5, 2.5, .. of 4: a target of 16 sets them 1 apart, and the second and
/// the third are exactly as far from the first: they are kept. 0.5 is too close to 1, which lies in
/// the next cell.
fn lines_of_seeds(script: &mut Script) {
    for (axis, normal) in [(0, 1), (1, 2), (2, 0)] {
        let mut n = Vec3::ZERO;
        crate::transfer_cases::put(&mut n, normal, 1.0);
        script.scene(&Room::with(plane(n, 0.0), &[]));
        for target in [0, 1, 4, 9, 16, 25, 64, 100, 128] {
            let mut hi = Vec3::ZERO;
            crate::transfer_cases::put(&mut hi, axis, 4.0);
            let placed = script.placed(Bounds::to(hi).told(2, target));
            if axis == 0 && target == 16 {
                assert_eq!(
                    script.site.p[..9],
                    [2.0, 0.0, 0.0, 1.0, 0.0, 0.0, 3.0, 0.0, 0.0]
                );
                assert_eq!(placed, 3);
            }
            if axis == 0 && target == 64 {
                assert_eq!(placed, 7);
            }
        }
    }
}

/// Bounds that are a part of a plane: cells beside, before and across from a seed's own.
fn sheets_of_seeds(script: &mut Script) {
    for normal in 0..3 {
        let mut n = Vec3::ZERO;
        crate::transfer_cases::put(&mut n, normal, -1.0);
        script.scene(&Room::with(plane(n, -0.5), &[]));
        for target in [12, 36, 110] {
            let mut bounds = Bounds::to(at(3.0, 2.0, 2.5));
            crate::transfer_cases::put(&mut bounds.lo, normal, 0.5);
            crate::transfer_cases::put(&mut bounds.hi, normal, 0.5);
            script.placed(bounds.told(2, target));
        }
    }
}

/// A box whose diagonal is 7, and the target 49: surfels 1 apart, eps 0.02. The first seed's y is 0. A
/// plane across y that is nearer than eps leaves the seed where it is; one at eps moves it.
fn eps(script: &mut Script) {
    let eps = 0.02f32;
    let bounds = Bounds {
        lo: at(0.0, -1.0, 0.0),
        hi: at(2.0, 2.0, 6.0),
    };
    let told = bounds.told(1, 49);
    assert_eq!(told.d_min(), 1.0);
    for off in [0.0, 0.01, eps.next_down(), eps, 0.03, 0.0399, 0.05] {
        for h in [off, -off] {
            script.scene(&Room::with(plane(Vec3::Y, h), &[]));
            assert!(script.placed(told) > 0);
            assert_eq!(script.site.p[1] == 0.0, off < eps, "{off}");
        }
    }
}

/// Planes whose normals are shorter than 1: each step goes a part of the way, and ten tests are made.
/// Longer ones step too far, and come back up to twice the length.
fn slow_planes(script: &mut Script) {
    for length in [
        0.0, 0.05, 0.25, 0.4, 0.75, 1.25, 1.75, 1.95, 2.0, 2.25, 40.0,
    ] {
        script.scene(&Room::with(plane(at(0.0, length, 0.0), 0.5 * length), &[]));
        script.placed(Bounds::within(1.0).told(1, 30));
    }
}

/// Planes whose normals are longer than 1 give distances over the diagonal within the bounds: such a
/// seed is dropped, where further steps would have brought it to the surface. The second seed of the
/// first call is exactly as far away as the diagonal is long, and is kept.
fn long_steps(script: &mut Script) {
    for (length, h, hi, target) in [
        (1.5, 0.0, at(0.0, 2.0, 0.0), 1),
        (1.5, 0.0, at(0.0, 2.0, 0.0), 9),
        (1.6, 0.0, at(0.0, 4.0, 1.0), 1),
        (1.4, 0.0, at(1.0, 4.0, 1.0), 4),
        (1.5, 0.0, at(1.0, 4.0, 1.0), 24),
        (1.25, 0.25, at(1.0, 4.0, 1.0), 24),
        (1.4, 0.0, at(1.0, 4.0, 3.0), 16),
    ] {
        script.scene(&Room::with(plane(at(0.0, length, 0.0), h * length), &[]));
        assert!(script.placed(Bounds::to(hi).told(2, target)) > 0);
    }
}

/// Surfaces farther away than the diagonal are not looked for.
fn far_away(script: &mut Script) {
    for h in [0.9, 1.5, 3.4, 3.5, 9.0] {
        script.scene(&Room::with(plane(Vec3::Y, -h), &[]));
        script.placed(Bounds::within(1.0).told(1, 8));
    }
    script.scene(&Room::default());
    for target in [0, 1, 30] {
        assert_eq!(script.placed(Bounds::within(2.0).told(1, target)), 0);
    }
}

/// A small ball in a large room has no place for as many surfels as are asked for: all seeds are
/// tried. One surfel it has, by its first seeds.
fn out_of_seeds(script: &mut Script) {
    script.scene(&Room::of(&[sphere(at(0.3, 0.2, -0.1), 0.5)]));
    for target in [1, 2, 24, 120] {
        let placed = script.placed(Bounds::within(4.0).told(2, target));
        assert_eq!(placed == target as usize, target == 1);
    }
}
