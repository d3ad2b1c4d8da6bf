//! In which voxel a surfel is: borders, points outside, flat bounds, the least and the largest
//! resolution; and in which order clusters stand.

use super::*;

pub(super) fn write(script: &mut Script) {
    borders(script);
    outside(script);
    flat_bounds(script);
    wide_bounds(script);
    orders(script);
    random_boxes(script);
    each_count(script);
}

/// Resolutions that are asked everywhere.
const RESOLUTIONS: [u32; 4] = [1, 2, 7, 64];

/// Points along one axis, the others in the middle of the box.
fn along(axis: usize, bounds: Bounds, xs: &[f32], n: Vec3) -> Vec<Patch> {
    let middle = (bounds.lo + bounds.hi) * 0.5;
    let put = |x: f32| {
        let mut c = [middle.x, middle.y, middle.z];
        c[axis] = x;
        at(c[0], c[1], c[2])
    };
    xs.iter().map(|&x| patch(put(x), n, 0.5)).collect()
}

/// At the borders of voxels and beside them.
fn borders(script: &mut Script) {
    for res in RESOLUTIONS {
        for (axis, size) in [(0, 1.0), (1, res as f32), (2, 3.0f32)] {
            let bounds = Bounds {
                lo: Vec3::ZERO,
                hi: Vec3::splat(size),
            };
            let border = |k: f32| size * k / res as f32;
            let list = [
                border(1.0),
                border((res / 2) as f32),
                border(res as f32 - 1.0),
                size,
            ];
            let xs: Vec<f32> = list
                .iter()
                .flat_map(|x| [*x, x.next_down(), x.next_up()])
                .collect();
            let list = along(axis, bounds, &xs, AXES[2 * axis]);
            script.grouped(&list, bounds, res);
        }
    }
}

/// Below lo and above hi, near and far, and minus zero.
fn outside(script: &mut Script) {
    let bounds = Bounds {
        lo: at(-1.0, 0.0, 2.0),
        hi: at(1.0, 4.0, 2.5),
    };
    for (axis, (lo, hi)) in [(-1.0f32, 1.0f32), (0.0, 4.0), (2.0, 2.5)]
        .into_iter()
        .enumerate()
    {
        for res in RESOLUTIONS {
            let xs = [
                -10_000.0,
                lo - 0.5,
                lo.next_down(),
                -0.0,
                hi.next_up(),
                hi + 0.25,
                10_000.0,
            ];
            let mut list = along(axis, bounds, &xs, AXES[5 - axis]);
            list.push(patch(Vec3::splat(-10_000.0), UP, 1.0));
            list.push(patch(Vec3::splat(10_000.0), UP, 1.0));
            script.grouped(&list, bounds, res);
        }
    }
}

/// No extent on an axis, or on all: it counts as 0.000001.
fn flat_bounds(script: &mut Script) {
    let corner = at(0.5, -0.25, 1e-6);
    let offs = [0.0, 1e-7, 5e-7, 9e-7, 1e-6, 2e-6, -1e-7];
    for axis in 0..4 {
        for res in RESOLUTIONS {
            let mut hi = corner + Vec3::ONE;
            match axis {
                0 => hi.x = corner.x,
                1 => hi.y = corner.y,
                2 => hi.z = corner.z,
                _ => hi = corner,
            }
            let bounds = Bounds { lo: corner, hi };
            let list: Vec<Patch> = offs
                .iter()
                .map(|&off| patch(corner + Vec3::splat(off), UP, 1.0))
                .collect();
            script.grouped(&list, bounds, res);
        }
    }
    // At zero, where the offsets are not rounded away.
    let bounds = Bounds {
        lo: at(0.0, -0.0, 0.0),
        hi: at(0.0, 0.0, -0.0),
    };
    for res in RESOLUTIONS {
        let list: Vec<Patch> = offs
            .iter()
            .map(|&off| patch(at(off, off * 0.5, -off), UP, 1.0))
            .collect();
        script.grouped(&list, bounds, res);
    }
}

/// The largest bounds, and a box in a corner of them.
fn wide_bounds(script: &mut Script) {
    let end = 10_000.0f32;
    let boxes = [
        Bounds::within(end),
        Bounds {
            lo: Vec3::splat(end.next_down()),
            hi: Vec3::splat(end),
        },
        Bounds {
            lo: Vec3::splat(-end),
            hi: Vec3::splat(-end),
        },
    ];
    for bounds in boxes {
        for res in RESOLUTIONS {
            let xs = [end, -end, 0.0, end.next_down(), -9_687.5, 312.5, 312.4];
            let list: Vec<Patch> = xs
                .iter()
                .map(|&x| patch(at(x, -x, 0.5 * x), UP, 2.0))
                .collect();
            script.grouped(&list, bounds, res);
        }
    }
}

/// The keys of a box of eight voxels in falling and in mixed order, and each bucket of one voxel.
fn orders(script: &mut Script) {
    let bounds = Bounds::within(1.0);
    let corner = |k: usize| {
        let side = |bit: usize| if k >> bit & 1 == 1 { 0.5 } else { -0.5 };
        at(side(0), side(1), side(2))
    };
    let falling: Vec<Patch> = (0..8).rev().map(|k| patch(corner(k), UP, 1.0)).collect();
    let buckets: Vec<Patch> = (0..12)
        .map(|k| patch(corner(0), AXES[5 - k % 6], 1.0))
        .collect();
    let mixed: Vec<Patch> = (0..SURFELS)
        .map(|k| patch(corner(k * 5 % 8), AXES[k * 7 % 6], 0.25 + k as f32))
        .collect();
    for list in [falling, buckets, mixed] {
        for res in [1, 2, 3, 64] {
            script.grouped(&list, bounds, res);
        }
    }
}

/// Random boxes, points and resolutions.
fn random_boxes(script: &mut Script) {
    let mut random = Random::new(0x766F_7865);
    for k in 0..60 {
        let size = [0.01, 1.0, 8.0, 300.0][k % 4];
        let (a, b) = (point(&mut random, size), point(&mut random, size));
        let bounds = Bounds {
            lo: a.min(b),
            hi: a.max(b),
        };
        let n = match k % 10 {
            0 => 20 + random.below(13),
            _ => 1 + random.below(9),
        };
        let list: Vec<Patch> = (0..n).map(|_| drawn(&mut random, size)).collect();
        let res = match random.below(3) {
            0 => 1 + random.below(64),
            1 => 1 + random.below(4),
            _ => RESOLUTIONS[random.below(4) as usize],
        };
        script.grouped(&list, bounds, res);
    }
}

/// A surfel within ±size on each axis; some have no area, some have very little.
pub(super) fn drawn(random: &mut Random, size: f32) -> Patch {
    let area = match random.below(6) {
        0 => [0.0, 1e-13, 1e-12, 1e-12f32.next_up()][random.below(4) as usize],
        1 => random.between(0.0, 1e6),
        _ => random.between(0.0, 2.0),
    };
    let n = match random.below(3) {
        0 => AXES[random.below(6) as usize],
        _ => direction(random),
    };
    patch(point(random, size), n, area)
}

/// From no surfel to as many as there are places.
fn each_count(script: &mut Script) {
    let mut random = Random::new(0x636F_756E);
    let list: Vec<Patch> = (0..SURFELS).map(|_| drawn(&mut random, 2.0)).collect();
    for n in 0..=SURFELS {
        script.grouped(&list[..n], Bounds::within(2.0), 1 + n as u32 % 3);
    }
    for res in RESOLUTIONS {
        assert_eq!(script.grouped(&[], Bounds::within(2.0), res), 0);
    }
}
