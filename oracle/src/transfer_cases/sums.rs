//! What is summed in a cluster: areas at 1e-12, where it is dropped, normals that come to nothing,
//! the order of the sums, and the largest areas.

use super::*;

pub(super) fn write(script: &mut Script) {
    small_areas(script);
    dropped_between(script);
    small_normals(script);
    orders_of_sums(script);
    large(script);
    past_the_coordinates(script);
}

const BOX: Bounds = Bounds {
    lo: Vec3::new(0.0, 0.0, 0.0),
    hi: Vec3::new(4.0, 4.0, 4.0),
};

const SPOT: Vec3 = Vec3::new(0.5, 1.5, 2.5);

/// "a cluster whose area is at most 1e-12 is dropped": one area, or several that come to it.
fn small_areas(script: &mut Script) {
    let tiny = 1e-12f32;
    let areas: [&[f32]; 18] = [
        &[0.0],
        &[-0.0],
        &[LEAST],
        &[1e-13],
        &[tiny.next_down()],
        &[tiny],
        &[tiny.next_up()],
        &[2e-12],
        &[0.0, 0.0, 0.0],
        &[5e-13, 5e-13],
        &[5e-13, 5.0001e-13],
        &[tiny, 0.0],
        &[tiny, LEAST],
        &[tiny, 1e-13],
        &[1e-13; 9],
        &[1e-13; 10],
        &[1e-13; 11],
        &[0.0, 1.0, 0.0],
    ];
    for list in areas {
        let list: Vec<Patch> = list.iter().map(|&area| patch(SPOT, UP, area)).collect();
        script.grouped(&list, BOX, 2);
    }
}

/// Dropped first, last, between others, two in a row, and all of them.
fn dropped_between(script: &mut Script) {
    let places = [0.5, 1.5, 2.5, 3.5];
    for kept in 0..16u32 {
        let list: Vec<Patch> = (0..8)
            .map(|k| {
                let voxel = k % 4;
                let area = match kept >> voxel & 1 {
                    1 => 0.5 + k as f32,
                    _ => 3e-13,
                };
                patch(at(places[voxel], 0.5, 0.5), AXES[k / 4], area)
            })
            .collect();
        script.grouped(&list, BOX, 4);
        // Only one of two in a voxel has an area.
        let mut halves = list;
        halves[4..].iter_mut().for_each(|s| s.n = AXES[0]);
        script.grouped(&halves, BOX, 4);
    }
}

/// Summed normals whose squared length is at most 1e-12 make it y: short ones, those of small areas,
/// the zero vector; and zeros of both signs.
fn small_normals(script: &mut Script) {
    let micro = 1e-6f32;
    let normals = [
        Vec3::ZERO,
        Vec3::splat(-0.0),
        at(-0.0, 0.0, -0.0),
        at(LEAST, 0.0, 0.0),
        at(micro, 0.0, 0.0),
        at(micro.next_up(), 0.0, 0.0),
        at(micro.next_down(), 0.0, 0.0),
        at(0.0, -micro.next_up(), 0.0),
        at(0.0, 0.0, -2e-6),
        at(6e-7, 6e-7, 6e-7),
        at(5e-7, -5e-7, 5e-7),
        at(1e-3, -0.0, 0.0),
        at(-0.0, -0.0, -3.0),
        at(10_000.0, -10_000.0, 10_000.0),
    ];
    for n in normals {
        for area in [1.0, 1e-6, 1e-11] {
            script.grouped(&[patch(SPOT, n, area)], BOX, 3);
        }
    }
    // What cancels within a bucket, as far as it can.
    let pairs = [
        (at(1.0, 1.0, 1.0), at(0.0, 0.0, 0.0)),
        (at(1e-7, 1e-7, 0.0), at(1e-7, -1e-7, 0.0)),
        (at(1.0, 1.0, 0.0), at(1.0, -1.0, 0.0)),
        (at(1.0, -1.0, 1.0), at(1.0, 1.0, -1.0)),
        (at(0.0, -1.0, 1.0), at(0.0, -1.0, -1.0)),
    ];
    for (a, b) in pairs {
        let list = [patch(SPOT, a, 1.0), patch(SPOT, b, 1.0)];
        script.grouped(&list, BOX, 2);
        script.grouped(&[list[1], list[0]], BOX, 2);
    }
}

/// Large and small ones in several orders: members are summed in theirs.
fn orders_of_sums(script: &mut Script) {
    let mut random = Random::new(0x6F72_6465);
    let mut list: Vec<Patch> = (0..12)
        .map(|k| {
            let area = [1e6, 1.0, 1e-4, 0.3][k % 4] * random.between(0.5, 1.0);
            let tilt = direction(&mut random) * 0.4;
            patch(SPOT + point(&mut random, 0.4), UP + tilt, area)
        })
        .collect();
    for _ in 0..8 {
        script.grouped(&list, BOX, 2);
        list.rotate_left(5);
        list.swap(0, 7);
    }
}

/// The largest areas, coordinates and normals.
fn large(script: &mut Script) {
    let (far, most) = (10_000.0f32, 1e6);
    for x in [far, -far] {
        for n in [at(far, 0.0, 0.0), at(-far, far, -far), at(0.0, 1.0, 0.0)] {
            let one = patch(at(x, -x, x), n, most);
            script.grouped(&[one], Bounds::within(far), 64);
            script.grouped(&[one; SURFELS], Bounds::within(far), 64);
        }
    }
}

/// A centre can pass 10,000 by rounding; rows over it are refused with 5.
fn past_the_coordinates(script: &mut Script) {
    let areas = [0x3D3C6A7F, 0x3EE978D5].map(f32::from_bits);
    let list = areas.map(|area| patch(at(10_000.0, 0.0, 0.0), UP, area));
    let bounds = Bounds::within(10_000.0);
    assert_eq!(script.grouped(&list, bounds, 1), 1);
    assert_eq!(script.store.words("put_cluster_p")[0], 0x461C4001);
    script.lend_rows(RowsLent::need(2, 1, 2));
    assert_eq!(script.rows(bounds.rows(2, 1)), [5]);
    assert_eq!(script.rows(bounds.rows(2, 0))[0], 0);
}
