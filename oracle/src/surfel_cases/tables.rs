//! Grids built: random boxes, points on the borders of cells and of the box, and boxes at document
//! 01's limits.

use super::*;

pub(super) fn write(script: &mut Script) {
    four_points_of_q(script);
    random_boxes(script);
    borders(script);
    by_one_over_the_cell(script);
    one_cell(script);
    long_axes(script);
    odd_boxes(script);
    small_and_large_cells(script);
    order_within_a_cell(script);
}

/// "points x = 3.5, 0.5, 0.5, 1.5 (y = z = 0.5) in Q's grid give starts 0 2 3 3 4, items 1 2 3 0".
fn four_points_of_q(script: &mut Script) {
    script.fill();
    script.bounds(of_q());
    let points = [3.5, 0.5, 0.5, 1.5].map(|x| point(at(x, 0.5, 0.5)));
    let n = script.surfels(&points);
    assert_eq!(script.build(n), [0, 4, 1, 1]);
    assert_eq!(script.sheet.starts[..5], [0, 2, 3, 3, 4]);
    assert_eq!(script.sheet.items[..4], [1, 2, 3, 0]);
    script.show_all();
    // Fewer of the same points, down to none.
    for n in [3, 2, 1, 0] {
        script.fill();
        script.built(n);
    }
}

/// A coordinate of a box of `dim` cells: anywhere in it, outside it, on a border or next to one.
fn coordinate(random: &mut Random, lo: f32, hi: f32, cell: f32, dim: u32) -> f32 {
    let border = lo + cell * random.below(dim + 1) as f32;
    match random.below(12) {
        0 => lo,
        1 => hi,
        2 => lo - random.between(0.0, 3.0 * cell),
        3 => hi + random.between(0.0, 3.0 * cell),
        4 => border,
        5 => border.next_up(),
        6 => border.next_down(),
        _ => random.between(lo, hi),
    }
}

/// Boxes of 1 to 5 cells an axis, with 0 to 32 points.
fn random_boxes(script: &mut Script) {
    let mut random = Random::new(0x6772_6964);
    for round in 0..20 {
        let cell = random.between(0.05, 2.0);
        let dims: [u32; 3] = std::array::from_fn(|_| 1 + random.below(5));
        let lo = within(&mut random, Vec3::splat(-6.0), Vec3::splat(6.0));
        // Some boxes are whole cells, some end within one.
        let part = [1.0, 1.0, 0.6, 0.97][random.below(4) as usize];
        let extent = |d: u32| cell * (d as f32 - 1.0 + part);
        let hi = lo + at(extent(dims[0]), extent(dims[1]), extent(dims[2]));
        script.bounds(bounds(lo, hi, cell));
        let n = if round < 4 {
            [0, 1, 32, 31][round]
        } else {
            random.below(33)
        };
        for k in 0..n {
            // A third of the points stay as they were, in this box or outside it.
            if random.below(3) > 0 {
                let mut axis = |i: usize, lo, hi| coordinate(&mut random, lo, hi, cell, dims[i]);
                let p = at(
                    axis(0, lo.x, hi.x),
                    axis(1, lo.y, hi.y),
                    axis(2, lo.z, hi.z),
                );
                script.surfel(k, point(p));
            }
        }
        script.built(n);
        if round == 7 {
            script.show_all();
        }
    }
}

/// Each border of a box of whole cells, and the floats beside it, on each axis.
fn borders(script: &mut Script) {
    let boxes = [
        (at(-1.5, 0.25, 2.0), at(3.0, 1.5, 1.0), 0.5),
        (at(0.3, -0.4, 5.0), at(0.7, 0.5, 0.3), 0.1),
        (at(-9000.0, 9000.0, 0.0), at(3.0, 2.0, 1.0), 0.75),
    ];
    for (lo, extent, cell) in boxes {
        let hi = lo + extent;
        script.bounds(bounds(lo, hi, cell));
        for axis in 0..3 {
            let (from, to) = (floats(lo)[axis], floats(hi)[axis]);
            let mut places = vec![from - 5.0, to + 5.0, from.next_down(), to, to.next_up()];
            for k in 0..6 {
                let x = from + cell * k as f32;
                places.extend([x.next_down(), x, x.next_up()]);
            }
            let middle = floats(lo + extent * 0.55);
            let points: Vec<Patch> = places
                .iter()
                .map(|&x| {
                    let mut p = middle;
                    p[axis] = x;
                    point(at(p[0], p[1], p[2]))
                })
                .collect();
            let n = script.surfels(&points);
            script.built(n);
        }
    }
}

/// Points whose cell is another if the distance from lo is divided by the size of a cell.
fn by_one_over_the_cell(script: &mut Script) {
    let mut random = Random::new(0x6F76_6572);
    let mut found = 0;
    while found < 9 {
        let cell = random.between(0.01, 3.0);
        let near = |k: i32| {
            let x = cell * k as f32;
            [x.next_down(), x, x.next_up()]
        };
        let differs = |x: &f32| (*x * (1.0 / cell)) as i32 != (*x / cell) as i32;
        let list: Vec<f32> = (1..8).flat_map(near).filter(differs).collect();
        if list.len() < 2 {
            continue;
        }
        let along = |x: f32| {
            let mut v = [0.0; 3];
            v[found % 3] = x;
            at(v[0], v[1], v[2])
        };
        let points: Vec<Patch> = list.iter().map(|&x| point(along(x))).collect();
        script.bounds(bounds(Vec3::ZERO, along(7.5 * cell), cell));
        let n = script.surfels(&points);
        script.built(n);
        script.listed(n, points[0].p, 0);
        found += 1;
    }
}

/// One cell holds every point: a box without extent, one smaller than a cell, one as large.
fn one_cell(script: &mut Script) {
    let spots = [0.0, -0.0, 1.0, -1.0, 0.25, 10_000.0, -10_000.0];
    let mut points = Vec::new();
    for (i, &x) in spots.iter().enumerate() {
        let (y, z) = (spots[(i + 2) % 7], spots[(i + 3) % 7]);
        points.push(point(at(x, y, z)));
    }
    let n = script.surfels(&points);
    for (lo, hi, cell) in [
        (Vec3::ZERO, Vec3::ZERO, 1.0),
        (Vec3::ZERO, Vec3::splat(0.5), 1.0),
        (Vec3::ZERO, Vec3::ONE, 1.0),
        (Vec3::splat(-0.0), Vec3::splat(0.0), 0.0001),
        (Vec3::splat(0.0), Vec3::splat(-0.0), 0.0001),
        (Vec3::splat(10_000.0), Vec3::splat(10_000.0), 0.0001),
        (Vec3::splat(-10_000.0), Vec3::splat(-10_000.0), 10_000.0),
        (Vec3::ZERO, Vec3::splat(10_000.0), 10_000.0),
        (Vec3::splat(0.1), Vec3::splat(0.4), 0.3),
    ] {
        script.bounds(bounds(lo, hi, cell));
        script.built(n);
    }
}

/// 512 cells on an axis and next to it; more than 512 are 512. As many cells as the tables hold.
fn long_axes(script: &mut Script) {
    let spots = [
        0.0,
        0.5,
        255.5,
        256.0,
        510.999,
        511.0,
        511.0f32.next_down(),
        511.5,
        512.0,
        512.0f32.next_down(),
        513.0,
        600.0,
        9_999.0,
        -1.0,
        -10_000.0,
        1.0,
    ];
    for axis in 0..3 {
        let along = |x: f32| {
            let mut v = [0.0; 3];
            v[axis] = x;
            at(v[0], v[1], v[2])
        };
        let points = spots.map(|x| point(along(x)));
        let n = script.surfels(&points);
        let ends: &[f32] = match axis {
            0 => &[512.0, 511.0, 511.5, 510.5, 513.0, 600.0, 10_000.0],
            _ => &[512.0, 511.0, 10_000.0],
        };
        for &end in ends {
            script.bounds(bounds(Vec3::ZERO, along(end), 1.0));
            script.build(n);
            script.show("items", 17);
            script.ask("starts", vec![0]);
            script.ask("starts", vec![248]);
            script.ask("starts", vec![504]);
        }
        script.show("starts", STARTS);
    }
    // 512, 518, 519 and 520 cells by other ways: 521 starts are one more than the tables hold.
    for extent in [
        at(8.0, 8.0, 8.0),
        at(37.0, 14.0, 1.0),
        at(173.0, 3.0, 1.0),
        at(130.0, 4.0, 1.0),
        at(1.0, 260.0, 2.0),
        at(3.0, 1.0, 173.0),
    ] {
        script.bounds(bounds(Vec3::ZERO, extent, 1.0));
        script.fill();
        script.build(16);
        for from in [0, 16, 256, 488, 504] {
            script.ask("starts", vec![from]);
        }
        script.show("items", SURFELS);
    }
}

/// Boxes whose counts are close: by one over the cell where a division gives another count, wide
/// boxes, boxes far from zero whose extent is rounded.
fn odd_boxes(script: &mut Script) {
    let (extent, cell) = (f32::from_bits(0x3C75C290), f32::from_bits(0x3B449BA6));
    script.bounds(bounds(Vec3::ZERO, Vec3::splat(extent), cell));
    let points: Vec<Patch> = (0..14)
        .map(|k| {
            let x = cell * 0.5 * k as f32;
            point(at(x, extent - x, x.next_down()))
        })
        .collect();
    let n = script.surfels(&points);
    assert_eq!(script.build(n)[1..], [6, 6, 6]);
    script.show_grid(n);
    script.fill();
    script.bounds(bounds(Vec3::ZERO, at(extent, 0.0, 0.0), cell));
    script.built(n);

    let wide: Vec<Patch> = (0..12)
        .map(|k| {
            let x = -10_000.0 + 1_818.0 * k as f32;
            point(at(x, -x, 0.5 * x))
        })
        .collect();
    let n = script.surfels(&wide);
    for (far, cell) in [
        (6_000.0, 10_000.0),
        (6_000.0, 4_000.0),
        (6_000.0, 3_000.0),
        (6_000.0, 2_999.0),
        (10_000.0, 10_000.0),
        (10_000.0, 5_000.0),
        (10_000.0, 2_857.2),
        (10_000.0, 9_999.999),
    ] {
        script.bounds(bounds(Vec3::splat(-far), Vec3::splat(far), cell));
        script.built(n);
    }
    let mut random = Random::new(0x6578_7465);
    for _ in 0..24 {
        // An extent of nearly a whole number of cells.
        let cell = random.between(0.01, 3.0);
        let extent = |random: &mut Random| {
            let whole = cell * (1 + random.below(7)) as f32;
            [whole, whole.next_up(), whole.next_down()][random.below(3) as usize]
        };
        let e = at(
            extent(&mut random),
            extent(&mut random),
            extent(&mut random),
        );
        let lo = [Vec3::ZERO, at(100.0, -100.0, 7.7)][random.below(2) as usize];
        script.bounds(bounds(lo, lo + e, cell));
        script.build(n);
        script.show("items", 13);
    }
}

/// "cells 0, 0.0001, 10,000": the first is refused.
fn small_and_large_cells(script: &mut Script) {
    let points: Vec<Patch> = (0..12)
        .map(|k| {
            let x = 0.000_95 * k as f32;
            point(at(x, 0.000_1 * k as f32, 0.001 - x))
        })
        .collect();
    let n = script.surfels(&points);
    for hi in [
        at(0.001, 0.0, 0.0),
        at(0.003, 0.0, 0.0),
        at(0.01, 0.0, 0.0),
        at(0.01, 0.0004, 0.0),
        at(0.0007, 0.0007, 0.0007),
        at(0.0, 0.0, 0.01),
        at(0.000_1, 0.000_1, 0.000_1),
        at(0.000_2, 0.000_3, 0.000_4),
        at(0.05, 0.0, 0.0),
    ] {
        script.bounds(bounds(Vec3::ZERO, hi, 0.0001));
        script.built(n);
    }
    for hi in [Vec3::ZERO, at(0.01, 0.0, 0.0), at(10_000.0, 0.001, 5_000.0)] {
        script.bounds(bounds(Vec3::ZERO, hi, 0.0));
        script.fill();
        assert_eq!(script.build(n), [3]);
        script.bounds(bounds(Vec3::ZERO, hi, 10_000.0));
        script.built(n);
    }
    script.show_all();
}

/// Many points in few cells: their numbers ascend in each.
fn order_within_a_cell(script: &mut Script) {
    script.bounds(of_q());
    for step in [3, 5] {
        let points: Vec<Patch> = (0..32)
            .map(|k| point(at((k * step % 4) as f32 + 0.5, 0.5, 0.5)))
            .collect();
        script.surfels(&points);
        for n in [32, 17, 6] {
            script.built(n);
        }
    }
    let points = [point(at(2.5, 0.0, 0.0)); 32];
    script.surfels(&points);
    script.built(32);
    // The cells' order: x innermost, z outermost.
    script.bounds(bounds(Vec3::ZERO, at(2.0, 3.0, 4.0), 1.0));
    let points: Vec<Patch> = (0..24u32)
        .map(|k| {
            let (x, y, z) = (k * 7 % 2, k * 7 / 2 % 3, k * 7 / 6 % 4);
            point(at(x as f32 + 0.5, y as f32 + 0.5, z as f32 + 0.5))
        })
        .collect();
    script.surfels(&points);
    script.built(24);
}
