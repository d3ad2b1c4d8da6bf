//! Near lists: which numbers are visited, in which order, and what the list holds after them.

use super::*;

pub(super) fn write(script: &mut Script) {
    in_a_row(script);
    in_a_cube(script);
    in_random_boxes(script);
    on_a_long_axis(script);
    lengths(script);
}

/// In Q's grid: points in the box, on borders and outside.
fn in_a_row(script: &mut Script) {
    script.bounds(of_q());
    let points = [3.5, 0.5, 0.5, 1.5, 2.5, 2.25, 1.0].map(|x| point(at(x, 0.5, 0.5)));
    let n = script.surfels(&points);
    script.built(n);
    script.fill();
    script.build(n);
    for x in [
        -7.0,
        0.0,
        0.5,
        1.0,
        1.0f32.next_down(),
        2.75,
        3.999,
        4.0,
        10_000.0,
    ] {
        for reach in [0, 1, 2, 511] {
            script.listed(n, at(x, 0.5, 0.5), reach);
        }
    }
    script.show_all();
}

/// A cube of 27 cells, one point and a few more in each: z outermost, x innermost.
fn in_a_cube(script: &mut Script) {
    script.bounds(bounds(Vec3::ZERO, Vec3::splat(3.0), 1.0));
    let points: Vec<Patch> = (0..32)
        .map(|k| {
            // 27 and 10 have no common factor: each cell once, in another order.
            let c = k * 10 % 27;
            point(at(
                (c % 3) as f32 + 0.25,
                (c / 3 % 3) as f32 + 0.5,
                (c / 9) as f32 + 0.75,
            ))
        })
        .collect();
    let n = script.surfels(&points);
    script.built(n);
    for c in 0..27 {
        let p = at(
            (c % 3) as f32 + 0.5,
            (c / 3 % 3) as f32 + 0.5,
            (c / 9) as f32 + 0.5,
        );
        script.listed(n, p, 0);
        script.listed(n, p, 1);
        if c % 4 == 0 {
            script.listed(n, p, 2);
            script.listed(n, p, 3);
        }
    }
}

/// Random boxes of up to six cells an axis.
fn in_random_boxes(script: &mut Script) {
    let mut random = Random::new(0x6E65_6172);
    for _ in 0..14 {
        let cell = random.between(0.2, 1.5);
        let lo = within(&mut random, Vec3::splat(-4.0), Vec3::splat(4.0));
        let size = |random: &mut Random| cell * (random.below(6) as f32 + random.between(0.1, 1.0));
        let extent = at(size(&mut random), size(&mut random), size(&mut random));
        let hi = lo + extent;
        script.bounds(bounds(lo, hi, cell));
        let n = 8 + random.below(25);
        for k in 0..n {
            if random.below(2) == 0 {
                script.surfel(
                    k,
                    point(within(&mut random, lo - extent * 0.1, hi + extent * 0.1)),
                );
            }
        }
        script.build(n);
        for _ in 0..6 {
            let p = within(&mut random, lo - extent * 0.3, hi + extent * 0.3);
            let reach = [0, 1, 1, 2, 3, 4][random.below(6) as usize];
            script.listed(n, p, reach);
        }
        let corner = [lo, hi][random.below(2) as usize];
        script.listed(n, corner, 1);
    }
    script.show_all();
}

/// 512 cells: a reach of 511 is the whole axis from either end.
fn on_a_long_axis(script: &mut Script) {
    for axis in 0..3 {
        let along = |x: f32| {
            let mut v = [0.5; 3];
            v[axis] = x;
            at(v[0], v[1], v[2])
        };
        let places = [511.5, 0.5, 256.5, 510.5, 1.5, 255.5, 300.5, 511.25];
        let n = script.surfels(&places.map(|x| point(along(x))));
        script.bounds(bounds(Vec3::ZERO, along(512.0), 1.0));
        script.build(n);
        for (x, reach) in [
            (0.5, 511),
            (0.5, 510),
            (0.5, 509),
            (0.5, 255),
            (0.5, 256),
            (511.5, 511),
            (511.5, 510),
            (511.5, 0),
            (256.0, 255),
            (256.0, 254),
            (256.0, 1),
            (-5.0, 1),
            (9_000.0, 1),
        ] {
            script.listed(n, along(x), reach);
        }
        assert_eq!(script.near(n, along(0.5), 511), [0, n]);
        assert_eq!(script.near(n, along(0.5), 512), [3]);
    }
}

/// Lists of exactly the need, one short, longer, and of no place at all.
fn lengths(script: &mut Script) {
    script.bounds(of_q());
    let points = [3.5, 0.5, 0.5, 1.5, 2.5, 2.25, 1.0].map(|x| point(at(x, 0.5, 0.5)));
    let n = script.surfels(&points);
    script.build(n);
    for (x, reach) in [(0.5, 0), (0.5, 1), (1.5, 1), (3.5, 0), (2.0, 511)] {
        let p = at(x, 0.5, 0.5);
        let need = readings::visited(&script.sheet, n, p, reach).len();
        for list in [need, need - 1, need + 1, 0, LIST] {
            script.lend(Lent { list, ..Lent::ALL });
            script.fill();
            script.build(n);
            script.near(n, p, reach);
            script.show("list", LIST);
        }
    }
    // A cell without points needs no place.
    script.lend(Lent {
        list: 0,
        ..Lent::ALL
    });
    let n = script.surfels(&[point(at(0.5, 0.5, 0.5))]);
    script.build(n);
    assert_eq!(script.near(n, at(3.5, 0.5, 0.5), 2), [0, 0]);
    assert_eq!(script.near(n, at(3.5, 0.5, 0.5), 3), [4]);
    script.build(0);
    assert_eq!(script.near(0, at(3.5, 0.5, 0.5), 511), [0, 0]);
    script.show_all();
    script.lend(Lent::ALL);
}
