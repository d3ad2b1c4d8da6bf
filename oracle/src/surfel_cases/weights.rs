//! Readings where a test or a sum is at its limit: the radius, the normals' dot product, the weight
//! sum, and irradiance of any float.

use super::*;

pub(super) fn write(script: &mut Script) {
    at_the_radius(script);
    small_radii(script);
    large_radii(script);
    facing(script);
    facing_by_sums(script);
    least_sum(script);
    least_sum_of_several(script);
    any_irradiance(script);
    overflows(script);
    turned_order(script);
}

/// A box of eight cells around zero.
fn around() -> Bounds {
    bounds(Vec3::splat(-4.0), Vec3::splat(4.0), 4.0)
}

/// A surfel at the radius, one float before it and one after it, with and without another that is
/// seen; its irradiance is finite, infinite or NaN, so that a weight of 0 shows.
fn at_the_radius(script: &mut Script) {
    script.bounds(around());
    for irr in [2.0, INF, -INF, NAN] {
        let odd = patch(Vec3::ZERO, UP, at(irr, 1.0, irr));
        let other = patch(at(0.125, 0.0, 0.0), UP, at(0.5, 0.25, 4.0));
        for list in [vec![odd], vec![odd, other], vec![other, odd]] {
            let n = script.surfels(&list);
            script.build(n);
            for r in [0.5, 0.7, 1.1f32, 3.0] {
                for x in [r, r.next_down(), r.next_up(), -r] {
                    script.gather(n, at(x, 0.0, 0.0), UP, r);
                }
            }
            // A squared distance of three terms: 9 is 1 + 4 + 4.
            script.gather(n, at(1.0, 2.0, -2.0), UP, 3.0);
            script.gather(n, at(1.0, 2.0, -2.0), UP, 3.0f32.next_down());
            script.gather(n, at(1.0, 2.0, 2.0f32.next_up()), UP, 3.0);
        }
    }
}

/// Radii whose square is subnormal or zero: zero over zero is NaN, and the reading unseen.
fn small_radii(script: &mut Script) {
    script.bounds(around());
    let spots = [0.0, 1e-23, 3e-23, 1e-22, 4e-22, 1e-19, 1e-4];
    let list = spots.map(|x| patch(at(x, 0.0, 0.0), UP, at(1.0, 2.0, 3.0)));
    for many in [1, 2, 7] {
        let n = script.surfels(&list[..many]);
        script.build(n);
        for r in [
            0.0, -0.0, LEAST, 1e-40, 1e-23, 2.6e-23, 2.7e-23, 3e-23, 5e-23, 1e-22, 3e-22, 1e-21,
            1e-20, 1.1e-19, 1e-18, 1e-4,
        ] {
            script.gather(n, Vec3::ZERO, UP, r);
            script.gather(n, at(r, 0.0, 0.0), UP, r);
        }
    }
}

/// The largest radius, distances up to the whole of the range.
fn large_radii(script: &mut Script) {
    let far = 10_000.0f32;
    script.bounds(bounds(Vec3::splat(-far), Vec3::splat(far), far));
    let list = [
        patch(Vec3::ZERO, UP, at(1.0, 2.0, 3.0)),
        patch(at(far, far, far), UP, at(3.0, 2.0, 1.0)),
        patch(at(-far, 0.0, 0.0), at(far, far, far), at(5.0, 0.5, 0.25)),
        patch(at(far, -far, 0.0), at(far, -far, far), at(7.0, 8.0, 9.0)),
    ];
    let n = script.surfels(&list);
    script.build(n);
    for p in [
        Vec3::ZERO,
        at(far, far, far),
        at(-far, 0.0, 0.0),
        at(0.0, far, 0.0),
        at(5e3, -9e3, 1e2),
    ] {
        for normal in [UP, at(far, far, far), at(1.0, -1.0, 0.5)] {
            for r in [far, far.next_down(), 9_000.0] {
                script.gather(n, p, normal, r);
            }
        }
    }
}

/// One surfel with the light 1 2 3, read where it stands.
fn alone(script: &mut Script, n: Vec3) {
    script.surfels(&[patch(Vec3::ZERO, n, at(1.0, 2.0, 3.0))]);
}

/// A dot product of exactly 0.15, of its neighbours, of 0 and less: only over 0.15 counts.
fn facing(script: &mut Script) {
    script.bounds(around());
    alone(script, UP);
    script.build(1);
    let limit = 0.15f32;
    for z in [
        limit,
        limit.next_up(),
        limit.next_down(),
        limit.next_up().next_up(),
        0.0,
        -0.0,
        -limit,
        -1.0,
        1.0,
        0.1499,
        0.1501,
        LEAST,
        10_000.0,
    ] {
        for r in [1.0, 0.25] {
            alone(script, UP);
            script.gather(1, Vec3::ZERO, at(0.0, 0.0, z), r);
            script.gather(1, at(0.125, 0.0, 0.0), at(1.0, 0.0, z), r);
            alone(script, at(0.0, z, 0.0));
            script.gather(1, Vec3::ZERO, at(1.0, 1.0, 1.0), r);
        }
    }
    // Opposed, and at right angles.
    alone(script, at(0.6, -0.8, 0.0));
    for normal in [
        at(-0.6, 0.8, 0.0),
        at(0.8, 0.6, 0.0),
        at(0.6, -0.8, 0.0),
        at(0.0, 0.0, 1.0),
    ] {
        script.gather(1, Vec3::ZERO, normal, 1.0);
    }
}

/// Dot products of three terms that come within a float of 0.15, where another order or another
/// rounding of the terms lands elsewhere.
fn facing_by_sums(script: &mut Script) {
    let mut random = Random::new(0x646F_7473);
    let limit = 0.15f32;
    let mut found = 0;
    while found < 48 {
        let a = within(&mut random, Vec3::splat(-1.0), Vec3::splat(1.0));
        let b = within(&mut random, Vec3::splat(-1.0), Vec3::splat(1.0));
        let a = at(a.x, a.y, (limit - a.x * b.x - a.y * b.y) / b.z);
        let close = [limit.next_down(), limit, limit.next_up()];
        let turned = a.z * b.z + a.y * b.y + a.x * b.x;
        // One rounding at the end instead of five.
        let fused = (f64::from(a.x) * f64::from(b.x)
            + f64::from(a.y) * f64::from(b.y)
            + f64::from(a.z) * f64::from(b.z)) as f32;
        let counts = a.dot(b) > limit;
        let shows = (turned > limit) != counts || (fused > limit) != counts;
        if !close.contains(&a.dot(b)) || !shows || a.z.abs() > 2.0 {
            continue;
        }
        found += 1;
        alone(script, a);
        script.gather(1, Vec3::ZERO, b, 1.0);
    }
}

/// A weight sum of exactly 0.000001 and of its neighbours, from one surfel. At distance² 511/512 of
/// the radius² t is 2⁻⁹, and the weight is the dot product times 2⁻¹⁸, exactly.
fn least_sum(script: &mut Script) {
    let p = at(31.0, 6.0, 5.0) / 32.0;
    assert_eq!(p.length_squared(), 511.0 / 512.0);
    script.bounds(around());
    let least = 0.000001f32 * 262_144.0;
    for align in [
        least,
        least.next_up(),
        least.next_down(),
        least.next_up().next_up(),
        0.151,
        0.5,
        1.0,
    ] {
        for irr in [at(1.0, 2.0, 3.0), at(-0.0, 1e-30, 1e30), at(INF, NAN, -1.0)] {
            script.surfels(&[patch(Vec3::ZERO, UP, irr)]);
            for scale in [1.0, 0.5, 2.0] {
                script.gather(1, p * scale, at(0.0, 0.0, align), scale);
            }
        }
    }
    alone(script, UP);
    assert_eq!(script.gather(1, p, at(0.0, 0.0, least), 1.0), [0, 0]);
    assert_eq!(
        script.gather(1, p, at(0.0, 0.0, least.next_up()), 1.0)[1],
        1
    );
}

/// Weight sums of two to four surfels that come within a float of 0.000001.
fn least_sum_of_several(script: &mut Script) {
    let mut random = Random::new(0x7375_6D73);
    let least = 0.000001f32;
    let target = [least.next_down(), least, least.next_up()];
    let weight = |p: Vec3, align: f32| {
        let t = 1.0 - p.length_squared() / 1.0;
        t * t * align
    };
    // One cell, so that they are weighed in the order of their numbers.
    script.bounds(bounds(Vec3::splat(-4.0), Vec3::splat(4.0), 8.0));
    let mut found = 0;
    while found < 36 {
        // Surfels at nearly the radius; the last one's normal is fitted to what is left.
        let many = 2 + random.below(3) as usize;
        let mut list = Vec::new();
        let mut sum = 0.0;
        for k in 0..many {
            let v = within(&mut random, Vec3::splat(-1.0), Vec3::splat(1.0)).normalize();
            let p = v * random.between(0.9993, 0.9998);
            let left = (least - sum) / weight(p, 1.0);
            let align = match k + 1 == many {
                true => left,
                false => random.between(0.16, 0.6),
            };
            sum += weight(p, align);
            list.push(patch(p, at(0.0, 0.0, align), at(1.0, align, -3.0)));
        }
        let last = list[many - 1].n.z;
        if last > 0.15 && last < 10_000.0 && sum == target[found % 3] {
            found += 1;
            let n = script.surfels(&list);
            script.build(n);
            let seen = script.gather(n, Vec3::ZERO, UP, 1.0)[1];
            assert_eq!(seen == 1, sum > least);
        }
    }
}

/// Irradiance may be any float: NaN, infinities of either sign, negative, minus zero.
fn any_irradiance(script: &mut Script) {
    script.bounds(around());
    let floats = [
        0.0,
        -0.0,
        1.0,
        -1.0,
        LEAST,
        -LEAST,
        1e-38,
        f32::MAX,
        f32::MIN,
        INF,
        -INF,
        NAN,
        1e-45,
        3.3e38,
    ];
    for (i, &a) in floats.iter().enumerate() {
        for (j, &b) in floats.iter().enumerate() {
            if (i * 5 + j * 3) % 4 > 0 {
                continue;
            }
            let c = floats[(i + 2 * j) % floats.len()];
            let list = [
                patch(at(0.25, 0.0, 0.0), UP, at(a, b, c)),
                patch(at(0.0, -0.5, 0.0), UP, at(b, c, a)),
            ];
            let n = script.surfels(&list);
            script.build(n);
            script.gather(n, Vec3::ZERO, UP, 1.0);
        }
        let n = script.surfels(&[patch(at(0.5, 0.5, 0.0), UP, Vec3::splat(a))]);
        script.build(n);
        script.gather(n, Vec3::ZERO, UP, 1.0);
        script.gather(n, Vec3::ZERO, at(0.0, 0.0, 10_000.0), 1.0);
        script.gather(n, Vec3::ZERO, at(0.0, 0.0, -1.0), 1.0);
        script.gather(n, at(3.0, 0.0, 0.0), UP, 1.0);
    }
}

/// Sums that overflow where each term does not, and sums that come back from below.
fn overflows(script: &mut Script) {
    script.bounds(around());
    let big = f32::MAX;
    let lists: [&[f32]; 7] = [
        &[0.6 * big, 0.6 * big],
        &[0.6 * big, 0.6 * big, -0.6 * big],
        &[0.6 * big, -0.6 * big, 0.6 * big],
        &[big, big, -big, -big],
        &[1e-45, 1e-45, 3e-45],
        &[1.0, 1e8, -1e8],
        &[16_777_216.0, 1.0, 1.0, 1.0],
    ];
    for light in lists {
        let list: Vec<Patch> = light
            .iter()
            .map(|&x| patch(Vec3::ZERO, UP, at(x, -x, 0.5 * x)))
            .collect();
        let n = script.surfels(&list);
        script.build(n);
        for z in [1.0, 0.25, 3.0, 10_000.0] {
            script.gather(n, Vec3::ZERO, at(0.0, 0.0, z), 1.0);
            script.gather(n, at(0.3, 0.4, 0.0), at(0.0, 0.0, z), 1.0);
        }
    }
}

/// Surfels in several cells, whose sum depends on the order in which the cells are visited.
fn turned_order(script: &mut Script) {
    script.bounds(bounds(Vec3::splat(-1.5), Vec3::splat(1.5), 1.0));
    let mut random = Random::new(0x7475_726E);
    for _ in 0..5 {
        // One in each cell of the cube, the numbers not in the order of the cells.
        let list: Vec<Patch> = (0..27)
            .map(|k| {
                let c = k * 10 % 27;
                let cell = at((c % 3) as f32, (c / 3 % 3) as f32, (c / 9) as f32);
                let irr = within(&mut random, Vec3::splat(-1.0), Vec3::splat(1.0));
                let scale = [1.0, 1e4, 1e-3][random.below(3) as usize];
                patch(cell - Vec3::ONE, UP, irr * scale)
            })
            .collect();
        let n = script.surfels(&list);
        script.build(n);
        for p in [Vec3::ZERO, at(0.1, -0.2, 0.3), at(0.9, 0.9, -0.9)] {
            script.gather(n, p, UP, 2.0);
            script.gather(n, p, UP, 10.0);
        }
    }
}
