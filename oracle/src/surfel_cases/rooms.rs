//! Readings in random rooms: surfels on a floor, walls and in the air, read near them and far away,
//! one by one and many at once.

use super::*;

pub(super) fn write(script: &mut Script) {
    room_q(script);
    random_rooms(script);
    sheets(script);
}

/// Room Q as document 01 prints it: one probe is seen, one is not.
fn room_q(script: &mut Script) {
    script.bounds(of_q());
    let irr = Vec3::splat(f32::from_bits(0x3F2A_A800));
    let n = script.surfels(&[patch(Vec3::ZERO, UP, irr)]);
    script.built(n);
    let light = [0, 1, 0x3F2A_A800, 0x3F2A_A800, 0x3F2A_A800];
    assert_eq!(script.gather(n, Vec3::ZERO, UP, 1.0), light);
    assert_eq!(script.gather(n, at(1.0, 0.0, 0.0), UP, 1.0), [0, 0]);
    script.probe(0, Vec3::ZERO, UP);
    script.probe(1, at(1.0, 0.0, 0.0), UP);
    script.fill();
    script.build(n);
    assert_eq!(script.gather_all(n, 2, 1.0), [0]);
    assert_eq!(script.sheet.seen[..2], [1, 0]);
    script.show_readings();
    // "radius 0 is unseen".
    assert_eq!(script.gather(n, Vec3::ZERO, UP, 0.0), [0, 0]);
    assert_eq!(script.gather(n, Vec3::ZERO, UP, -0.0), [0, 0]);
    assert_eq!(script.gather_all(n, 2, 0.0), [0]);
    assert_eq!(script.sheet.seen[..2], [0, 0]);
    script.show_readings();
    // No surfel at all.
    script.build(0);
    script.gather(0, Vec3::ZERO, UP, 1.0);
    script.gather_all(0, 2, 1.0);
    script.show_readings();
}

/// A surfel of a room from lo to hi: on one of its six sides, with the normal into the room, or in
/// the air, with any.
fn random_patch(random: &mut Random, lo: Vec3, hi: Vec3) -> Patch {
    let p = within(random, lo, hi);
    let any = within(random, Vec3::splat(-1.0), Vec3::splat(1.0));
    let irr = within(random, Vec3::ZERO, Vec3::splat(3.0));
    match random.below(8) {
        0 => patch(at(lo.x, p.y, p.z), at(1.0, 0.0, 0.0), irr),
        1 => patch(at(hi.x, p.y, p.z), at(-1.0, 0.0, 0.0), irr),
        2 => patch(at(p.x, lo.y, p.z), at(0.0, 1.0, 0.0), irr),
        3 => patch(at(p.x, p.y, lo.z), UP, irr),
        4 => patch(at(p.x, p.y, lo.z), any.normalize(), irr),
        5 => patch(p, any, irr),
        _ => patch(p, any.normalize(), irr),
    }
}

/// Where a reading is taken: near a surfel, mostly with about its normal, or anywhere.
fn random_probe(random: &mut Random, list: &[Patch], lo: Vec3, hi: Vec3, r: f32) -> (Vec3, Vec3) {
    let any = within(random, Vec3::splat(-1.0), Vec3::splat(1.0));
    if list.is_empty() || random.below(6) == 0 {
        let extent = hi - lo;
        let p = within(random, lo - extent * 0.4, hi + extent * 0.4);
        return (p, any.normalize());
    }
    let s = list[random.below(list.len() as u32) as usize];
    let p = match random.below(5) {
        0 => s.p,
        _ => s.p + within(random, Vec3::splat(-0.6), Vec3::splat(0.6)) * r,
    };
    let n = match random.below(6) {
        0 => any,
        1 => s.n,
        _ => (s.n + any * 0.5).normalize(),
    };
    (p, n)
}

/// Rooms of some metres with 8 to 32 surfels, each read over several grids and radii.
fn random_rooms(script: &mut Script) {
    let mut random = Random::new(0x7265_6164);
    for _ in 0..9 {
        let lo = within(&mut random, Vec3::splat(-5.0), Vec3::splat(0.0));
        let hi = lo + within(&mut random, Vec3::splat(0.5), Vec3::splat(4.0));
        let many = 8 + random.below(25);
        let list: Vec<Patch> = (0..many)
            .map(|_| random_patch(&mut random, lo, hi))
            .collect();
        let n = script.surfels(&list);
        for over in 0..3 {
            // The Rust's own use: cells of the radius. Then cells smaller and larger than it.
            let radius = random.between(0.6, 2.5);
            let cell = match over {
                0 => radius,
                1 => radius * random.between(0.35, 0.9),
                _ => radius * random.between(1.1, 3.0),
            };
            // At most 519 cells: as many starts as there are places.
            let cell = cell.max(0.6);
            script.bounds(bounds(lo, hi, cell));
            assert_eq!(script.build(n)[0], 0);
            for _ in 0..18 {
                let (p, normal) = random_probe(&mut random, &list, lo, hi, radius);
                script.gather(n, p, normal, radius);
            }
            for k in 0..8 {
                if over == 0 || random.below(3) == 0 {
                    let (p, normal) = random_probe(&mut random, &list, lo, hi, radius);
                    script.probe(k, p, normal);
                }
            }
            script.gather_all(n, 8, radius);
            script.show_readings();
        }
        // Fewer of the surfels, over the last box.
        let fewer = random.below(n);
        script.build(fewer);
        for k in 0..4 {
            let s = list[k];
            script.gather(fewer, s.p, s.n, 1.0);
        }
        script.gather_all(fewer, 8, 1.0);
        script.show_readings();
    }
}

/// No probe, one, some, eight; result slices of exactly the need, one short and longer.
fn sheets(script: &mut Script) {
    let list: Vec<Patch> = (0..6)
        .map(|k| {
            let x = 0.6 * k as f32;
            patch(at(x, 0.5, 0.0), UP, at(x, 1.0, -x))
        })
        .collect();
    let n = script.surfels(&list);
    script.bounds(of_q());
    script.build(n);
    for k in 0..8 {
        // Every third is unseen.
        let height = if k % 3 == 2 { 5.0 } else { 0.25 };
        script.probe(k, at(0.5 * k as f32, 0.5, height), UP);
    }
    for probes in [0, 1, 2, 3, 5, 8, 9] {
        let (seen, light) = (probes as usize, 3 * probes as usize);
        let less = |length: usize| length.saturating_sub(1);
        for (seen, light) in [
            (seen, light),
            (less(seen), light),
            (seen, less(light)),
            (seen, less(less(light))),
            (seen + 1, light + 1),
            (8, 24),
        ] {
            script.lend(Lent {
                seen,
                light,
                ..Lent::ALL
            });
            script.fill();
            script.build(n);
            script.gather_all(n, probes, 0.75);
            script.show_readings();
        }
        // Probes lent exactly, and one float short.
        for (probe_p, probe_normals) in [
            (light, light),
            (less(light), light),
            (light, less(light)),
            (24, light),
            (light, 24),
        ] {
            script.lend(Lent {
                probe_p,
                probe_normals,
                ..Lent::ALL
            });
            script.gather_all(n, probes, 0.75);
            script.ask("seen", vec![0]);
        }
    }
    script.lend(Lent::ALL);
    script.show_all();
}
