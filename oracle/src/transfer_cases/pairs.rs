//! One surfel and a few clusters: each test of a pair at its limit, visibilities of all kinds, targets
//! from 0 to 1, the scaling, and the mean of the row sums.

use super::*;
use crate::tables::Tables;
use interflect::trace::soft_shadow;

pub(super) fn write(script: &mut Script) {
    empty_scene(script);
    distances(script);
    cosines(script);
    factors(script);
    radii(script);
    half_hidden(script);
    hardly_seen(script);
    small_sums(script);
    capped(script);
    large_sums(script);
    targets(script);
    means(script);
    bounds_without_extent(script);
}

const SIZE: f32 = 2.0;

fn bounds() -> Bounds {
    Bounds::within(SIZE)
}

/// A surfel in the middle of the floor of the closed room.
fn below() -> Patch {
    patch(at(0.0, 0.0, -SIZE), UP, 1.0)
}

/// A cluster above it, at the ceiling.
fn above(area: f32) -> Emitter {
    emitter(at(0.0, 0.0, SIZE), DOWN, area, 0.25)
}

/// The row of one surfel over these clusters; the answer.
fn row(script: &mut Script, s: Patch, list: &[Emitter]) -> Vec<u32> {
    script.surfels(&[s]);
    script.emitters(list);
    script.linked(bounds(), 1, list.len())
}

/// Nothing in the scene: all is open, so the target is 0; links stay, with weight 0.
fn empty_scene(script: &mut Script) {
    script.scene(&Room::default());
    let answer = row(script, below(), &[above(1.0)]);
    assert_eq!(answer[..3], [0, 1, 0]);
    assert_eq!(script.store.link_weight[0].to_bits(), 0);
    let list: Vec<Emitter> = (0..5)
        .map(|c| emitter(at(c as f32 - 2.0, 0.3, 1.0), DOWN, 0.5 * c as f32, 0.1))
        .collect();
    row(script, below(), &list);
    row(script, patch(Vec3::ZERO, DOWN, 1.0), &list);
    row(script, patch(Vec3::ZERO, Vec3::ZERO, 1.0), &list);
    script.linked(bounds(), 0, 5);
    script.linked(bounds(), 1, 0);
    script.linked(bounds(), 0, 0);
}

/// Squared distances at 1e-9, the cluster at the surfel itself, and far away.
fn distances(script: &mut Script) {
    for room in [Room::default(), closed(SIZE)] {
        script.scene(&room);
        let near = 1e-9f32.sqrt();
        let ways = [
            0.0,
            -0.0,
            LEAST,
            1e-20,
            1e-6,
            near.next_down(),
            near,
            near.next_up(),
            near.next_up().next_up(),
            4e-5,
            1e-3,
            3.0,
        ];
        for way in ways {
            let s = patch(Vec3::ZERO, UP, 1.0);
            row(script, s, &[emitter(at(0.0, 0.0, way), DOWN, 1.0, 0.1)]);
        }
        let far = 10_000.0;
        let s = patch(Vec3::splat(-far), Vec3::ONE, 1.0);
        row(
            script,
            s,
            &[emitter(Vec3::splat(far), -Vec3::ONE, 1e12, 1e6)],
        );
    }
}

/// Each cosine at 1e-3 and beside it, and behind.
fn cosines(script: &mut Script) {
    let least = 1e-3f32;
    let list = [
        least.next_down(),
        least,
        least.next_up(),
        2e-3,
        0.0,
        -0.0,
        -0.5,
        1.0,
    ];
    for room in [Room::default(), closed(SIZE)] {
        script.scene(&room);
        for cos in list {
            let s = patch(Vec3::ZERO, at(0.0, 0.6, cos), 1.0);
            row(script, s, &[emitter(at(0.0, 0.0, 1.5), DOWN, 900.0, 0.1)]);
            let s = patch(Vec3::ZERO, UP, 1.0);
            row(
                script,
                s,
                &[emitter(at(0.0, 0.0, 1.5), at(0.8, 0.0, -cos), 900.0, 0.1)],
            );
        }
    }
    // Normals of other lengths than 1.
    for scale in [1e-3, 0.5, 3.0, 10_000.0] {
        let s = patch(Vec3::ZERO, UP * scale, 1.0);
        row(
            script,
            s,
            &[emitter(
                at(0.2, 0.1, 1.5),
                at(0.1, 0.0, -1.0) * scale,
                0.5,
                0.1,
            )],
        );
    }
}

/// Factors at 2e-5: areas beside the one that gives it, with other cosines and distances.
fn factors(script: &mut Script) {
    script.scene(&closed(SIZE));
    let pi = std::f32::consts::PI;
    for (r, cos) in [(1.0f32, 1.0f32), (3.5, 1.0), (2.0, 0.4)] {
        let x = 2e-5 / cos;
        let area = x * pi * r * r / (1.0 - x);
        let mut list = vec![area * 0.5, area * 0.999, area * 1.001, area * 2.0];
        let bits = area.to_bits();
        list.extend((bits - 3..=bits + 3).map(f32::from_bits));
        for area in list {
            let p = at(0.0, 0.0, r - 1.9);
            let s = patch(at(0.0, 0.0, -1.9), UP * cos, 1.0);
            row(script, s, &[emitter(p, DOWN, area, 0.05)]);
        }
    }
    for area in [0.0, -0.0, LEAST, 1e-30, 1.0, 1e12] {
        row(script, below(), &[above(area)]);
    }
}

/// How tight a cluster is as a light: r over its radius at 1.5 and 32, no radius, the largest; ends of
/// marches before their start.
fn radii(script: &mut Script) {
    let mut room = closed(SIZE);
    room.add(sphere(at(0.35, 0.0, 0.5), 0.3), &[], 1);
    script.scene(&room);
    let r = 2.0 * SIZE;
    let list = [
        0.0,
        -0.0,
        1e-5,
        1e-4,
        1e-4f32.next_up(),
        r / 32.0,
        (r / 32.0).next_down(),
        0.3,
        1.0,
        r / 1.5,
        (r / 1.5).next_up(),
        r / 0.75,
        r,
        100.0,
        1e6,
    ];
    for radius in list {
        row(
            script,
            below(),
            &[emitter(at(0.0, 0.0, SIZE), DOWN, 1.0, radius)],
        );
    }
}

/// A ball beside the way to the cluster, closer and closer, until nothing is seen: visibilities from 1
/// through 1e-3 to 0.
fn half_hidden(script: &mut Script) {
    for k in 0..24 {
        let mut room = closed(SIZE);
        let off = match k {
            0..12 => 0.5 + 0.05 * k as f32,
            _ => 0.5 + 0.0004 * (k - 11) as f32,
        };
        room.add(sphere(at(off, 0.0, 0.2), 0.5), &[], 1);
        script.scene(&room);
        row(
            script,
            below(),
            &[above(1.0), emitter(at(0.5, 1.0, 1.5), DOWN, 0.5, 0.1)],
        );
    }
}

/// A wide cluster past the edge of a ball: visibilities at 1e-3 and little more, and the last offset of
/// the ball that hides it.
fn hardly_seen(script: &mut Script) {
    let with_ball = |off: f32| {
        let mut room = closed(SIZE);
        room.add(sphere(at(off, 0.0, -0.8), 0.5), &[], 1);
        room
    };
    let wide = emitter(at(0.0, 0.0, SIZE), DOWN, 8.0, 2.0);
    for least in [0.001f32, 0.0011, 0.0015, 0.0019, 0.003] {
        let (mut hidden, mut seen) = (0.5f32, 1.0f32);
        while hidden.next_up() < seen {
            let middle = 0.5 * (hidden + seen);
            if visibility(&with_ball(middle), below(), wide) < least {
                hidden = middle;
            } else {
                seen = middle;
            }
        }
        for off in [hidden, seen] {
            script.scene(&with_ball(off));
            row(script, below(), &[wide]);
        }
        let seen = visibility(&with_ball(seen), below(), wide);
        assert!(least <= seen && seen < 1.1 * least, "{seen}");
    }
}

/// How much of a cluster a surfel sees, as a call for rows asks it.
fn visibility(room: &Room, s: Patch, c: Emitter) -> f32 {
    let mut tables = Tables::new();
    assert!(room.lines().iter().all(|line| tables.store(line)));
    let diag = (bounds().hi - bounds().lo).length();
    let d = c.p - s.p;
    let r = d.length();
    let from = s.p + s.n * (diag * 5e-4);
    let k = (r / c.radius.max(1e-4)).clamp(1.5, 32.0);
    soft_shadow(
        &tables.scene(),
        from,
        d / r,
        diag * 1e-3,
        r - c.radius * 0.75,
        k,
    )
    .0
}

/// Row sums at 1e-5, by a cluster of a small factor that is half hidden: up to it the row is not
/// scaled.
fn small_sums(script: &mut Script) {
    let mut room = closed(SIZE);
    room.add(sphere(at(0.52, 0.0, 0.2), 0.5), &[], 1);
    script.scene(&room);
    let sum = |script: &mut Script, area: f32| {
        let answer = row(
            script,
            below(),
            &[emitter(at(0.0, 0.0, SIZE), DOWN, area, 0.25)],
        );
        (answer[1] == 1).then(|| f32::from_bits(answer[2]))
    };
    // The least area that is linked, and from there to one whose row is scaled.
    let pi = std::f32::consts::PI;
    let least = 2e-5 * pi * 16.0 * SIZE * SIZE / 4.0;
    let mut scaled = 0;
    let mut raw = 0;
    for k in 0..16 {
        let area = least * (0.98 + 0.25 * k as f32);
        match sum(script, area) {
            Some(sum) if sum <= 1e-5 => raw += 1,
            Some(_) => scaled += 1,
            None => {}
        }
    }
    assert!(raw > 1 && scaled > 1, "{raw} {scaled}");
    // Between the two, halving.
    let (mut low, mut high) = (least * 1.01, least * 5.0);
    for _ in 0..24 {
        let middle = 0.5 * (low + high);
        match sum(script, middle) {
            Some(sum) if sum <= 1e-5 => low = middle,
            _ => high = middle,
        }
    }
}

/// The scaling reaches 8 where the raw sum is below an eighth of the target.
fn capped(script: &mut Script) {
    script.scene(&closed(SIZE));
    for k in 0..12 {
        let area = 2.0 + 2.0 * k as f32;
        row(script, below(), &[above(area)]);
    }
    // A sum of an eighth, as nearly as areas come to it.
    let (mut low, mut high) = (1.0f32, 20.0f32);
    for _ in 0..12 {
        let middle = 0.5 * (low + high);
        let answer = row(script, below(), &[above(middle)]);
        if f32::from_bits(answer[2]) < 1.0 {
            low = middle;
        } else {
            high = middle;
        }
    }
    row(script, below(), &[above(1e-3)]);
}

/// Raw sums over 1, which the scaling takes down, and sums that are over 1 by rounding.
fn large_sums(script: &mut Script) {
    script.scene(&closed(SIZE));
    let many = |n: usize, area: f32| -> Vec<Emitter> {
        (0..n)
            .map(|c| {
                let p = at(0.11 * c as f32 - 0.5, 0.07 * c as f32, 1.3);
                emitter(p, DOWN, area, 0.1)
            })
            .collect()
    };
    for n in [2, 3, 7, 12] {
        for area in [0.5, 7.0, 1e6, 1e12] {
            row(script, below(), &many(n, area));
        }
    }
    let s = patch(below().p, UP * 300.0, 1.0);
    row(script, s, &many(5, 40.0));
}

/// Targets between 0 and 1: a roof over a part of the hemisphere, at some heights.
fn targets(script: &mut Script) {
    for k in 0..10 {
        let mut room = Room::default();
        room.add(sphere(at(0.3, 0.1, 4.0), 0.4 + 0.35 * k as f32), &[], 1);
        if k % 3 == 2 {
            room.add(plane(UP, -SIZE), &[], 2);
        }
        script.scene(&room);
        let list = [
            emitter(at(1.5, 0.5, -0.5), at(-0.5, 0.0, -0.8), 2.0, 0.2),
            emitter(at(-1.0, 1.0, 0.0), DOWN, 0.5, 0.2),
        ];
        row(script, below(), &list);
    }
    // The bounds' diagonal decides how far the hemisphere is looked at.
    for size in [0.01, 0.1, 0.5, 1.0, 3.0, 1_000.0] {
        script.scene(&closed(SIZE));
        script.linked(Bounds::within(size), 1, 2);
    }
}

/// Means over rows with links alone; none has links.
fn means(script: &mut Script) {
    script.scene(&closed(SIZE));
    let mut list: Vec<Patch> = (0..9)
        .map(|k| {
            let n = if k % 3 == 1 { DOWN } else { UP };
            patch(
                at(0.2 * k as f32 - 1.0, 0.1, -SIZE + 0.3 * (k % 2) as f32),
                n,
                1.0,
            )
        })
        .collect();
    let emitters = [above(0.5), emitter(at(1.0, 0.5, 1.0), DOWN, 0.1, 0.05)];
    script.emitters(&emitters);
    for n in 1..=list.len() {
        script.surfels(&list[..n]);
        script.linked(bounds(), n, 2);
    }
    list.iter_mut().for_each(|s| s.n = DOWN);
    script.surfels(&list);
    assert_eq!(script.linked(bounds(), list.len(), 2)[..3], [0, 0, 0]);
}

/// Bounds that are a point, a line, a plane: marches start at the surfel itself.
fn bounds_without_extent(script: &mut Script) {
    let room = closed(SIZE);
    script.scene(&room);
    script.surfels(&[below(), patch(Vec3::ZERO, UP, 1.0)]);
    script.emitters(&[above(1.0), emitter(at(0.5, 0.5, 1.0), DOWN, 0.3, 0.1)]);
    let corner = at(0.5, -0.5, 0.25);
    for hi in [corner, at(3.0, -0.5, 0.25), at(3.0, 2.0, 0.25)] {
        script.linked(Bounds { lo: corner, hi }, 2, 2);
    }
}
