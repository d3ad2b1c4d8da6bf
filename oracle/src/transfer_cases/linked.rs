//! Rows of random rooms: surfels on the surfaces of a scene, grouped into clusters by the call for
//! clusters, and rows over those and over others.

use super::*;
use crate::queries::project;
use crate::scene_cases::rooms::Drawn;
use interflect::scene::Scene;

pub(super) fn write(script: &mut Script) {
    for seed in 0..OPEN {
        drawn_room(script, seed);
    }
    for seed in 0..CLOSED {
        closed_room(script, seed);
    }
    large_room(script);
}

const OPEN: u64 = 49;
const CLOSED: u64 = 40;

/// A room with shapes of all kinds: surfels on their surfaces, and some that are anywhere.
fn drawn_room(script: &mut Script, seed: u64) {
    let random = &mut Random::new(0x726F_6F6D + seed);
    let drawn = Drawn::new(seed as u32, random);
    script.scene(&drawn.room);
    let scene = script.store.scene.scene();
    let most = 5 + random.below(5) as usize;
    let mut list: Vec<Patch> = (0..24)
        .filter_map(|_| on_surface(&scene, &drawn, random))
        .take(most)
        .collect();
    for _ in 0..random.below(3) {
        list.push(super::voxels::drawn(random, 4.0));
    }
    let size = random.between(2.5, 5.0);
    ask(script, random, &list, Bounds::within(size));
}

/// A surfel on the surface, with the scene's normal there.
fn on_surface(scene: &Scene, drawn: &Drawn, random: &mut Random) -> Option<Patch> {
    let p = project(scene, drawn.point(random), 1e-4, 20.0)?;
    let n = scene.normal(p);
    let fits = [p.x, p.y, p.z, n.x, n.y, n.z].iter().all(|x| x.is_finite());
    fits.then(|| patch(p, n, random.between(0.02, 1.5)))
}

/// A room closed by six planes with up to three balls in it.
fn closed_room(script: &mut Script, seed: u64) {
    let random = &mut Random::new(0x636C_6F73 + seed);
    let size = [1.0, 2.0, 4.0][seed as usize % 3];
    let mut room = closed(size);
    for mat in 0..seed as u32 % 4 {
        let ball = sphere(point(random, 0.6 * size), random.between(0.1, 0.4) * size);
        room.add(ball, &[], mat);
    }
    script.scene(&room);
    let list: Vec<Patch> = (0..6 + random.below(8))
        .map(|_| on_wall(random, size))
        .collect();
    ask(script, random, &list, Bounds::within(size));
}

/// A surfel on one of the six walls.
fn on_wall(random: &mut Random, size: f32) -> Patch {
    let n = AXES[random.below(6) as usize];
    let mut p = point(random, size);
    for (axis, part) in [n.x, n.y, n.z].into_iter().enumerate() {
        if part != 0.0 {
            super::cluster_limits::put(&mut p, axis, -size * part);
        }
    }
    patch(p, n, random.between(0.1, 1.0) * size * size)
}

/// The clusters of the surfels, and rows over them; then over clusters that are drawn.
fn ask(script: &mut Script, random: &mut Random, list: &[Patch], bounds: Bounds) {
    let res = [1, 2, 2, 3, 7][random.below(5) as usize];
    let nc = script.grouped(list, bounds, res);
    script.linked(bounds, list.len(), nc);
    match random.below(4) {
        // Fewer surfels, or fewer clusters.
        0 => {
            script.linked(bounds, list.len() / 2, nc);
        }
        1 => {
            script.linked(bounds, list.len(), nc / 2);
        }
        // Other bounds: other ends of the marches.
        2 => {
            let other = [0.05, 1.0, 30.0, 10_000.0][random.below(4) as usize];
            script.linked(Bounds::within(other), list.len().min(6), nc);
        }
        _ => {}
    }
    if random.below(3) == 0 {
        let emitters: Vec<Emitter> = (0..1 + random.below(6)).map(|_| drawn(random)).collect();
        script.emitters(&emitters);
        script.linked(bounds, list.len().min(8), emitters.len());
    }
}

/// A cluster of any size: no radius, no area, the largest of both.
fn drawn(random: &mut Random) -> Emitter {
    let area = match random.below(5) {
        0 => [0.0, 1e-6, 1e12, 1e6][random.below(4) as usize],
        _ => random.between(0.0, 4.0),
    };
    let radius = match random.below(4) {
        0 => [0.0, 1e-5, 1e6, 3.0][random.below(4) as usize],
        _ => random.between(0.0, 1.0),
    };
    emitter(point(random, 3.0), direction(random), area, radius)
}

/// As many surfels and clusters as there are places, and as many links as fit.
fn large_room(script: &mut Script) {
    let random = &mut Random::new(0x6C61_7267);
    script.scene(&closed(2.0));
    let list: Vec<Patch> = (0..SURFELS).map(|_| on_wall(random, 2.0)).collect();
    let bounds = Bounds::within(2.0);
    let nc = script.grouped(&list, bounds, 2);
    script.lend_rows(RowsLent::need(SURFELS, CLUSTERS, LINKS));
    let full = script.rows(bounds.rows(SURFELS, nc));
    assert_eq!(full[0], 8);
    let nc = script.grouped(&list, bounds, 1);
    assert_eq!(nc, 6);
    script.lend_rows(RowsLent::need(SURFELS, CLUSTERS, LINKS));
    assert_eq!(script.rows(bounds.rows(SURFELS, nc))[0], 0);
    let nc = script.grouped(&list, bounds, 64);
    assert!(nc > 24);
    script.lend_rows(RowsLent::need(SURFELS, CLUSTERS, LINKS));
    assert_eq!(script.rows(bounds.rows(6, nc))[0], 0);
}
