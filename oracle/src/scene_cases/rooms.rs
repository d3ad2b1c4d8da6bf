//! Rooms of some metres with shapes of all kinds, drawn at random, and rays and points in them.

use super::*;
use crate::random::Random;
use crate::tables::PRIMS;
use interflect::scene::Scene;

const ROOMS: u64 = 68;

pub(super) fn write(script: &mut Script) {
    for seed in 0..ROOMS {
        let random = &mut Random::new(seed);
        let drawn = Drawn::new(seed as u32, random);
        script.room(&drawn.room);
        let scene = script.tables.scene();
        let surface = surface_points(&scene, &drawn, random);
        distances(script, &drawn, &surface, random);
        traces(script, &scene, &drawn, &surface, random);
        shadows(script, &scene, &surface, random);
        for &p in surface.iter().take(1) {
            let tmax = random.between(1.0, 20.0);
            script.ask("closure", &[p, scene.normal(p)], &[tmax]);
        }
        projections(script, &drawn, random);
    }
}

/// A room, and where its objects are: a centre and a size each.
pub struct Drawn {
    pub room: Room,
    spots: Vec<(Vec3, f32)>,
}

impl Drawn {
    /// One to six objects and none to three planes, with none to two shapes subtracted from each.
    /// The kinds of the objects follow one another from room to room.
    pub fn new(seed: u32, random: &mut Random) -> Drawn {
        let mut drawn = Drawn {
            room: Room::default(),
            spots: Vec::new(),
        };
        for _ in 0..random.below(4) {
            let (n, h) = (direction(random), random.between(-4.0, -1.5));
            // A third of the normals have other lengths than 1.
            let scale = [1.0, 1.0, random.between(0.5, 1.5)][random.below(3) as usize];
            let spot = (n * h, 1.0);
            drawn.add(2, plane(n * scale, h), spot, random);
        }
        for j in 0..1 + random.below(6) {
            let kind = [0, 1, 3, 4, 5, 6][((seed + j) % 6) as usize];
            let spot = (point(random, 2.5), random.between(0.2, 1.5));
            drawn.add(kind, drawn_shape(kind, spot, random), spot, random);
        }
        drawn
    }

    /// Adds a plane or an object with what is subtracted from it, if there are places left.
    fn add(&mut self, kind: u32, base: Shape, spot: (Vec3, f32), random: &mut Random) {
        let (c, size) = spot;
        let many = random.below(3);
        let subtracted: Vec<Shape> = (0..many)
            .map(|_| {
                let spot = (
                    c + point(random, 0.6 * size),
                    size * random.between(0.3, 0.8),
                );
                drawn_shape(random.below(7), spot, random)
            })
            .collect();
        if self.room.shapes.len() + 1 + subtracted.len() <= PRIMS {
            self.room.add(base, &subtracted, random.below(5));
            if kind != 2 {
                self.spots.push(spot);
            }
        }
    }

    /// A point of the room: every second one is close to an object.
    pub fn point(&self, random: &mut Random) -> Vec3 {
        let (c, size) = self.spots[random.below(self.spots.len() as u32) as usize];
        match random.below(2) {
            0 => point(random, 4.0),
            _ => c + point(random, 1.2 * size),
        }
    }
}

/// A point whose coordinates lie within ±size.
pub fn point(random: &mut Random, size: f32) -> Vec3 {
    let mut coordinate = || random.between(-size, size);
    at(coordinate(), coordinate(), coordinate())
}

/// A direction of length 1.
pub fn direction(random: &mut Random) -> Vec3 {
    let v = point(random, 1.0);
    if v.length() > 0.1 {
        v.normalize()
    } else {
        Vec3::Y
    }
}

pub fn drawn_shape(kind: u32, (c, size): (Vec3, f32), random: &mut Random) -> Shape {
    let half = direction(random) * (size * random.between(0.4, 1.0));
    let (a, b) = (c - half, c + half);
    let mut part = |lo: f32, hi: f32| size * random.between(lo, hi);
    match kind {
        0 => sphere(c, part(0.4, 1.0)),
        1 => {
            let b = at(part(0.3, 1.0), part(0.3, 1.0), part(0.3, 1.0));
            round_box(c, b, part(0.0, 0.3))
        }
        2 => {
            let n = half.normalize();
            plane(n, n.dot(c))
        }
        3 => capsule(a, b, part(0.1, 0.5)),
        4 => torus(c, part(0.4, 1.0), part(0.1, 0.4)),
        5 => cylinder(a, b, part(0.1, 0.8)),
        _ => cone(a, b, part(0.0, 0.8), part(0.0, 0.8)),
    }
}

/// Some points of the surface, found as placement finds them.
fn surface_points(scene: &Scene, drawn: &Drawn, random: &mut Random) -> Vec<Vec3> {
    let seeds = (0..20).map(|_| drawn.point(random));
    let found = seeds.filter_map(|p| queries::project(scene, p, 1e-4, 20.0));
    found.take(6).collect()
}

fn distances(script: &mut Script, drawn: &Drawn, surface: &[Vec3], random: &mut Random) {
    for _ in 0..12 {
        script.dist("dist_mat", drawn.point(random));
    }
    for &p in surface.iter().take(2) {
        script.dist("dist_mat", p);
        script.ask("normal", &[p], &[]);
    }
    for _ in 0..4 {
        script.ask("normal", &[drawn.point(random)], &[]);
    }
}

fn traces(
    script: &mut Script,
    scene: &Scene,
    drawn: &Drawn,
    surface: &[Vec3],
    random: &mut Random,
) {
    // Towards an object, or a place beside it.
    for _ in 0..4 {
        let (from, to) = (point(random, 4.0), drawn.point(random));
        script.ask("trace", &[from, (to - from).normalize()], &[0.001, 20.0]);
    }
    // Any direction, of any length near 1, with other ends.
    for _ in 0..2 {
        let rd = direction(random) * random.between(0.3, 2.0);
        let ends = [random.between(-1.0, 1.0), random.between(0.5, 30.0)];
        script.ask("trace", &[drawn.point(random), rd], &ends);
    }
    // Along the surface, at it or close to it.
    for (i, &p) in surface.iter().take(3).enumerate() {
        let n = scene.normal(p);
        let along = n.cross(direction(random)).normalize();
        let off = [0.0, 2e-4, -2e-4][i];
        let from = p + n * off - along * random.between(0.1, 2.0);
        script.ask("trace", &[from, along], &[0.001, 10.0]);
    }
}

/// From the surface towards a light, with the ends and the sharpness that rows and shading use, and
/// past the surface at some centimetres, which leaves a part of the light.
fn shadows(script: &mut Script, scene: &Scene, surface: &[Vec3], random: &mut Random) {
    for (i, &p) in surface.iter().enumerate() {
        let (n, k) = (scene.normal(p), random.between(1.5, 32.0));
        if i % 2 == 0 {
            let d = n * random.between(0.5, 3.0) + direction(random) * random.between(0.2, 2.0);
            let (r, short) = (d.length(), random.between(0.0, 0.3));
            let ends = [0.015, r - short, k];
            script.ask("soft_shadow", &[p + n * 3e-3, d / r], &ends);
        } else {
            let along = n.cross(direction(random)).normalize();
            let (off, way) = (random.between(0.005, 0.1), random.between(0.5, 2.5));
            let ends = [random.between(0.0, 0.05), 2.0 * way, k];
            script.ask("soft_shadow", &[p + n * off - along * way, along], &ends);
        }
    }
}

fn projections(script: &mut Script, drawn: &Drawn, random: &mut Random) {
    for eps in [0.02, 0.002, 1e-5, 1e-7] {
        script.ask("project", &[drawn.point(random)], &[eps, 12.0]);
    }
    // A seed that is farther away than the room is wide.
    let wide = random.between(0.1, 1.5);
    script.ask("project", &[point(random, 4.0)], &[0.02, wide]);
}
