//! Closures that show every word of the closure's tables: were a factor of t, b or n the next float
//! up or down, one of these answers would be another.

use super::*;
use crate::random::Random;
use interflect::ltc;
use interflect::scene::Scene;
use interflect::trace::{open::direction, trace};

type Parts = [[f32; 3]; 16];

pub(super) fn write(script: &mut Script) {
    let parts: Parts = std::array::from_fn(|k| direction(k as u32).parts);
    script.room(&Room::of(&[
        plane(Vec3::Y, -0.5),
        sphere(at(0.7, 1.9, 0.3), 0.45),
        sphere(at(-1.1, 0.8, -0.6), 0.3),
        cylinder(at(0.2, 0.1, 1.3), at(-0.4, 1.7, 1.1), 0.2),
    ]));
    let scene = script.tables.scene();
    let random = &mut Random::new(16);
    let mut asked: Vec<(Vec3, Vec3, f32)> = Vec::new();
    for k in 0..16 {
        for i in 0..3 {
            for other in [parts[k][i].next_up(), parts[k][i].next_down()] {
                let mut changed = parts;
                changed[k][i] = other;
                let shows = |&(p, n, tmax): &(Vec3, Vec3, f32)| {
                    closure(&scene, p, n, tmax, &parts) != closure(&scene, p, n, tmax, &changed)
                };
                while !asked.iter().any(shows) {
                    let (p, n) = (rooms::point(random, 0.3), rooms::direction(random));
                    let candidates = ends(&scene, p, n, parts[k]).into_iter();
                    asked.extend(candidates.map(|tmax| (p, n, tmax)).find(shows));
                }
            }
        }
    }
    for (p, n, tmax) in asked {
        script.ask("closure", &[p, n], &[tmax]);
    }
}

/// The ray of a direction, as `hemisphere_closure` makes it.
fn ray(p: Vec3, n: Vec3, [x, y, z]: [f32; 3]) -> (Vec3, Vec3) {
    let (t, b) = ltc::frame(n);
    let d = t * x + b * y + n * z;
    (p + n * 1e-3, d.normalize())
}

/// How many directions are open and how many evaluations are made, by these factors.
fn closure(scene: &Scene, p: Vec3, n: Vec3, tmax: f32, parts: &Parts) -> (u32, u32) {
    let mut sum = (0, 0);
    for &part in parts {
        let (ro, rd) = ray(p, n, part);
        let (hit, evals) = trace(scene, ro, rd, 1e-3, tmax);
        sum = (sum.0 + u32::from(hit.is_none()), sum.1 + evals);
    }
    sum
}

/// Ends at which one more sample is taken or not: where the march in a direction stands after each
/// sample, and the float below.
fn ends(scene: &Scene, p: Vec3, n: Vec3, part: [f32; 3]) -> Vec<f32> {
    let (ro, rd) = ray(p, n, part);
    let mut t = 1e-3;
    let mut list = Vec::new();
    for _ in 0..20 {
        t += scene.dist(ro + rd * t);
        list.extend([t, t.next_down()]);
    }
    list
}
