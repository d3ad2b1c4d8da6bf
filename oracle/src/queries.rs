//! What the Rust answers to a question about a scene, or the number that document 01 refuses it with.

use crate::answers::word;
use crate::cases::Case;
use crate::refusals;
use crate::tables::Tables;
use interflect::scene::Scene;
use interflect::trace::{hemisphere_closure, soft_shadow, trace};
use interflect::Vec3;

/// The result words: a refusal's number alone, else zero and what the Rust gives. The names that
/// end in `_any` ask with points that need not be coordinates, and so does `project`.
pub fn answer(tables: &Tables, case: &Case) -> Vec<u32> {
    let x: Vec<f32> = case.operands.iter().copied().map(f32::from_bits).collect();
    let handed = match case.name {
        "dist_mat" | "normal" | "trace" | "soft_shadow" => 3,
        "closure" => 6,
        _ => 0,
    };
    if let Some(number) = refusals::number(tables, &x[..handed]) {
        return vec![number];
    }
    let scene = tables.scene();
    let v = |i: usize| Vec3::new(x[i], x[i + 1], x[i + 2]);
    let words = match case.name {
        "dist_mat" | "dist_any" => distance(&scene, v(0)),
        "normal" | "normal_any" => vector(scene.normal(v(0))),
        "trace" | "trace_any" => march(&scene, v(0), v(3), x[6], x[7]),
        "soft_shadow" | "shadow_any" => counted(soft_shadow(&scene, v(0), v(3), x[6], x[7], x[8])),
        "closure" | "closure_any" => counted(hemisphere_closure(&scene, v(0), v(3), x[6], 16)),
        "project" => projected(project(&scene, v(0), x[3], x[4])),
        name => panic!("no question `{name}`"),
    };
    [vec![0], words].concat()
}

fn vector(v: Vec3) -> Vec<u32> {
    [v.x, v.y, v.z].map(word).to_vec()
}

fn distance(scene: &Scene, p: Vec3) -> Vec<u32> {
    let hit = scene.dist_mat(p);
    vec![word(hit.d), hit.mat]
}

fn march(scene: &Scene, ro: Vec3, rd: Vec3, tmin: f32, tmax: f32) -> Vec<u32> {
    match trace(scene, ro, rd, tmin, tmax) {
        (Some(hit), evals) => [
            vec![1, word(hit.t)],
            vector(hit.p),
            vector(hit.n),
            vec![hit.mat, evals],
        ]
        .concat(),
        (None, evals) => vec![0, evals],
    }
}

/// A float and a count of evaluations.
fn counted((x, evals): (f32, u32)) -> Vec<u32> {
    vec![word(x), evals]
}

fn projected(p: Option<Vec3>) -> Vec<u32> {
    match p {
        Some(p) => [vec![1], vector(p)].concat(),
        None => vec![0],
    }
}

/// The projection of a seed onto the surface. In the Rust it stands within `generate` (surfel.rs);
/// these are its lines, with the two `continue` that drop a seed as none.
pub fn project(scene: &Scene, p: Vec3, eps: f32, diag: f32) -> Option<Vec3> {
    let mut p = p;

    // Newton projection onto the zero level set.
    let mut ok = false;
    for _ in 0..10 {
        let d = scene.dist(p);
        if d.abs() < eps {
            ok = true;
            break;
        }
        if !d.is_finite() || d.abs() > diag {
            break;
        }
        p -= scene.normal(p) * d;
    }
    if !ok || scene.dist(p).abs() >= eps {
        return None;
    }
    Some(p)
}

/// Whether a subtraction at this point takes the max of two zeros of unlike sign: document 01 lets
/// it be either, so no distance is asked there.
pub fn either_zero(scene: &Scene, p: Vec3) -> bool {
    scene.planes.iter().chain(&scene.objects).any(|object| {
        let mut d = object.prim.dist(p);
        object.subtract.iter().any(|shape| {
            let s = -shape.dist(p);
            let unlike = d == 0.0 && s == 0.0 && d.to_bits() != s.to_bits();
            d = d.max(s);
            unlike
        })
    })
}
