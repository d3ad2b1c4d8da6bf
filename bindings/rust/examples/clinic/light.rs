//! The direct light of a ceiling panel, which the crate takes as given: a host's own computation.
//!
//! The panel's light is white, so its three channels are alike; it is counted in lumens and lux.

use crate::plan::{plan, Plan};
use crate::scene::CEILING;
use sokitahe::{Refused, Scene, Surfels, Vec3};
use std::f32::consts::PI;

/// A flat lamp that hangs level, shines downwards alone and looks equally bright from everywhere below.
pub struct Panel {
    pub over: Plan,
    pub height: f32,
    pub lumens: f32,
}

/// The room's lamp. It hangs beyond the curtain, which keeps its light from the head of the couch.
pub const PANEL: Panel = Panel {
    over: plan([1.9, 1.75], [3.1, 2.35]),
    height: CEILING - 0.1,
    lumens: 4_000.0,
};

/// How many points of the panel stand for it, along x and along z.
const SAMPLES: [usize; 2] = [6, 3];
/// How far off its surface a ray to the panel begins, so that the surface does not shade itself.
const LIFT: f32 = 0.003;
/// From where on along a ray shapes shade it.
const NEAREST: f32 = 0.015;
/// How sharp the shadow of one point of the panel is. The ceiling is 0.1 m from the end of every ray;
/// at this sharpness it shades no ray of up to 5.5 m, and none in this room is longer.
const SHARPNESS: f32 = 64.0;

/// The light that each surfel sends back of what reaches it from the panel: albedo times illuminance.
pub fn direct(threads: usize, scene: &Scene, surfels: &Surfels) -> Result<Vec<Vec3>, Refused> {
    let all: Vec<usize> = (0..surfels.len()).collect();
    let part = all.len().div_ceil(threads).max(1);
    let parts: Result<Vec<Vec<Vec3>>, Refused> = std::thread::scope(|scope| {
        let light_part =
            |part: &[usize]| part.iter().map(|i| sent_back(scene, surfels, *i)).collect();
        let begun: Vec<_> = all
            .chunks(part)
            .map(|part| scope.spawn(move || light_part(part)))
            .collect();
        begun
            .into_iter()
            .map(|thread| thread.join().expect("no part panics"))
            .collect()
    });
    Ok(parts?.concat())
}

/// How bright light is to the eye: its three channels by the weights of Rec. 709.
pub fn luminous(light: Vec3) -> f32 {
    dot(light, [0.2126, 0.7152, 0.0722])
}

fn sent_back(scene: &Scene, surfels: &Surfels, i: usize) -> Result<Vec3, Refused> {
    let lux = illuminance(scene, &PANEL, surfels.p[i], surfels.normals[i])?;
    Ok(surfels.albedo[i].map(|albedo| albedo * lux))
}

/// The panel's light at a point of a surface in lux, the sum over the panel's samples of luminance ×
/// cosine at the surface × cosine at the panel × area / squared distance × the part not shaded.
fn illuminance(scene: &Scene, panel: &Panel, at: Vec3, normal: Vec3) -> Result<f32, Refused> {
    let from: Vec3 = std::array::from_fn(|axis| at[axis] + normal[axis] * LIFT);
    let mut sum = 0.0;
    for [x, z] in panel.over.middles(SAMPLES[0], SAMPLES[1]) {
        let way = [x - from[0], panel.height - from[1], z - from[2]];
        let distance = dot(way, way).sqrt();
        let direction = way.map(|length| length / distance);
        let (cos_surface, cos_panel) = (dot(normal, direction), direction[1]);
        if cos_surface > 0.0 && cos_panel > 0.0 {
            let shadow = scene.soft_shadow(from, direction, NEAREST, distance, SHARPNESS)?;
            sum += shadow.visibility * cos_surface * cos_panel / (distance * distance);
        }
    }
    let [length, width] = panel.over.size();
    let luminance = panel.lumens / (PI * length * width);
    let sample_area = length * width / (SAMPLES[0] * SAMPLES[1]) as f32;
    Ok(luminance * sample_area * sum)
}

fn dot(a: Vec3, b: Vec3) -> f32 {
    a[0] * b[0] + a[1] * b[1] + a[2] * b[2]
}
