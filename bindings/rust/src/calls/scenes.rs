//! The entries on a scene.
use super::answered;
use crate::bounds::Vec3;
use crate::ffi;
use crate::lent::SceneTables;
use crate::refused::Refused;
use crate::scene::{Closure, Hit, Nearest, Shadow, Traced};

/// How far what is nearest to `p` lies, and its material; in a scene of nothing the greatest float and
/// material 0.
///
/// Refuses with 2 (a count over 256), 4 (a table too short), 5 (a float of the scene or the point that
/// is NaN, infinite or out of range) and 6 (parts that do not fit the table of primitives).
pub fn dist_mat(scene: SceneTables<'_>, p: Vec3) -> Result<Nearest, Refused> {
    let (mut distance, mut material) = (0.0, 0);
    let result = call!(interflect_dist_mat: scene scene, vector p, out distance, out material,);
    answered("dist_mat", result, Nearest { distance, material })
}

/// The normal of the surface nearest to `p`; in a scene of nothing it has a NaN. Refuses as [`dist_mat`].
pub fn normal(scene: SceneTables<'_>, p: Vec3) -> Result<Vec3, Refused> {
    let mut n = [0.0; 3];
    let result = call!(interflect_normal: scene scene, vector p, outs n,);
    answered("normal", result, n)
}

/// What a ray from `ro` along `rd` meets between `tmin` and `tmax`, within 128 steps, and how often
/// the distance was evaluated, at most 132 times. Direction and ends may be any floats. Along an
/// `rd` of length 1 the ends and `t` are distances; with another the ray may pass into a surface.
///
/// Refuses as [`dist_mat`], with 5 for the origin.
pub fn trace(
    scene: SceneTables<'_>,
    ro: Vec3,
    rd: Vec3,
    tmin: f32,
    tmax: f32,
) -> Result<Traced, Refused> {
    let (mut found, mut t, mut p, mut n) = (0, 0.0, [0.0; 3], [0.0; 3]);
    let (mut material, mut evals) = (0, 0);
    let result = call!(interflect_trace: scene scene, vector ro, vector rd, value tmin, value tmax,
        out found, out t, outs p, outs n, out material, out evals,);
    let hit = (found == 1).then_some(Hit { t, p, n, material });
    answered("trace", result, Traced { hit, evals })
}

/// How much of a light is seen from `ro` along `rd` between `tmin` and `tmax`, 0 to 1, with shadows
/// the softer the smaller `k` is, and how often the distance was evaluated, at most 96 times.
///
/// Begin above 0, off the surface that `ro` lies on, which else hides all, and end short of the surface
/// that the lamp hangs on, which else darkens it. The renderer takes `ro` 0.003 off the surface, 0.015 as
/// `tmin`, 1.25 radii of the lamp short of it, at least 0.05, as `tmax`, and distance by radius, 1.5 to 96,
/// as `k`.
///
/// Refuses as [`trace`]. Direction, ends and `k` may be any floats; let `rd` be of length 1, and none of
/// them a NaN, with which all may count as seen.
pub fn soft_shadow(
    scene: SceneTables<'_>,
    ro: Vec3,
    rd: Vec3,
    tmin: f32,
    tmax: f32,
    k: f32,
) -> Result<Shadow, Refused> {
    let (mut visibility, mut evals) = (0.0, 0);
    let result = call!(interflect_soft_shadow: scene scene, vector ro, vector rd, value tmin,
        value tmax, value k, out visibility, out evals,);
    answered("soft_shadow", result, Shadow { visibility, evals })
}

/// The part of 16 directions about `n` in which nothing is met from `p` up to `tmax`, and how often
/// the distance was evaluated, at most 2,112 times.
///
/// Refuses as [`dist_mat`], with 5 for the point and the normal.
pub fn hemisphere_closure(
    scene: SceneTables<'_>,
    p: Vec3,
    n: Vec3,
    tmax: f32,
) -> Result<Closure, Refused> {
    let (mut open, mut evals) = (0.0, 0);
    let result = call!(interflect_hemisphere_closure: scene scene, vector p, vector n, value tmax,
        out open, out evals,);
    answered("hemisphere_closure", result, Closure { open, evals })
}
