//! Whether a reading is seen: the weights that the Rust's `gather` sums, in its steps.

use interflect::surfel::{gather, Grid, Surfel};
use interflect::Vec3;

/// The Rust's reading, and by the weight sum whether it is one: "unseen is answered if and only if
/// the weight sum doesn't exceed 0.000001, where the Rust gives zero".
pub fn reading(surfels: &[Surfel], grid: &Grid, at: Vec3, n: Vec3, radius: f32) -> Option<Vec3> {
    let light = gather(surfels, grid, at, n, radius);
    let seen = weight_sum(surfels, grid, at, n, radius) > 0.000001;
    assert_eq!(seen, seen_by_gather(surfels, grid, at, n, radius));
    if seen {
        return Some(light);
    }
    assert_eq!([light.x, light.y, light.z].map(f32::to_bits), [0; 3]);
    None
}

/// Whether the Rust's own `gather` divides: where every surfel has an irradiance of 1, the light that
/// it sums is the weight sum itself, so that it gives exactly 1 where it divides and 0 where not.
fn seen_by_gather(surfels: &[Surfel], grid: &Grid, at: Vec3, n: Vec3, radius: f32) -> bool {
    let one = |s: &Surfel| Surfel {
        irr: Vec3::splat(1.0),
        ..*s
    };
    let ones: Vec<Surfel> = surfels.iter().map(one).collect();
    let light = gather(&ones, grid, at, n, radius);
    assert!(light.x == 0.0 || light.x == 1.0, "{light:?}");
    light.x == 1.0
}

/// The weights that `gather` (surfel.rs) sums, in its steps.
fn weight_sum(surfels: &[Surfel], grid: &Grid, p: Vec3, n: Vec3, radius: f32) -> f32 {
    let r2 = radius * radius;
    let mut wsum = 0.0f32;
    grid.for_each_near(p, 1, |i| {
        let s = &surfels[i as usize];
        let d2 = (s.p - p).length_squared();
        if d2 > r2 {
            return;
        }
        let align = s.n.dot(n);
        if align <= 0.15 {
            return;
        }
        let t = 1.0 - d2 / r2;
        wsum += t * t * align;
    });
    wsum
}
