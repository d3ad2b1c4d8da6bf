//! The point grid and the reading.
use super::answered;
use crate::bounds::{Bounds, Vec3};
use crate::ffi;
use crate::grid::Reading;
use crate::lent::{GridTables, ProbeTables, SurfelTables};
use crate::refused::Refused;

/// Sorts `n` points into the cells of a box, and answers how many cells there are on each axis, 1 to
/// 512. `starts` needs a place for each cell and one more, `bounds.cells(cell) + 1`, `items` one a point.
///
/// Refuses with 2 (over 400,000 points), 3 (the bounds, or the cell outside 0.0001..10,000), 4 (a slice
/// too short) and 5 (a point that is NaN, infinite or beyond 10,000).
pub fn grid_build(
    n: usize,
    p: &[f32],
    bounds: Bounds,
    cell: f32,
    starts: &mut [u32],
    items: &mut [u32],
) -> Result<[usize; 3], Refused> {
    let mut dims = [0; 3];
    let result = call!(interflect_grid_build: value n, read p, bounds bounds, value cell, write starts,
        write items, outs dims,);
    answered("grid_build", result, dims)
}

/// Writes the numbers of the points in the cells within `reach` of the cell of `p`, z outermost, x
/// innermost, and answers how many they are.
///
/// Refuses with 2, 3 (also a reach over 511), 4, 5, 7 (tables that are no grid's), and last with 4
/// where the list is shorter than the answer.
pub fn near(
    grid: GridTables<'_>,
    p: Vec3,
    reach: usize,
    list: &mut [u32],
) -> Result<usize, Refused> {
    let mut count = 0;
    let result = call!(interflect_near: grid grid, vector p, value reach, write list, out count,);
    answered("near", result, count)
}

/// The reading at a point: the indirect irradiance of the surfels near it, weighed, or unseen where
/// none of them covers the point.
///
/// The surfels within the radius in the cells within one of the point's own are weighed: a cell smaller
/// than the radius leaves some out. With c the dot product of its normal and the reading's, a surfel weighs
/// (1 − distance² / radius²)² × c where c is over 0.15, else nothing. So a point in the air is seen, too,
/// within the radius of a surface that faces its normal's way.
///
/// Refuses with 2, 3 (the bounds, the cell, or the radius outside 0..10,000), 4, 5 (a point or a normal)
/// and 7 (tables that are no grid's).
pub fn gather(
    grid: GridTables<'_>,
    surfels: SurfelTables<'_>,
    at: Vec3,
    normal: Vec3,
    radius: f32,
) -> Result<Reading, Refused> {
    let (mut seen, mut light) = (0, [0.0; 3]);
    let result = call!(interflect_gather: grid grid, read surfels.p, read surfels.normals,
        read surfels.irr, vector at, vector normal, value radius, out seen, outs light,);
    answered("gather", result, Reading::of(seen, light))
}

/// The readings at many probes. `seen` gets 1 or 0 a probe, and `light` three floats, which are 0 0 0
/// where the probe is unseen: read them together.
///
/// Refuses as [`gather`]. A reading is the one that [`gather`] gives at the probe; the tables are
/// checked once.
pub fn gather_all(
    grid: GridTables<'_>,
    surfels: SurfelTables<'_>,
    probes: ProbeTables<'_>,
    radius: f32,
    seen: &mut [u32],
    light: &mut [f32],
) -> Result<(), Refused> {
    let result = call!(interflect_gather_all: grid grid, read surfels.p, read surfels.normals,
        read surfels.irr, value probes.probes, read probes.p, read probes.normals, value radius,
        write seen, write light,);
    answered("gather_all", result, ())
}
