//! The seventeen entries over slices that the host lends, and the three float functions beside them.
//!
//! Each function is named like its entry and takes the same arguments in the same order (but for the
//! limit of [`solve`], which follows the room); arguments that belong together are a struct of slices.
//! Vectors in slices are flat, three floats each, and counts are explicit: a slice may be longer than its
//! need, and places past the need keep what they held. Nothing is checked in Rust. What is wrong, a count,
//! a length or a number, the entry refuses, and a refused call has written nothing (but for number 8 of
//! [`build`]).
//!
//! The types at the crate's root own their columns and call these functions; use this layer where the
//! columns are yours.
//!
//! ```
//! use sokitahe::{lent, Bounds};
//!
//! // Four points of a box of 4 × 1 × 1 m in cells of 1 m.
//! let p = [3.5, 0.5, 0.5, 0.5, 0.5, 0.5, 0.5, 0.5, 0.5, 1.5, 0.5, 0.5];
//! let bounds = Bounds { lo: [0.0; 3], hi: [4.0, 1.0, 1.0] };
//! let (mut starts, mut items) = (vec![0; bounds.cells(1.0) + 1], [0; 4]);
//! let dims = lent::grid_build(4, &p, bounds, 1.0, &mut starts, &mut items)?;
//! assert_eq!((dims, &starts[..], items), ([4, 1, 1], &[0, 2, 3, 3, 4][..], [1, 2, 3, 0]));
//!
//! // One place less for the starts: refused with 4.
//! let refused = lent::grid_build(4, &p, bounds, 1.0, &mut starts[..4], &mut items).unwrap_err();
//! assert_eq!(refused.number(), 4);
//! # Ok::<(), sokitahe::Refused>(())
//! ```
use crate::bounds::{Bounds, Vec3};

pub use crate::calls::{
    build, build_clusters, cell, cell_count, dist_mat, gather, gather_all, generate, grid_build,
    hemisphere_closure, near, normal, reset, reset_records, room_read, room_report, soft_shadow,
    solve, sqrt, trace,
};

/// A scene: primitives, and the planes and objects made of them.
#[derive(Clone, Copy, Debug, Default, PartialEq)]
pub struct SceneTables<'a> {
    /// How many primitives, at most 256.
    pub prims: usize,
    /// How many planes, at most 256.
    pub planes: usize,
    /// How many objects, at most 256.
    pub objects: usize,
    /// A number a primitive: 0 sphere, 1 rounded box, 2 plane, 3 capsule, 4 torus, 5 cylinder, 6 cone.
    pub kinds: &'a [u32],
    /// Eight floats a primitive, in the order of the shape's fields; unused ones are ignored.
    pub lengths: &'a [f32],
    /// Four numbers a plane: base primitive, first subtracted, how many, material.
    pub plane_parts: &'a [u32],
    /// Four numbers an object, as for a plane.
    pub object_parts: &'a [u32],
}

/// A grid of points in a box.
#[derive(Clone, Copy, Debug, Default, PartialEq)]
pub struct GridTables<'a> {
    /// How many points, at most 400,000.
    pub n: usize,
    /// For each cell where its numbers begin in `items`, and one more for the end.
    pub starts: &'a [u32],
    /// Point numbers, cell by cell.
    pub items: &'a [u32],
    /// The box.
    pub bounds: Bounds,
    /// The side of a cell, 0.0001 to 10,000.
    pub cell: f32,
}

/// The surfels that a reading weighs, three floats each; as many as the grid has points.
#[derive(Clone, Copy, Debug, Default, PartialEq)]
pub struct SurfelTables<'a> {
    /// Their points.
    pub p: &'a [f32],
    /// Their normals.
    pub normals: &'a [f32],
    /// Their indirect irradiance; any floats.
    pub irr: &'a [f32],
}

/// The points at which many readings are taken.
#[derive(Clone, Copy, Debug, Default, PartialEq)]
pub struct ProbeTables<'a> {
    /// How many probes, at most 400,000.
    pub probes: usize,
    /// Their points, three floats each.
    pub p: &'a [f32],
    /// Their normals, three floats each.
    pub normals: &'a [f32],
}

/// The columns that placement writes, as many entries each as the target.
#[derive(Debug, Default)]
pub struct PlacedColumns<'a> {
    /// Points, three floats each.
    pub p: &'a mut [f32],
    /// Normals, three floats each.
    pub n: &'a mut [f32],
    /// Albedo, three floats each.
    pub albedo: &'a mut [f32],
    /// Areas.
    pub area: &'a mut [f32],
    /// Direct light, three floats each: set to zero.
    pub direct: &'a mut [f32],
    /// Indirect irradiance, three floats each: set to zero.
    pub irr: &'a mut [f32],
    /// All light that leaves the surfel, three floats each: set to zero.
    pub rad: &'a mut [f32],
}

/// The columns that clusters are written into, with an entry a surfel each.
#[derive(Debug, Default)]
pub struct ClusterColumns<'a> {
    /// Centres, three floats each.
    pub p: &'a mut [f32],
    /// Normals, three floats each.
    pub n: &'a mut [f32],
    /// Areas.
    pub area: &'a mut [f32],
    /// Radii of discs of these areas.
    pub radius: &'a mut [f32],
    /// Where each cluster's members begin.
    pub first: &'a mut [u32],
    /// How many members each has.
    pub count: &'a mut [u32],
    /// The members, surfel numbers.
    pub members: &'a mut [u32],
}

/// The clusters that light surfels, as rows are built over them.
#[derive(Clone, Copy, Debug, Default, PartialEq)]
pub struct Emitters<'a> {
    /// How many clusters, at most 65,536.
    pub nc: usize,
    /// Their centres, three floats each.
    pub p: &'a [f32],
    /// Their normals, three floats each.
    pub n: &'a [f32],
    /// Their areas, 0 to 1e12.
    pub area: &'a [f32],
    /// Their radii, 0 to 1,000,000.
    pub radius: &'a [f32],
}

/// The columns that rows are written into.
#[derive(Debug, Default)]
pub struct RowColumns<'a> {
    /// Where each surfel's row begins among the links, and one more for the end.
    pub starts: &'a mut [u32],
    /// The cluster of each link; as long as you like.
    pub link_cluster: &'a mut [u32],
    /// The weight of each link; as long as you like.
    pub link_weight: &'a mut [f32],
}

/// A room as a solve is lent it.
#[derive(Clone, Copy, Debug, Default, PartialEq)]
pub struct RoomTables<'a> {
    /// How many surfels, at most 400,000.
    pub n: usize,
    /// How many clusters, at most 65,536.
    pub nc: usize,
    /// How many members, at most 400,000.
    pub members: usize,
    /// How many links, at most 16,777,216.
    pub links: usize,
    /// The surfels' albedo, three floats each, 0 to 1.
    pub albedo: &'a [f32],
    /// The surfels' areas, 0 to 1,000,000.
    pub area: &'a [f32],
    /// The surfels' direct light, three floats each, 0 to 1,000,000.
    pub direct: &'a [f32],
    /// The clusters' areas, 0 to 1e12.
    pub cluster_area: &'a [f32],
    /// Where each cluster's members begin in `member`.
    pub first: &'a [u32],
    /// How many members each cluster has.
    pub count: &'a [u32],
    /// The members, surfel numbers.
    pub member: &'a [u32],
    /// Where each surfel's row begins among the links, and one more for the end.
    pub starts: &'a [u32],
    /// The cluster of each link.
    pub link_cluster: &'a [u32],
    /// The weight of each link, 0 to 2.
    pub link_weight: &'a [f32],
}

/// The columns that a room file is read into, as long as the counts of its header ask for.
#[derive(Debug, Default)]
pub struct RoomColumns<'a> {
    /// The surfels' points, three floats each.
    pub p: &'a mut [f32],
    /// The surfels' normals, three floats each.
    pub normals: &'a mut [f32],
    /// The surfels' albedo, three floats each.
    pub albedo: &'a mut [f32],
    /// The surfels' areas.
    pub area: &'a mut [f32],
    /// The surfels' direct light, three floats each.
    pub direct: &'a mut [f32],
    /// The clusters' areas.
    pub cluster_area: &'a mut [f32],
    /// Where each cluster's members begin in `member`.
    pub first: &'a mut [u32],
    /// How many members each cluster has.
    pub count: &'a mut [u32],
    /// The members, surfel numbers.
    pub member: &'a mut [u32],
    /// Where each surfel's row begins among the links, and one more for the end.
    pub starts: &'a mut [u32],
    /// The cluster of each link.
    pub link_cluster: &'a mut [u32],
    /// The weight of each link.
    pub link_weight: &'a mut [f32],
    /// The probes' points, three floats each.
    pub probe_p: &'a mut [f32],
    /// The probes' normals, three floats each.
    pub probe_normals: &'a mut [f32],
}

/// The light of a surfel as a record, for [`reset_records`]: nine floats, as C lays them out.
#[derive(Clone, Copy, Debug, Default, PartialEq)]
#[repr(C)]
pub struct Light {
    /// What it gives off of the lamps' light: albedo × irradiance.
    pub direct: Vec3,
    /// The indirect irradiance: what reaches it after at least one bounce.
    pub irr: Vec3,
    /// All light that leaves it.
    pub rad: Vec3,
}

/// How many clusters were made of surfels.
#[derive(Clone, Copy, Debug, Default, PartialEq, Eq)]
pub struct Clustered {
    /// How many clusters.
    pub made: usize,
    /// How many members they have in all.
    pub listed: usize,
}

/// What is told of rows that were built.
#[derive(Clone, Copy, Debug, Default, PartialEq)]
pub struct Built {
    /// How many links the rows have.
    pub links: usize,
    /// The mean of the sums of the rows with links, at most 1 each; 0 if there are none.
    pub mean_row_sum: f32,
    /// How often the distance was evaluated, at most n × (96 × nc + 2,112).
    pub evals: usize,
}

/// The counts of a room file, its limit, and what its probes are read with.
#[derive(Clone, Copy, Debug, Default, PartialEq)]
pub struct RoomHeader {
    /// How many surfels.
    pub surfels: usize,
    /// How many clusters.
    pub clusters: usize,
    /// How many members.
    pub members: usize,
    /// How many links.
    pub links: usize,
    /// How many probes.
    pub probes: usize,
    /// The most bounces of a solve.
    pub limit: usize,
    /// The box of the grid.
    pub bounds: Bounds,
    /// The side of a cell of the grid.
    pub cell: f32,
    /// The radius of a reading.
    pub radius: f32,
}
