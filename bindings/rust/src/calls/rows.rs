//! Clusters and rows.
use super::answered;
use crate::bounds::Bounds;
use crate::ffi;
use crate::lent::{Built, ClusterColumns, Clustered, Emitters, RowColumns, SceneTables};
use crate::refused::Refused;

/// Takes surfels of one voxel whose normals point along one axis together as one emitter, and answers
/// how many clusters there are, and how many members in all; entries from these counts on keep what
/// they held. `res` is the number of voxels on an axis; the columns, the members and the scratch `order`
/// and `spare` have an entry a surfel each.
///
/// Refuses with 2 (over 400,000 surfels), 3 (the bounds, or res outside 1..64), 4 (a slice too short)
/// and 5 (a point, a normal or an area out of range).
#[allow(clippy::too_many_arguments)] // The entry's own arguments, in its order.
pub fn build_clusters(
    n: usize,
    p: &[f32],
    normals: &[f32],
    area: &[f32],
    bounds: Bounds,
    res: usize,
    columns: ClusterColumns<'_>,
    order: &mut [u32],
    spare: &mut [u32],
) -> Result<Clustered, Refused> {
    let (mut made, mut listed) = (0, 0);
    let result = call!(interflect_build_clusters: value n, read p, read normals, read area,
        bounds bounds, value res, write columns.p, write columns.n, write columns.area,
        write columns.radius, write columns.first, write columns.count, write columns.members,
        write order, write spare, out made, out listed,);
    answered("build_clusters", result, Clustered { made, listed })
}

/// Builds the rows of `n` surfels: the links of each to the clusters that light it. The scratch `link`
/// and `weight` has an entry a cluster each; the link slices of the rows are as long as you like.
///
/// A weight is the cluster's form factor times what is seen of it. A row whose sum is over 0.00001 is
/// scaled, by at most 8, to sum to the part of 16 directions that meets something. The diagonal of the
/// bounds says how far off the surfel rays begin and how far the 16 directions go: take those of the
/// placement.
///
/// Refuses with 2 to 6, and then has written nothing. Refuses with 8 where the links of a row, after
/// those of the rows before it, do not fit: the rows before [`Refused::row`] and the starts up to it,
/// both ends included, are then written as they would be with more room.
#[allow(clippy::too_many_arguments)] // The entry's own arguments, in its order.
pub fn build(
    scene: SceneTables<'_>,
    bounds: Bounds,
    n: usize,
    p: &[f32],
    normals: &[f32],
    emitters: Emitters<'_>,
    rows: RowColumns<'_>,
    link: &mut [u32],
    weight: &mut [f32],
) -> Result<Built, Refused> {
    let (mut links, mut mean_row_sum, mut evals, mut row) = (0, 0.0, 0, 0);
    let result = call!(interflect_build: scene scene, bounds bounds, value n, read p, read normals,
        value emitters.nc, read emitters.p, read emitters.n, read emitters.area, read emitters.radius,
        write rows.starts, write rows.link_cluster, write rows.link_weight, write link, write weight,
        out links, out mean_row_sum, out evals, out row,);
    if result == 8 {
        return Err(Refused::full("build", row));
    }
    answered(
        "build",
        result,
        Built {
            links,
            mean_row_sum,
            evals,
        },
    )
}
