//! A room: surfels, clusters and rows, and its solve.
use crate::bounds::Vec3;
use crate::clusters::Clusters;
use crate::lent::{self, RoomTables};
use crate::refused::Refused;
use crate::rows::Rows;
use crate::surfels::Surfels;

/// How a solve ended.
#[derive(Clone, Copy, Debug, Default, PartialEq)]
pub struct Solved {
    /// How many bounces it made.
    pub bounces: usize,
    /// The greatest step of any channel of `rad` in its last bounce; 0 if there was none.
    pub last_change: f32,
}

impl Solved {
    /// Whether the light has settled: a bounce was made, and its greatest step was under 0.0001.
    pub fn settled(&self) -> bool {
        self.bounces > 0 && self.last_change < 0.0001
    }
}

/// A room that light is bounced in.
///
/// Set the lamps' light with [`Room::reset`], then [`Room::solve`]. Solves in a row are one solve: up to
/// the first that settled they leave what one solve of the limits of all leaves, where these add up to
/// at most 4,096, and refused calls between them change nothing.
#[derive(Clone, Debug, Default, PartialEq)]
pub struct Room {
    /// The surfels, with their light.
    pub surfels: Surfels,
    /// The clusters that light them.
    pub clusters: Clusters,
    /// The links from surfels to clusters.
    pub rows: Rows,
    /// The clusters' light in the last bounce; zero before the first. It has an entry a cluster: with other
    /// clusters make a new room.
    pub cluster_light: Vec<Vec3>,
}

impl Room {
    /// A room of these, whose light is as the surfels have it.
    pub fn new(surfels: Surfels, clusters: Clusters, rows: Rows) -> Room {
        let cluster_light = vec![[0.0; 3]; clusters.len()];
        Room {
            surfels,
            clusters,
            rows,
            cluster_light,
        }
    }

    /// Sets the light before the first bounce, a vector a surfel: see [`Surfels::reset`].
    pub fn reset(&mut self, light: &[Vec3]) -> Result<(), Refused> {
        self.surfels.reset(light)
    }

    /// Bounces light, going on from the surfels' `rad`, until the last change is under 0.0001, in the
    /// light's own unit, or `limit` bounces, at most 4,096, are made. A white room in lux mostly takes more
    /// than 12 to settle. Without clusters no bounce is made.
    ///
    /// Refuses as [`lent::solve`], and then changes nothing.
    pub fn solve(&mut self, limit: usize) -> Result<Solved, Refused> {
        let Room {
            surfels,
            clusters,
            rows,
            cluster_light,
        } = self;
        let tables = RoomTables {
            n: surfels.len(),
            nc: clusters.len(),
            members: clusters.members.len(),
            links: rows.link_cluster.len(),
            albedo: surfels.albedo.as_flattened(),
            area: &surfels.area,
            direct: surfels.direct.as_flattened(),
            cluster_area: &clusters.area,
            first: &clusters.first,
            count: &clusters.count,
            member: &clusters.members,
            starts: &rows.starts,
            link_cluster: &rows.link_cluster,
            link_weight: &rows.link_weight,
        };
        let (irr, rad) = (
            surfels.irr.as_flattened_mut(),
            surfels.rad.as_flattened_mut(),
        );
        lent::solve(tables, limit, irr, rad, cluster_light.as_flattened_mut())
    }
}
