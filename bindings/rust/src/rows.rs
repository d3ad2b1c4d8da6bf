//! Rows: the links of each surfel to the clusters that light it.
use crate::bounds::Bounds;
use crate::clusters::Clusters;
use crate::lent::RowColumns;
use crate::limits::MAX_LINKS;
use crate::parts::{build_in_parts, Scratch, Setting};
use crate::refused::Refused;
use crate::scene::Scene;
use crate::surfels::Surfels;

/// Transfer rows: row i is the links `starts[i]..starts[i + 1]`, each a cluster and the weight by which
/// its light reaches surfel i. [`lent::build`](crate::lent::build) says what a weight is.
///
/// ```
/// use sokitahe::{Bounds, Clusters, Rows, Scene, Surfels};
///
/// let mut scene = Scene::new();
/// let white = scene.material([0.8; 3], 0.0);
/// scene.plane([0.0, 1.0, 0.0], 0.0, white);
/// scene.plane([0.0, -1.0, 0.0], -2.0, white);
/// let bounds = Bounds { lo: [0.0, -0.1, 0.0], hi: [3.0, 2.1, 3.0] };
/// let surfels = Surfels::place(&scene, bounds, 40)?;
/// let clusters = Clusters::build(&surfels, bounds, 2)?;
/// let told = |done| eprintln!("{done} of {} rows", surfels.len());
/// let rows = Rows::build_on(2, &scene, bounds, &surfels, &clusters, told)?;
/// assert_eq!(rows.starts.len(), surfels.len() + 1);
/// assert_eq!(rows, Rows::build(&scene, bounds, &surfels, &clusters)?);
/// # Ok::<(), sokitahe::Refused>(())
/// ```
#[derive(Clone, Debug, Default, PartialEq)]
pub struct Rows {
    /// Where each surfel's row begins among the links, and one more for the end.
    pub starts: Vec<u32>,
    /// The cluster of each link; they ascend in a row.
    pub link_cluster: Vec<u32>,
    /// The weight of each link, 0 to 2.
    pub link_weight: Vec<f32>,
    /// The mean of the sums of the rows with links, at most 1 each; 0 if there are none, or if the rows
    /// were read from a room file.
    pub mean_row_sum: f32,
    /// How often the distance was evaluated; 0 if the rows were read from a room file.
    pub evals: usize,
}

impl Rows {
    /// Builds the rows of all surfels by one call on this thread.
    ///
    /// Refuses as [`lent::build`](crate::lent::build), with 8 only where the links would be more than
    /// 16,777,216. It makes room for a link of each surfel to each cluster, 8 bytes each, while it builds.
    pub fn build(
        scene: &Scene,
        bounds: Bounds,
        surfels: &Surfels,
        clusters: &Clusters,
    ) -> Result<Rows, Refused> {
        let setting = Setting::of(scene, bounds, surfels, clusters);
        let mut scratch = Scratch::of(&setting);
        let mut rows = Rows::blank(
            surfels.len(),
            MAX_LINKS.min(surfels.len().saturating_mul(clusters.len())),
        );
        let built = setting.build(rows.columns(), &mut scratch)?;
        rows.link_cluster.truncate(built.links);
        rows.link_weight.truncate(built.links);
        rows.link_cluster.shrink_to_fit();
        rows.link_weight.shrink_to_fit();
        rows.mean_row_sum = built.mean_row_sum;
        rows.evals = built.evals;
        Ok(rows)
    }

    /// Builds the same rows on so many threads, this one among them (so that 0 is as 1), a surfel at a
    /// time: every bit is the one that [`Rows::build`] gives, and so is a refusal.
    ///
    /// `progress` is told how many rows are done after each run of up to 16, by one thread at a time, so
    /// that the numbers ascend to that of all surfels. At most 256 threads build, and fewer where the
    /// system makes fewer.
    ///
    /// # Panics
    ///
    /// Where `progress` does.
    pub fn build_on(
        threads: usize,
        scene: &Scene,
        bounds: Bounds,
        surfels: &Surfels,
        clusters: &Clusters,
        progress: impl Fn(usize) + Sync,
    ) -> Result<Rows, Refused> {
        let setting = Setting::of(scene, bounds, surfels, clusters);
        build_in_parts(setting, threads, MAX_LINKS, &progress)
    }

    /// Columns for the rows of so many surfels, with places for so many links, all zero.
    pub(crate) fn blank(surfels: usize, links: usize) -> Rows {
        Rows {
            starts: vec![0; surfels + 1],
            link_cluster: vec![0; links],
            link_weight: vec![0.0; links],
            ..Rows::default()
        }
    }

    /// The columns as the entry writes them.
    pub(crate) fn columns(&mut self) -> RowColumns<'_> {
        RowColumns {
            starts: &mut self.starts,
            link_cluster: &mut self.link_cluster,
            link_weight: &mut self.link_weight,
        }
    }
}
