//! Clusters: surfels taken together as emitters.
use crate::bounds::{Bounds, Vec3};
use crate::lent::{self, ClusterColumns, Emitters};
use crate::refused::Refused;
use crate::surfels::Surfels;

/// Clusters in columns, an entry a cluster each, and their members: surfels of one voxel whose normals
/// point along one axis, taken together as one emitter.
///
/// How many there are is the length of `area`. Clusters that were read from a room file have no `p`,
/// `normals` and `radius`: they serve a solve, and rows are refused with 4.
///
/// ```
/// use sokitahe::{Bounds, Clusters, Surfels};
///
/// // Two surfels of one voxel that face up, and one beside them that faces along x.
/// let surfels = Surfels {
///     p: vec![[0.1, 0.0, 0.1], [0.2, 0.0, 0.2], [0.0, 0.5, 0.5]],
///     normals: vec![[0.0, 1.0, 0.0], [0.0, 1.0, 0.0], [1.0, 0.0, 0.0]],
///     area: vec![1.0, 3.0, 2.0],
///     ..Surfels::default()
/// };
/// let clusters = Clusters::build(&surfels, Bounds { lo: [0.0; 3], hi: [1.0; 3] }, 1)?;
/// assert_eq!((clusters.len(), &clusters.area[..]), (2, &[2.0, 4.0][..]));
/// assert_eq!((clusters.count, clusters.members), (vec![1, 2], vec![2, 0, 1]));
/// # Ok::<(), sokitahe::Refused>(())
/// ```
#[derive(Clone, Debug, Default, PartialEq)]
pub struct Clusters {
    /// Their centres.
    pub p: Vec<Vec3>,
    /// Their normals.
    pub normals: Vec<Vec3>,
    /// Their areas, 0 to 1e12.
    pub area: Vec<f32>,
    /// The radii of discs of these areas.
    pub radius: Vec<f32>,
    /// Where each cluster's members begin in `members`.
    pub first: Vec<u32>,
    /// How many members each has.
    pub count: Vec<u32>,
    /// The members, surfel numbers.
    pub members: Vec<u32>,
}

impl Clusters {
    /// Groups surfels by `res` voxels on each axis of the bounds, 1 to 64, and by their normals. More
    /// than 65,536 clusters may be made, and rows then refuse them with 2: take a smaller `res`.
    ///
    /// Refuses as [`lent::build_clusters`].
    pub fn build(surfels: &Surfels, bounds: Bounds, res: usize) -> Result<Clusters, Refused> {
        let places = surfels.len();
        let mut clusters = Clusters::blank(places);
        let (mut order, mut spare) = (vec![0; places], vec![0; places]);
        let clustered = lent::build_clusters(
            surfels.len(),
            surfels.p.as_flattened(),
            surfels.normals.as_flattened(),
            &surfels.area,
            bounds,
            res,
            clusters.columns(),
            &mut order,
            &mut spare,
        )?;
        clusters.cut(clustered.made, clustered.listed);
        Ok(clusters)
    }

    /// How many clusters there are.
    pub fn len(&self) -> usize {
        self.area.len()
    }

    /// Whether there is none.
    pub fn is_empty(&self) -> bool {
        self.area.is_empty()
    }

    /// The clusters as rows are built over them.
    pub(crate) fn emitters(&self) -> Emitters<'_> {
        Emitters {
            nc: self.len(),
            p: self.p.as_flattened(),
            n: self.normals.as_flattened(),
            area: &self.area,
            radius: &self.radius,
        }
    }

    /// Columns of so many entries, all zero.
    fn blank(places: usize) -> Clusters {
        Clusters {
            p: vec![[0.0; 3]; places],
            normals: vec![[0.0; 3]; places],
            area: vec![0.0; places],
            radius: vec![0.0; places],
            first: vec![0; places],
            count: vec![0; places],
            members: vec![0; places],
        }
    }

    /// The columns as the entry writes them.
    fn columns(&mut self) -> ClusterColumns<'_> {
        ClusterColumns {
            p: self.p.as_flattened_mut(),
            n: self.normals.as_flattened_mut(),
            area: &mut self.area,
            radius: &mut self.radius,
            first: &mut self.first,
            count: &mut self.count,
            members: &mut self.members,
        }
    }

    /// Cuts the columns to so many clusters, and the members to so many.
    fn cut(&mut self, made: usize, listed: usize) {
        self.p.truncate(made);
        self.normals.truncate(made);
        self.area.truncate(made);
        self.radius.truncate(made);
        self.first.truncate(made);
        self.count.truncate(made);
        self.members.truncate(listed);
    }
}
