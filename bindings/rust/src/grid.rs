//! The grid of points, and the reading.
use crate::bounds::{Bounds, Vec3};
use crate::lent::{self, GridTables, ProbeTables};
use crate::limits::sized;
use crate::refused::Refused;
use crate::surfels::Surfels;

/// A point and the normal of the surface there, at which the light is read.
#[derive(Clone, Copy, Debug, Default, PartialEq)]
pub struct Probe {
    /// The point.
    pub p: Vec3,
    /// The normal.
    pub normal: Vec3,
}

/// A reading: the indirect irradiance at a point, or that no surfel covers it. Unseen is not dark:
/// nothing is known of the light there.
#[derive(Clone, Copy, Debug, PartialEq)]
#[must_use = "a point may be unseen, which is not dark"]
pub enum Reading {
    /// Surfels cover the point: their indirect irradiance, weighed.
    Seen(Vec3),
    /// The weights of the surfels about the point (see [`lent::gather`]) do not exceed 0.000001.
    Unseen,
}

impl Reading {
    /// The reading of an entry's two answers.
    pub(crate) fn of(seen: u32, light: Vec3) -> Reading {
        match seen {
            0 => Reading::Unseen,
            _ => Reading::Seen(light),
        }
    }
}

/// The points of surfels in the cells of a box.
///
/// A reading visits the cells within one of the point's own, whatever its radius is: take a cell that
/// is no smaller than the radius, since surfels beyond those cells are left out.
///
/// ```
/// use sokitahe::{Bounds, Grid};
///
/// let p = [[3.5, 0.5, 0.5], [0.5, 0.5, 0.5], [0.5, 0.5, 0.5], [1.5, 0.5, 0.5]];
/// let grid = Grid::build(&p, Bounds { lo: [0.0; 3], hi: [4.0, 1.0, 1.0] }, 1.0)?;
/// assert_eq!(grid.dims, [4, 1, 1]);
/// assert_eq!(grid.near([0.5, 0.5, 0.5], 1)?, [1, 2, 3]);
/// # Ok::<(), sokitahe::Refused>(())
/// ```
#[derive(Clone, Debug, Default, PartialEq)]
pub struct Grid {
    /// How many points.
    pub n: usize,
    /// For each cell where its numbers begin in `items`, and one more for the end.
    pub starts: Vec<u32>,
    /// Point numbers, cell by cell, x fastest, then y.
    pub items: Vec<u32>,
    /// The box.
    pub bounds: Bounds,
    /// The side of a cell.
    pub cell: f32,
    /// How many cells there are on each axis.
    pub dims: [usize; 3],
}

impl Grid {
    /// Sorts points into the cells of a box.
    ///
    /// Refuses as [`lent::grid_build`].
    pub fn build(p: &[Vec3], bounds: Bounds, cell: f32) -> Result<Grid, Refused> {
        let n = p.len();
        let mut items = vec![0; n];
        let mut build = |starts: &mut [u32]| {
            lent::grid_build(n, p.as_flattened(), bounds, cell, starts, &mut items)
        };
        sized(build(&mut []))?;
        let mut starts = vec![0; bounds.cells(cell) + 1];
        let dims = build(&mut starts)?;
        Ok(Grid {
            n,
            starts,
            items,
            bounds,
            cell,
            dims,
        })
    }

    /// The numbers of the points in the cells within `reach`, 0 to 511, of the cell of `p`.
    ///
    /// Refuses as [`lent::near`].
    pub fn near(&self, p: Vec3, reach: usize) -> Result<Vec<u32>, Refused> {
        // A cell is visited once and its items are at most n in all, so that n places always do.
        let mut list = vec![0; self.n.min(self.items.len())];
        let count = lent::near(self.tables(), p, reach, &mut list)?;
        list.truncate(count);
        Ok(list)
    }

    /// The reading at a point. The surfels are those whose points the grid was built of.
    ///
    /// Refuses as [`lent::gather`]. Each call checks all of the tables first: for many points use
    /// [`Grid::gather_all`].
    pub fn gather(
        &self,
        surfels: &Surfels,
        at: Vec3,
        normal: Vec3,
        radius: f32,
    ) -> Result<Reading, Refused> {
        lent::gather(self.tables(), surfels.tables(), at, normal, radius)
    }

    /// The readings at many probes, in their order.
    ///
    /// Refuses as [`lent::gather_all`].
    pub fn gather_all(
        &self,
        surfels: &Surfels,
        probes: &[Probe],
        radius: f32,
    ) -> Result<Vec<Reading>, Refused> {
        let p: Vec<Vec3> = probes.iter().map(|probe| probe.p).collect();
        let normals: Vec<Vec3> = probes.iter().map(|probe| probe.normal).collect();
        let (mut seen, mut light) = (vec![0; probes.len()], vec![[0.0; 3]; probes.len()]);
        let tables = ProbeTables {
            probes: probes.len(),
            p: p.as_flattened(),
            normals: normals.as_flattened(),
        };
        lent::gather_all(
            self.tables(),
            surfels.tables(),
            tables,
            radius,
            &mut seen,
            light.as_flattened_mut(),
        )?;
        Ok(seen
            .into_iter()
            .zip(light)
            .map(|(seen, light)| Reading::of(seen, light))
            .collect())
    }

    /// The grid as the entries take it.
    fn tables(&self) -> GridTables<'_> {
        GridTables {
            n: self.n,
            starts: &self.starts,
            items: &self.items,
            bounds: self.bounds,
            cell: self.cell,
        }
    }
}
