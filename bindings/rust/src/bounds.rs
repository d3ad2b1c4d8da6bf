//! Vectors, boxes, and how many cells a box takes.
use crate::lent;

/// Three floats: x, y, z. Lengths are in metres.
pub type Vec3 = [f32; 3];

/// A box from its lowest corner to its highest. One box serves a room's surfels, clusters, rows and grid.
///
/// The entries that take one refuse it with 3 where `lo` is above `hi` on an axis, where a component
/// is beyond ±10,000, or where one is NaN.
#[derive(Clone, Copy, Debug, Default, PartialEq)]
pub struct Bounds {
    /// The lowest corner.
    pub lo: Vec3,
    /// The highest corner.
    pub hi: Vec3,
}

impl Bounds {
    /// The length of each side.
    pub(crate) fn extent(&self) -> Vec3 {
        let [lo, hi] = [self.lo, self.hi];
        [hi[0] - lo[0], hi[1] - lo[1], hi[2] - lo[2]]
    }

    /// How many cells of this side the box takes in all, 1 to 512 on each axis: the product of
    /// [`lent::cell_count`] of extent × (1 / side).
    ///
    /// A grid over the box needs so many starts and one more.
    ///
    /// ```
    /// let bounds = sokitahe::Bounds { lo: [0.0; 3], hi: [4.0, 2.5, 1.0] };
    /// assert_eq!(bounds.cells(1.0), 4 * 3);
    /// ```
    pub fn cells(&self, side: f32) -> usize {
        let per_metre = 1.0 / side;
        self.extent()
            .iter()
            .map(|extent| lent::cell_count(extent * per_metre))
            .product()
    }

    /// The least distance d between two of so many surfels placed in the box: its diagonal by the root of
    /// the target, at least 0.0001. Each stands for an area of d² / 0.65.
    ///
    /// Placement needs `bounds.cells(bounds.spacing(target))` numbers of scratch in `head`. A reading with
    /// a radius of two or three times d is mostly seen all over a surface.
    ///
    /// ```
    /// let bounds = sokitahe::Bounds { lo: [0.0; 3], hi: [3.0, 4.0, 12.0] };
    /// assert_eq!(bounds.spacing(169), 1.0);
    /// ```
    pub fn spacing(&self, target: usize) -> f32 {
        let [x, y, z] = self.extent();
        let diagonal = lent::sqrt(x * x + y * y + z * z);
        (diagonal / lent::sqrt(target as f32)).max(1e-4)
    }
}
