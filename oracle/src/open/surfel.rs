// Appended by oracle/build to its copy of surfel.rs; what stands above is unchanged.
pub mod open {
    use super::{Grid, Vec3};

    pub fn halton(i: u32, base: u32) -> f32 {
        super::halton(i, base)
    }

    /// A grid without points, from 0 in cells of size 1, with `dim` cells along x.
    pub fn unit_grid(dim: i32) -> Grid {
        Grid {
            lo: Vec3::ZERO,
            inv_cell: 1.0,
            dim: [dim, 1, 1],
            starts: Vec::new(),
            items: Vec::new(),
        }
    }

    /// A grid of these tables, whether or not `build` would make them.
    pub fn of_tables(lo: Vec3, cell: f32, dim: [i32; 3], starts: &[u32], items: &[u32]) -> Grid {
        Grid {
            lo,
            inv_cell: 1.0 / cell,
            dim,
            starts: starts.to_vec(),
            items: items.to_vec(),
        }
    }

    pub fn cell_of(grid: &Grid, p: Vec3) -> [i32; 3] {
        grid.cell_of(p)
    }

    pub fn starts(grid: &Grid) -> &[u32] {
        &grid.starts
    }

    pub fn items(grid: &Grid) -> &[u32] {
        &grid.items
    }
}
