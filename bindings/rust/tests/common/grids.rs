//! Calls of the grid and the reading.
use super::{
    bits, kept_floats, kept_numbers, mistake, outside, over, within, wrong_bounds, Call, Column,
    Lent, Mistake, Ranged, Slot, FAR,
};
use sokitahe::lent::{self, GridTables, ProbeTables, SurfelTables};
use sokitahe::{Bounds, Reading, Refused, Vec3};
use std::slice::from_mut;

/// A box of 4 × 1 × 1 cells with four points, at x = 3.5, 0.5, 0.5, 1.5.
pub const BOX: Bounds = Bounds {
    lo: [0.0; 3],
    hi: [4.0, 1.0, 1.0],
};
pub const POINTS: [Vec3; 4] = [
    [3.5, 0.5, 0.5],
    [0.5, 0.5, 0.5],
    [0.5, 0.5, 0.5],
    [1.5, 0.5, 0.5],
];

/// What is wrong of the side of a cell.
fn wrong_cell<C: 'static>(cell: Column<C>) -> Vec<Mistake<C>> {
    outside(3, &[("cell", cell, 0.0001, 10_000.0)])
}

/// What is wrong of the radius of a reading.
fn wrong_radius<C: 'static>(radius: Column<C>) -> Vec<Mistake<C>> {
    outside(3, &[("radius", radius, 0.0, 10_000.0)])
}

pub struct GridBuildCall {
    pub n: usize,
    pub p: Vec<f32>,
    pub bounds: Bounds,
    pub cell: f32,
    pub starts: Vec<u32>,
    pub items: Vec<u32>,
}

impl Call for GridBuildCall {
    const ENTRY: &'static str = "grid_build";
    const NUMBERS: &'static [u32] = &[2, 3, 4, 5];

    fn sound() -> GridBuildCall {
        GridBuildCall {
            n: 4,
            p: POINTS.concat(),
            bounds: BOX,
            cell: 1.0,
            starts: kept_numbers(5),
            items: kept_numbers(4),
        }
    }

    fn slots(&mut self) -> Vec<Slot<'_>> {
        vec![
            Slot::read("p", Lent::Floats(&mut self.p)),
            Slot::write("starts", Lent::Numbers(&mut self.starts)),
            Slot::write("items", Lent::Numbers(&mut self.items)),
        ]
    }

    fn call(&mut self) -> Result<Vec<u32>, Refused> {
        let dims = lent::grid_build(
            self.n,
            &self.p,
            self.bounds,
            self.cell,
            &mut self.starts,
            &mut self.items,
        )?;
        Ok(dims.map(|dim| dim as u32).to_vec())
    }

    fn mistakes() -> Vec<Mistake<GridBuildCall>> {
        let mut mistakes = over(&[("n", |c: &mut GridBuildCall| &mut c.n, 400_000)]);
        mistakes.extend(within(
            |c: &mut GridBuildCall| &mut c.bounds,
            wrong_bounds(),
        ));
        mistakes.extend(wrong_cell(|c: &mut GridBuildCall| from_mut(&mut c.cell)));
        mistakes.extend(outside(
            5,
            &[("p", |c: &mut GridBuildCall| &mut c.p, -FAR, FAR)],
        ));
        mistakes
    }
}

/// The grid of the four points.
pub struct GridCase {
    pub n: usize,
    pub starts: Vec<u32>,
    pub items: Vec<u32>,
    pub bounds: Bounds,
    pub cell: f32,
}

impl GridCase {
    pub fn sound() -> GridCase {
        GridCase {
            n: 4,
            starts: vec![0, 2, 3, 3, 4],
            items: vec![1, 2, 3, 0],
            bounds: BOX,
            cell: 1.0,
        }
    }

    pub fn tables(&self) -> GridTables<'_> {
        GridTables {
            n: self.n,
            starts: &self.starts,
            items: &self.items,
            bounds: self.bounds,
            cell: self.cell,
        }
    }

    pub fn slots(&mut self) -> Vec<Slot<'_>> {
        vec![
            Slot::read("starts", Lent::Numbers(&mut self.starts)),
            Slot::read("items", Lent::Numbers(&mut self.items)),
        ]
    }

    pub fn mistakes() -> Vec<Mistake<GridCase>> {
        let mut mistakes = over(&[("n", |g: &mut GridCase| &mut g.n, 400_000)]);
        mistakes.extend(within(|g: &mut GridCase| &mut g.bounds, wrong_bounds()));
        mistakes.extend(wrong_cell(|g: &mut GridCase| from_mut(&mut g.cell)));
        let table = |name: &str, make: fn(&mut GridCase)| mistake(7, name, make);
        mistakes.extend([
            table("starts from 1", |g| g.starts[0] = 1),
            table("starts that fall", |g| g.starts[1] = 4),
            table("starts that end early", |g| g.starts[4] = 3),
            table("starts that end late", |g| g.starts[4] = 5),
            table("an item that is no point", |g| g.items[3] = 4),
            table("an item far outside", |g| g.items[0] = u32::MAX),
        ]);
        mistakes
    }
}

pub struct NearCall {
    pub grid: GridCase,
    pub p: Vec3,
    pub reach: usize,
    pub list: Vec<u32>,
}

impl Call for NearCall {
    const ENTRY: &'static str = "near";
    const NUMBERS: &'static [u32] = &[2, 3, 4, 5, 7];

    fn sound() -> NearCall {
        NearCall {
            grid: GridCase::sound(),
            p: [0.5; 3],
            reach: 1,
            list: kept_numbers(3),
        }
    }

    fn slots(&mut self) -> Vec<Slot<'_>> {
        let mut slots = self.grid.slots();
        slots.push(Slot::write("list", Lent::Numbers(&mut self.list)));
        slots
    }

    fn call(&mut self) -> Result<Vec<u32>, Refused> {
        let count = lent::near(self.grid.tables(), self.p, self.reach, &mut self.list)?;
        Ok(vec![count as u32])
    }

    fn mistakes() -> Vec<Mistake<NearCall>> {
        let mut mistakes = within(|c: &mut NearCall| &mut c.grid, GridCase::mistakes());
        mistakes.push(mistake(3, "a reach over 511", |c: &mut NearCall| {
            c.reach = 512
        }));
        mistakes.push(mistake(3, "a reach without end", |c: &mut NearCall| {
            c.reach = usize::MAX
        }));
        mistakes.extend(outside(5, &[("p", |c: &mut NearCall| &mut c.p, -FAR, FAR)]));
        mistakes
    }
}

/// The surfels at the four points.
pub struct SurfelCase {
    pub p: Vec<f32>,
    pub normals: Vec<f32>,
    pub irr: Vec<f32>,
}

impl SurfelCase {
    pub fn sound() -> SurfelCase {
        SurfelCase {
            p: POINTS.concat(),
            normals: [[0.0, 0.0, 1.0]; 4].concat(),
            irr: (1..=12).map(|x| x as f32).collect(),
        }
    }

    pub fn tables(&self) -> SurfelTables<'_> {
        SurfelTables {
            p: &self.p,
            normals: &self.normals,
            irr: &self.irr,
        }
    }

    pub fn slots(&mut self) -> Vec<Slot<'_>> {
        vec![
            Slot::read("p", Lent::Floats(&mut self.p)),
            Slot::read("normals", Lent::Floats(&mut self.normals)),
            Slot::read("irr", Lent::Floats(&mut self.irr)),
        ]
    }

    pub fn mistakes() -> Vec<Mistake<SurfelCase>> {
        let columns: [Ranged<SurfelCase>; 2] = [
            ("p", |s| &mut s.p, -FAR, FAR),
            ("normals", |s| &mut s.normals, -FAR, FAR),
        ];
        outside(5, &columns)
    }
}

pub struct GatherCall {
    pub grid: GridCase,
    pub surfels: SurfelCase,
    pub at: Vec3,
    pub normal: Vec3,
    pub radius: f32,
}

impl Call for GatherCall {
    const ENTRY: &'static str = "gather";
    const NUMBERS: &'static [u32] = &[2, 3, 4, 5, 7];

    fn sound() -> GatherCall {
        GatherCall {
            grid: GridCase::sound(),
            surfels: SurfelCase::sound(),
            at: [0.75, 0.5, 0.5],
            normal: [0.0, 0.0, 1.0],
            radius: 0.9,
        }
    }

    fn slots(&mut self) -> Vec<Slot<'_>> {
        let mut slots = self.grid.slots();
        slots.extend(self.surfels.slots());
        slots
    }

    fn call(&mut self) -> Result<Vec<u32>, Refused> {
        match lent::gather(
            self.grid.tables(),
            self.surfels.tables(),
            self.at,
            self.normal,
            self.radius,
        )? {
            Reading::Seen(light) => Ok(bits(&light)),
            Reading::Unseen => Ok(Vec::new()),
        }
    }

    fn mistakes() -> Vec<Mistake<GatherCall>> {
        let mut mistakes = within(|c: &mut GatherCall| &mut c.grid, GridCase::mistakes());
        mistakes.extend(within(
            |c: &mut GatherCall| &mut c.surfels,
            SurfelCase::mistakes(),
        ));
        mistakes.extend(wrong_radius(|c: &mut GatherCall| from_mut(&mut c.radius)));
        let columns: [Ranged<GatherCall>; 2] = [
            ("at", |c| &mut c.at, -FAR, FAR),
            ("normal", |c| &mut c.normal, -FAR, FAR),
        ];
        mistakes.extend(outside(5, &columns));
        mistakes
    }
}

pub struct GatherAllCall {
    pub grid: GridCase,
    pub surfels: SurfelCase,
    pub probes: usize,
    pub probe_p: Vec<f32>,
    pub probe_normals: Vec<f32>,
    pub radius: f32,
    pub seen: Vec<u32>,
    pub light: Vec<f32>,
}

impl Call for GatherAllCall {
    const ENTRY: &'static str = "gather_all";
    const NUMBERS: &'static [u32] = &[2, 3, 4, 5, 7];

    fn sound() -> GatherAllCall {
        GatherAllCall {
            grid: GridCase::sound(),
            surfels: SurfelCase::sound(),
            probes: 2,
            probe_p: vec![0.75, 0.5, 0.5, 2.5, 0.5, 0.5],
            probe_normals: [[0.0, 0.0, 1.0]; 2].concat(),
            radius: 0.9,
            seen: kept_numbers(2),
            light: kept_floats(6),
        }
    }

    fn slots(&mut self) -> Vec<Slot<'_>> {
        let mut slots = self.grid.slots();
        slots.extend(self.surfels.slots());
        slots.extend([
            Slot::read("probe_p", Lent::Floats(&mut self.probe_p)),
            Slot::read("probe_normals", Lent::Floats(&mut self.probe_normals)),
            Slot::write("seen", Lent::Numbers(&mut self.seen)),
            Slot::write("light", Lent::Floats(&mut self.light)),
        ]);
        slots
    }

    fn call(&mut self) -> Result<Vec<u32>, Refused> {
        let probes = ProbeTables {
            probes: self.probes,
            p: &self.probe_p,
            normals: &self.probe_normals,
        };
        let (grid, surfels) = (self.grid.tables(), self.surfels.tables());
        lent::gather_all(
            grid,
            surfels,
            probes,
            self.radius,
            &mut self.seen,
            &mut self.light,
        )?;
        Ok(Vec::new())
    }

    fn mistakes() -> Vec<Mistake<GatherAllCall>> {
        let mut mistakes = within(|c: &mut GatherAllCall| &mut c.grid, GridCase::mistakes());
        mistakes.extend(within(
            |c: &mut GatherAllCall| &mut c.surfels,
            SurfelCase::mistakes(),
        ));
        mistakes.extend(over(&[(
            "probes",
            |c: &mut GatherAllCall| &mut c.probes,
            400_000,
        )]));
        mistakes.extend(wrong_radius(|c: &mut GatherAllCall| {
            from_mut(&mut c.radius)
        }));
        let columns: [Ranged<GatherAllCall>; 2] = [
            ("probe_p", |c| &mut c.probe_p, -FAR, FAR),
            ("probe_normals", |c| &mut c.probe_normals, -FAR, FAR),
        ];
        mistakes.extend(outside(5, &columns));
        mistakes
    }
}
