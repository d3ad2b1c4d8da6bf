//! A call of placement.
use super::scenes::SceneCase;
use super::{
    kept_floats, kept_numbers, outside, over, within, wrong_bounds, Call, Lent, Mistake, Slot,
};
use sokitahe::lent::{self, PlacedColumns};
use sokitahe::{Bounds, Refused};

const TARGET: usize = 6;

/// Six surfels asked for on the floor, the sphere and the cone.
pub struct GenerateCall {
    pub scene: SceneCase,
    pub mats: usize,
    pub materials: Vec<f32>,
    pub bounds: Bounds,
    pub target: usize,
    pub p: Vec<f32>,
    pub n: Vec<f32>,
    pub albedo: Vec<f32>,
    pub area: Vec<f32>,
    pub direct: Vec<f32>,
    pub irr: Vec<f32>,
    pub rad: Vec<f32>,
    pub head: Vec<u32>,
    pub next: Vec<u32>,
}

impl GenerateCall {
    /// The call with so many places of the scratch `head`.
    fn with_head(head: usize) -> GenerateCall {
        GenerateCall {
            scene: SceneCase::sound(),
            mats: 2,
            materials: vec![0.8, 0.8, 0.8, 0.0, 0.6, 0.4, 0.2, 0.5],
            bounds: Bounds {
                lo: [-2.0, -0.5, -2.0],
                hi: [2.0, 2.0, 2.0],
            },
            target: TARGET,
            p: kept_floats(3 * TARGET),
            n: kept_floats(3 * TARGET),
            albedo: kept_floats(3 * TARGET),
            area: kept_floats(TARGET),
            direct: kept_floats(3 * TARGET),
            irr: kept_floats(3 * TARGET),
            rad: kept_floats(3 * TARGET),
            head: kept_numbers(head),
            next: kept_numbers(TARGET),
        }
    }
}

impl Call for GenerateCall {
    const ENTRY: &'static str = "generate";
    const NUMBERS: &'static [u32] = &[2, 3, 4, 5, 6];

    /// The least scratch that the entry accepts, so that none of it is to spare.
    fn sound() -> GenerateCall {
        let enough = |head: &usize| GenerateCall::with_head(*head).call().is_ok();
        let need = (0..1_000)
            .find(enough)
            .expect("a need of under 1,000 cells");
        GenerateCall::with_head(need)
    }

    fn slots(&mut self) -> Vec<Slot<'_>> {
        let mut slots = self.scene.slots();
        slots.extend([
            Slot::read("materials", Lent::Floats(&mut self.materials)),
            Slot::write("p", Lent::Floats(&mut self.p)),
            Slot::write("n", Lent::Floats(&mut self.n)),
            Slot::write("albedo", Lent::Floats(&mut self.albedo)),
            Slot::write("area", Lent::Floats(&mut self.area)),
            Slot::write("direct", Lent::Floats(&mut self.direct)),
            Slot::write("irr", Lent::Floats(&mut self.irr)),
            Slot::write("rad", Lent::Floats(&mut self.rad)),
            Slot::scratch("head", Lent::Numbers(&mut self.head)),
            Slot::scratch("next", Lent::Numbers(&mut self.next)),
        ]);
        slots
    }

    fn call(&mut self) -> Result<Vec<u32>, Refused> {
        let columns = PlacedColumns {
            p: &mut self.p,
            n: &mut self.n,
            albedo: &mut self.albedo,
            area: &mut self.area,
            direct: &mut self.direct,
            irr: &mut self.irr,
            rad: &mut self.rad,
        };
        let placed = lent::generate(
            self.scene.tables(),
            self.mats,
            &self.materials,
            self.bounds,
            self.target,
            columns,
            &mut self.head,
            &mut self.next,
        )?;
        Ok(vec![placed as u32])
    }

    fn mistakes() -> Vec<Mistake<GenerateCall>> {
        let mut mistakes = over(&[
            ("target", |c: &mut GenerateCall| &mut c.target, 400_000),
            ("mats", |c| &mut c.mats, 256),
        ]);
        mistakes.extend(within(|c: &mut GenerateCall| &mut c.bounds, wrong_bounds()));
        mistakes.extend(within(
            |c: &mut GenerateCall| &mut c.scene,
            SceneCase::mistakes(),
        ));
        mistakes.extend(outside(
            5,
            &[(
                "material",
                |c: &mut GenerateCall| &mut c.materials,
                0.0,
                1.0,
            )],
        ));
        mistakes
    }
}
