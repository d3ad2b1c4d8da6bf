//! Calls of the solve and the resets.
use super::{kept_floats, mistake, outside, over, Call, Lent, Limited, Mistake, Ranged, Slot};
use sokitahe::lent::{self, Light, RoomTables};
use sokitahe::Refused;

/// Three surfels, two clusters, four links.
pub struct SolveCall {
    pub n: usize,
    pub nc: usize,
    pub members: usize,
    pub links: usize,
    pub limit: usize,
    pub albedo: Vec<f32>,
    pub area: Vec<f32>,
    pub direct: Vec<f32>,
    pub cluster_area: Vec<f32>,
    pub first: Vec<u32>,
    pub count: Vec<u32>,
    pub member: Vec<u32>,
    pub starts: Vec<u32>,
    pub link_cluster: Vec<u32>,
    pub link_weight: Vec<f32>,
    pub irr: Vec<f32>,
    pub rad: Vec<f32>,
    pub scratch: Vec<f32>,
}

impl Call for SolveCall {
    const ENTRY: &'static str = "solve";
    const NUMBERS: &'static [u32] = &[2, 4, 5, 7];

    fn sound() -> SolveCall {
        SolveCall {
            n: 3,
            nc: 2,
            members: 3,
            links: 4,
            limit: 3,
            albedo: vec![0.5; 9],
            area: vec![1.0, 1.0, 1.5],
            direct: (1..=9).map(|x| x as f32).collect(),
            cluster_area: vec![2.0, 1.5],
            first: vec![0, 2],
            count: vec![2, 1],
            member: vec![0, 1, 2],
            starts: vec![0, 1, 2, 4],
            link_cluster: vec![1, 1, 0, 1],
            link_weight: vec![0.25, 0.5, 0.25, 0.125],
            irr: kept_floats(9),
            rad: (1..=9).map(|x| x as f32).collect(),
            scratch: kept_floats(6),
        }
    }

    fn slots(&mut self) -> Vec<Slot<'_>> {
        vec![
            Slot::read("albedo", Lent::Floats(&mut self.albedo)),
            Slot::read("area", Lent::Floats(&mut self.area)),
            Slot::read("direct", Lent::Floats(&mut self.direct)),
            Slot::read("cluster_area", Lent::Floats(&mut self.cluster_area)),
            Slot::read("first", Lent::Numbers(&mut self.first)),
            Slot::read("count", Lent::Numbers(&mut self.count)),
            Slot::read("member", Lent::Numbers(&mut self.member)),
            Slot::read("starts", Lent::Numbers(&mut self.starts)),
            Slot::read("link_cluster", Lent::Numbers(&mut self.link_cluster)),
            Slot::read("link_weight", Lent::Floats(&mut self.link_weight)),
            Slot::write("irr", Lent::Floats(&mut self.irr)),
            Slot::write("rad", Lent::Floats(&mut self.rad)),
            Slot::write("scratch", Lent::Floats(&mut self.scratch)),
        ]
    }

    fn call(&mut self) -> Result<Vec<u32>, Refused> {
        let room = RoomTables {
            n: self.n,
            nc: self.nc,
            members: self.members,
            links: self.links,
            albedo: &self.albedo,
            area: &self.area,
            direct: &self.direct,
            cluster_area: &self.cluster_area,
            first: &self.first,
            count: &self.count,
            member: &self.member,
            starts: &self.starts,
            link_cluster: &self.link_cluster,
            link_weight: &self.link_weight,
        };
        let solved = lent::solve(
            room,
            self.limit,
            &mut self.irr,
            &mut self.rad,
            &mut self.scratch,
        )?;
        Ok(vec![solved.bounces as u32, solved.last_change.to_bits()])
    }

    fn mistakes() -> Vec<Mistake<SolveCall>> {
        let counts: [Limited<SolveCall>; 5] = [
            ("n", |c| &mut c.n, 400_000),
            ("nc", |c| &mut c.nc, 65_536),
            ("members", |c| &mut c.members, 400_000),
            ("links", |c| &mut c.links, 16_777_216),
            ("limit", |c| &mut c.limit, 4_096),
        ];
        let columns: [Ranged<SolveCall>; 5] = [
            ("albedo", |c| &mut c.albedo, 0.0, 1.0),
            ("area", |c| &mut c.area, 0.0, 1e6),
            ("direct", |c| &mut c.direct, 0.0, 1e6),
            ("cluster_area", |c| &mut c.cluster_area, 0.0, 1e12),
            ("link_weight", |c| &mut c.link_weight, 0.0, 2.0),
        ];
        let mut mistakes = over(&counts);
        mistakes.extend(outside(5, &columns));
        mistakes.extend(wrong_tables());
        mistakes
    }
}

/// What is wrong of rows and members that do not fit together.
fn wrong_tables() -> Vec<Mistake<SolveCall>> {
    let table = |name: &str, make: fn(&mut SolveCall)| mistake(7, name, make);
    vec![
        table("starts from 1", |c| c.starts[0] = 1),
        table("starts that fall", |c| c.starts[1] = 3),
        table("starts that end early", |c| c.starts[3] = 3),
        table("starts that end late", |c| c.starts[3] = 5),
        table("a link to no cluster", |c| c.link_cluster[0] = 2),
        table("a link far outside", |c| c.link_cluster[3] = u32::MAX),
        table("links that do not ascend", |c| c.link_cluster[2] = 1),
        table("members from 1", |c| c.first[0] = 1),
        table("members with a gap", |c| c.first[1] = 3),
        table("members that end early", |c| c.count[1] = 0),
        table("members that end late", |c| c.count[1] = u32::MAX),
        table("a member that is no surfel", |c| c.member[2] = 3),
    ]
}

/// Two surfels reset.
pub struct ResetCall {
    pub light: Vec<f32>,
    pub direct: Vec<f32>,
    pub irr: Vec<f32>,
    pub rad: Vec<f32>,
}

/// The most floats of a list.
const MOST: usize = 1_200_000;

impl Call for ResetCall {
    const ENTRY: &'static str = "reset";
    const NUMBERS: &'static [u32] = &[2, 4, 5];

    fn sound() -> ResetCall {
        ResetCall {
            light: vec![1.0, 2.0, 3.0, 0.0, 0.5, 1e6],
            direct: kept_floats(6),
            irr: kept_floats(6),
            rad: kept_floats(6),
        }
    }

    fn slots(&mut self) -> Vec<Slot<'_>> {
        let mut slots = vec![
            Slot::read("light", Lent::Floats(&mut self.light)),
            Slot::write("direct", Lent::Floats(&mut self.direct)),
            Slot::write("irr", Lent::Floats(&mut self.irr)),
            Slot::write("rad", Lent::Floats(&mut self.rad)),
        ];
        slots.iter_mut().for_each(|slot| slot.longer = false);
        slots
    }

    fn call(&mut self) -> Result<Vec<u32>, Refused> {
        lent::reset(&self.light, &mut self.direct, &mut self.irr, &mut self.rad)?;
        Ok(Vec::new())
    }

    fn mistakes() -> Vec<Mistake<ResetCall>> {
        let list = |name: &str, make: fn(&mut ResetCall)| mistake(4, name, make);
        let mut mistakes = vec![
            mistake(2, "light", |c: &mut ResetCall| {
                c.light = vec![1.0; MOST + 3]
            }),
            mistake(2, "direct", |c: &mut ResetCall| {
                c.direct = kept_floats(MOST + 3)
            }),
            mistake(2, "irr", |c: &mut ResetCall| c.irr = kept_floats(MOST + 3)),
            mistake(2, "rad", |c: &mut ResetCall| c.rad = kept_floats(MOST + 3)),
            list("no light", |c| c.light.clear()),
            list("a vector more of irr", |c| c.irr.extend(kept_floats(3))),
            list("seven floats each", |c| {
                c.light.push(1.0);
                for column in [&mut c.direct, &mut c.irr, &mut c.rad] {
                    column.extend(kept_floats(1));
                }
            }),
        ];
        mistakes.extend(outside(
            5,
            &[("light", |c: &mut ResetCall| &mut c.light, 0.0, 1e6)],
        ));
        mistakes
    }
}

/// Two records reset.
pub struct ResetRecordsCall {
    pub light: Vec<f32>,
    pub records: Vec<Light>,
}

/// A record that a call has not written.
pub fn kept_light() -> Light {
    let kept = [f32::from_bits(super::KEPT); 3];
    Light {
        direct: kept,
        irr: kept,
        rad: kept,
    }
}

impl Call for ResetRecordsCall {
    const ENTRY: &'static str = "reset_records";
    const NUMBERS: &'static [u32] = &[2, 4, 5];

    fn sound() -> ResetRecordsCall {
        ResetRecordsCall {
            light: vec![1.0, 2.0, 3.0, 0.0, 0.5, 1e6],
            records: vec![kept_light(); 2],
        }
    }

    fn slots(&mut self) -> Vec<Slot<'_>> {
        let mut slots = vec![
            Slot::read("light", Lent::Floats(&mut self.light)),
            Slot::write("records", Lent::Lights(&mut self.records)),
        ];
        slots.iter_mut().for_each(|slot| slot.longer = false);
        slots
    }

    fn call(&mut self) -> Result<Vec<u32>, Refused> {
        lent::reset_records(&self.light, &mut self.records)?;
        Ok(Vec::new())
    }

    fn mistakes() -> Vec<Mistake<ResetRecordsCall>> {
        let mut mistakes = vec![
            mistake(2, "light", |c: &mut ResetRecordsCall| {
                c.light = vec![1.0; MOST + 3]
            }),
            mistake(2, "records", |c: &mut ResetRecordsCall| {
                c.records = vec![kept_light(); MOST / 3 + 1]
            }),
            mistake(4, "no light", |c: &mut ResetRecordsCall| c.light.clear()),
            mistake(4, "a record more", |c: &mut ResetRecordsCall| {
                c.records.push(kept_light())
            }),
        ];
        mistakes.extend(outside(
            5,
            &[("light", |c: &mut ResetRecordsCall| &mut c.light, 0.0, 1e6)],
        ));
        mistakes
    }
}
