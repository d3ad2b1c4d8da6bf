//! Calls of clusters and rows.
use super::scenes::SceneCase;
use super::{
    kept_floats, kept_numbers, mistake, outside, over, within, wrong_bounds, Call, Lent, Mistake,
    Ranged, Role, Slot, FAR,
};
use sokitahe::lent::{self, ClusterColumns, Emitters, RowColumns};
use sokitahe::{Bounds, Refused};

/// Four surfels: two close to each other on a floor, one on a wall, one whose area is too small to emit.
pub struct BuildClustersCall {
    pub n: usize,
    pub p: Vec<f32>,
    pub normals: Vec<f32>,
    pub area: Vec<f32>,
    pub bounds: Bounds,
    pub res: usize,
    pub cluster_p: Vec<f32>,
    pub cluster_n: Vec<f32>,
    pub cluster_area: Vec<f32>,
    pub cluster_radius: Vec<f32>,
    pub first: Vec<u32>,
    pub count: Vec<u32>,
    pub members: Vec<u32>,
    pub order: Vec<u32>,
    pub spare: Vec<u32>,
}

impl Call for BuildClustersCall {
    const ENTRY: &'static str = "build_clusters";
    const NUMBERS: &'static [u32] = &[2, 3, 4, 5];

    fn sound() -> BuildClustersCall {
        BuildClustersCall {
            n: 4,
            p: vec![0.1, 0.0, 0.1, 0.2, 0.0, 0.2, 0.0, 1.5, 0.5, 1.5, 0.0, 1.5],
            normals: vec![0.0, 1.0, 0.0, 0.0, 1.0, 0.0, 1.0, 0.0, 0.0, 0.0, 1.0, 0.0],
            area: vec![1.0, 0.5, 2.0, 0.0],
            bounds: Bounds {
                lo: [0.0; 3],
                hi: [2.0; 3],
            },
            res: 2,
            cluster_p: kept_floats(12),
            cluster_n: kept_floats(12),
            cluster_area: kept_floats(4),
            cluster_radius: kept_floats(4),
            first: kept_numbers(4),
            count: kept_numbers(4),
            members: kept_numbers(4),
            order: kept_numbers(4),
            spare: kept_numbers(4),
        }
    }

    fn slots(&mut self) -> Vec<Slot<'_>> {
        vec![
            Slot::read("p", Lent::Floats(&mut self.p)),
            Slot::read("normals", Lent::Floats(&mut self.normals)),
            Slot::read("area", Lent::Floats(&mut self.area)),
            Slot::write("cluster_p", Lent::Floats(&mut self.cluster_p)),
            Slot::write("cluster_n", Lent::Floats(&mut self.cluster_n)),
            Slot::write("cluster_area", Lent::Floats(&mut self.cluster_area)),
            Slot::write("cluster_radius", Lent::Floats(&mut self.cluster_radius)),
            Slot::write("first", Lent::Numbers(&mut self.first)),
            Slot::write("count", Lent::Numbers(&mut self.count)),
            Slot::write("members", Lent::Numbers(&mut self.members)),
            Slot::scratch("order", Lent::Numbers(&mut self.order)),
            Slot::scratch("spare", Lent::Numbers(&mut self.spare)),
        ]
    }

    fn call(&mut self) -> Result<Vec<u32>, Refused> {
        let columns = ClusterColumns {
            p: &mut self.cluster_p,
            n: &mut self.cluster_n,
            area: &mut self.cluster_area,
            radius: &mut self.cluster_radius,
            first: &mut self.first,
            count: &mut self.count,
            members: &mut self.members,
        };
        let clustered = lent::build_clusters(
            self.n,
            &self.p,
            &self.normals,
            &self.area,
            self.bounds,
            self.res,
            columns,
            &mut self.order,
            &mut self.spare,
        )?;
        Ok(vec![clustered.made as u32, clustered.listed as u32])
    }

    fn mistakes() -> Vec<Mistake<BuildClustersCall>> {
        let mut mistakes = over(&[("n", |c: &mut BuildClustersCall| &mut c.n, 400_000)]);
        mistakes.extend(within(
            |c: &mut BuildClustersCall| &mut c.bounds,
            wrong_bounds(),
        ));
        for res in [0, 65, usize::MAX] {
            let set = move |c: &mut BuildClustersCall| c.res = res;
            mistakes.push(mistake(3, &format!("res {res}"), set));
        }
        let columns: [Ranged<BuildClustersCall>; 3] = [
            ("p", |c| &mut c.p, -FAR, FAR),
            ("normals", |c| &mut c.normals, -FAR, FAR),
            ("area", |c| &mut c.area, 0.0, 1e6),
        ];
        mistakes.extend(outside(5, &columns));
        mistakes
    }
}

/// Three surfels on the floor, and four clusters above them that face down.
pub struct BuildCall {
    pub scene: SceneCase,
    pub bounds: Bounds,
    pub n: usize,
    pub p: Vec<f32>,
    pub normals: Vec<f32>,
    pub nc: usize,
    pub cluster_p: Vec<f32>,
    pub cluster_n: Vec<f32>,
    pub cluster_area: Vec<f32>,
    pub cluster_radius: Vec<f32>,
    pub starts: Vec<u32>,
    pub link_cluster: Vec<u32>,
    pub link_weight: Vec<f32>,
    pub link: Vec<u32>,
    pub weight: Vec<f32>,
}

impl BuildCall {
    /// The call with places for so many links.
    pub fn with_links(links: usize) -> BuildCall {
        BuildCall {
            scene: SceneCase::sound(),
            bounds: Bounds {
                lo: [-2.0, 0.0, -2.0],
                hi: [2.0, 3.0, 2.0],
            },
            n: 3,
            p: vec![-1.0, 0.0, -1.0, 1.0, 0.0, -1.0, -0.5, 0.0, 1.0],
            normals: [[0.0, 1.0, 0.0]; 3].concat(),
            nc: 4,
            cluster_p: vec![
                -1.0, 2.5, -0.5, 1.0, 2.5, 0.5, 0.0, -1.0, 0.0, 0.5, 2.0, -1.5,
            ],
            cluster_n: [[0.0, -1.0, 0.0]; 4].concat(),
            cluster_area: vec![1.0, 0.5, 1.0, 0.25],
            cluster_radius: vec![0.5, 0.4, 0.5, 0.3],
            starts: kept_numbers(4),
            link_cluster: kept_numbers(links),
            link_weight: kept_floats(links),
            link: kept_numbers(4),
            weight: kept_floats(4),
        }
    }

    /// The call itself, with its refusal and the row that did not fit.
    pub fn build(&mut self) -> Result<lent::Built, Refused> {
        let emitters = Emitters {
            nc: self.nc,
            p: &self.cluster_p,
            n: &self.cluster_n,
            area: &self.cluster_area,
            radius: &self.cluster_radius,
        };
        let rows = RowColumns {
            starts: &mut self.starts,
            link_cluster: &mut self.link_cluster,
            link_weight: &mut self.link_weight,
        };
        lent::build(
            self.scene.tables(),
            self.bounds,
            self.n,
            &self.p,
            &self.normals,
            emitters,
            rows,
            &mut self.link,
            &mut self.weight,
        )
    }
}

impl Call for BuildCall {
    const ENTRY: &'static str = "build";
    const NUMBERS: &'static [u32] = &[2, 3, 4, 5, 6, 8];

    /// As many places for links as there are links.
    fn sound() -> BuildCall {
        let built = BuildCall::with_links(12).build().expect("n × nc links fit");
        BuildCall::with_links(built.links)
    }

    fn slots(&mut self) -> Vec<Slot<'_>> {
        let link_slot = |name, lent| Slot {
            name,
            role: Role::Write,
            short: Some(8),
            longer: true,
            lent,
        };
        let mut slots = self.scene.slots();
        slots.extend([
            Slot::read("p", Lent::Floats(&mut self.p)),
            Slot::read("normals", Lent::Floats(&mut self.normals)),
            Slot::read("cluster_p", Lent::Floats(&mut self.cluster_p)),
            Slot::read("cluster_n", Lent::Floats(&mut self.cluster_n)),
            Slot::read("cluster_area", Lent::Floats(&mut self.cluster_area)),
            Slot::read("cluster_radius", Lent::Floats(&mut self.cluster_radius)),
            Slot::write("starts", Lent::Numbers(&mut self.starts)),
            link_slot("link_cluster", Lent::Numbers(&mut self.link_cluster)),
            link_slot("link_weight", Lent::Floats(&mut self.link_weight)),
            Slot::scratch("link", Lent::Numbers(&mut self.link)),
            Slot::scratch("weight", Lent::Floats(&mut self.weight)),
        ]);
        slots
    }

    fn call(&mut self) -> Result<Vec<u32>, Refused> {
        let built = self.build()?;
        Ok(vec![
            built.links as u32,
            built.mean_row_sum.to_bits(),
            built.evals as u32,
        ])
    }

    fn mistakes() -> Vec<Mistake<BuildCall>> {
        let mut mistakes = over(&[
            ("n", |c: &mut BuildCall| &mut c.n, 400_000),
            ("nc", |c| &mut c.nc, 65_536),
        ]);
        mistakes.extend(within(
            |c: &mut BuildCall| &mut c.scene,
            SceneCase::mistakes(),
        ));
        mistakes.extend(within(|c: &mut BuildCall| &mut c.bounds, wrong_bounds()));
        let columns: [Ranged<BuildCall>; 6] = [
            ("p", |c| &mut c.p, -FAR, FAR),
            ("normals", |c| &mut c.normals, -FAR, FAR),
            ("cluster_p", |c| &mut c.cluster_p, -FAR, FAR),
            ("cluster_n", |c| &mut c.cluster_n, -FAR, FAR),
            ("cluster_area", |c| &mut c.cluster_area, 0.0, 1e12),
            ("cluster_radius", |c| &mut c.cluster_radius, 0.0, 1e6),
        ];
        mistakes.extend(outside(5, &columns));
        mistakes
    }
}
