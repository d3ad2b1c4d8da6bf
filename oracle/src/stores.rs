//! Surfels, clusters and rows as the port is lent them, and a scene: what the lines of
//! crates/replay_formfactor store. crates/stored_rows has as many places as there are here.

use crate::answers::word;
use crate::cases::Case;
use crate::tables::Tables;

pub const SURFELS: usize = 32;
pub const CLUSTERS: usize = 32;
pub const STARTS: usize = 36;
pub const LINKS: usize = 160;

/// How many places of each table a call for clusters is lent, in the order of the line
/// `lent_clusters`. More than there are means all.
#[derive(Clone, Copy, PartialEq, Eq)]
pub struct ClustersLent {
    pub p: usize,
    pub normals: usize,
    pub area: usize,
    pub cluster_p: usize,
    pub cluster_n: usize,
    pub cluster_area: usize,
    pub radius: usize,
    pub first: usize,
    pub count: usize,
    pub member: usize,
    pub order: usize,
    pub spare: usize,
}

impl ClustersLent {
    /// What a call for the clusters of so many surfels needs.
    pub fn need(n: usize) -> ClustersLent {
        ClustersLent {
            p: 3 * n,
            normals: 3 * n,
            area: n,
            cluster_p: 3 * n,
            cluster_n: 3 * n,
            cluster_area: n,
            radius: n,
            first: n,
            count: n,
            member: n,
            order: n,
            spare: n,
        }
    }

    pub fn words(self) -> Vec<u32> {
        let lengths = [
            self.p,
            self.normals,
            self.area,
            self.cluster_p,
            self.cluster_n,
            self.cluster_area,
            self.radius,
            self.first,
            self.count,
            self.member,
            self.order,
            self.spare,
        ];
        lengths.map(|length| length as u32).to_vec()
    }
}

/// How many places of each table a call for rows is lent, in the order of the line `lent_rows`.
#[derive(Clone, Copy, PartialEq, Eq)]
pub struct RowsLent {
    pub p: usize,
    pub normals: usize,
    pub cluster_p: usize,
    pub cluster_n: usize,
    pub cluster_area: usize,
    pub radius: usize,
    pub starts: usize,
    pub link_cluster: usize,
    pub link_weight: usize,
    pub link: usize,
    pub weight: usize,
}

impl RowsLent {
    /// What a call for the rows of so many surfels over so many clusters needs, with places for so
    /// many links, which are no need.
    pub fn need(n: usize, nc: usize, links: usize) -> RowsLent {
        RowsLent {
            p: 3 * n,
            normals: 3 * n,
            cluster_p: 3 * nc,
            cluster_n: 3 * nc,
            cluster_area: nc,
            radius: nc,
            starts: n + 1,
            link_cluster: links,
            link_weight: links,
            link: nc,
            weight: nc,
        }
    }

    pub fn words(self) -> Vec<u32> {
        let lengths = [
            self.p,
            self.normals,
            self.cluster_p,
            self.cluster_n,
            self.cluster_area,
            self.radius,
            self.starts,
            self.link_cluster,
            self.link_weight,
            self.link,
            self.weight,
        ];
        lengths.map(|length| length as u32).to_vec()
    }
}

/// What a place of scratch holds: nothing is known of it where a call may have written.
pub type Scratch = Option<u32>;

/// What is stored. Vectors are flat, three floats each.
pub struct Store {
    pub scene: Tables,
    pub p: [f32; 3 * SURFELS],
    pub normals: [f32; 3 * SURFELS],
    pub area: [f32; SURFELS],
    pub cluster_p: [f32; 3 * CLUSTERS],
    pub cluster_n: [f32; 3 * CLUSTERS],
    pub cluster_area: [f32; CLUSTERS],
    pub radius: [f32; CLUSTERS],
    pub first: [u32; CLUSTERS],
    pub count: [u32; CLUSTERS],
    pub member: [u32; SURFELS],
    pub order: [Scratch; SURFELS],
    pub spare: [Scratch; SURFELS],
    pub starts: [u32; STARTS],
    pub link_cluster: [u32; LINKS],
    pub link_weight: [f32; LINKS],
    pub link: [Scratch; CLUSTERS],
    pub weight: [Scratch; CLUSTERS],
    pub clusters_lent: ClustersLent,
    pub rows_lent: RowsLent,
}

impl Store {
    /// As the program starts: every word is zero, and nothing is lent.
    pub fn new() -> Store {
        Store {
            scene: Tables::new(),
            p: [0.0; 3 * SURFELS],
            normals: [0.0; 3 * SURFELS],
            area: [0.0; SURFELS],
            cluster_p: [0.0; 3 * CLUSTERS],
            cluster_n: [0.0; 3 * CLUSTERS],
            cluster_area: [0.0; CLUSTERS],
            radius: [0.0; CLUSTERS],
            first: [0; CLUSTERS],
            count: [0; CLUSTERS],
            member: [0; SURFELS],
            order: [Some(0); SURFELS],
            spare: [Some(0); SURFELS],
            starts: [0; STARTS],
            link_cluster: [0; LINKS],
            link_weight: [0.0; LINKS],
            link: [Some(0); CLUSTERS],
            weight: [Some(0); CLUSTERS],
            clusters_lent: ClustersLent::need(0),
            rows_lent: RowsLent {
                starts: 0,
                ..RowsLent::need(0, 0, 0)
            },
        }
    }

    /// Stores what the case stores, nothing where it names a place that is not there. Whether it is
    /// a case that stores: else it is a question.
    pub fn store(&mut self, case: &Case) -> bool {
        let words = &case.operands;
        match case.name {
            "lent_clusters" => self.lend_clusters(words),
            "lent_rows" => self.lend_rows(words),
            "fill_clusters" => self.fill_clusters(words[0]),
            "fill_rows" => self.fill_rows(words[0]),
            name => {
                return match self.table(name) {
                    Some(table) => {
                        let floats = words[1..].iter().copied().map(f32::from_bits);
                        let places = table.iter_mut().skip(words[0] as usize);
                        places.zip(floats).for_each(|(place, x)| *place = x);
                        true
                    }
                    None => self.scene.store(case),
                }
            }
        }
        true
    }

    fn lend_clusters(&mut self, words: &[u32]) {
        let length = |k: usize, places: usize| places.min(words[k] as usize);
        self.clusters_lent = ClustersLent {
            p: length(0, self.p.len()),
            normals: length(1, self.normals.len()),
            area: length(2, self.area.len()),
            cluster_p: length(3, self.cluster_p.len()),
            cluster_n: length(4, self.cluster_n.len()),
            cluster_area: length(5, self.cluster_area.len()),
            radius: length(6, self.radius.len()),
            first: length(7, self.first.len()),
            count: length(8, self.count.len()),
            member: length(9, self.member.len()),
            order: length(10, self.order.len()),
            spare: length(11, self.spare.len()),
        };
    }

    fn lend_rows(&mut self, words: &[u32]) {
        let length = |k: usize, places: usize| places.min(words[k] as usize);
        self.rows_lent = RowsLent {
            p: length(0, self.p.len()),
            normals: length(1, self.normals.len()),
            cluster_p: length(2, self.cluster_p.len()),
            cluster_n: length(3, self.cluster_n.len()),
            cluster_area: length(4, self.cluster_area.len()),
            radius: length(5, self.radius.len()),
            starts: length(6, self.starts.len()),
            link_cluster: length(7, self.link_cluster.len()),
            link_weight: length(8, self.link_weight.len()),
            link: length(9, self.link.len()),
            weight: length(10, self.weight.len()),
        };
    }

    /// One word in every place that a call for clusters can write.
    fn fill_clusters(&mut self, w: u32) {
        let x = f32::from_bits(w);
        self.cluster_p.fill(x);
        self.cluster_n.fill(x);
        self.cluster_area.fill(x);
        self.radius.fill(x);
        self.first.fill(w);
        self.count.fill(w);
        self.member.fill(w);
        self.order.fill(Some(w));
        self.spare.fill(Some(w));
    }

    /// One word in every place that a call for rows can write.
    fn fill_rows(&mut self, w: u32) {
        self.starts.fill(w);
        self.link_cluster.fill(w);
        self.link_weight.fill(f32::from_bits(w));
        self.link.fill(Some(w));
        self.weight.fill(Some(w));
    }

    /// What the table holds that the line puts words into.
    pub fn words(&mut self, name: &str) -> Vec<u32> {
        let table = self.table(name).expect("a table");
        table.iter().copied().map(word).collect()
    }

    fn table(&mut self, name: &str) -> Option<&mut [f32]> {
        Some(match name {
            "put_p" => &mut self.p,
            "put_normals" => &mut self.normals,
            "put_area" => &mut self.area,
            "put_cluster_p" => &mut self.cluster_p,
            "put_cluster_n" => &mut self.cluster_n,
            "put_cluster_area" => &mut self.cluster_area,
            "put_radius" => &mut self.radius,
            _ => return None,
        })
    }
}
