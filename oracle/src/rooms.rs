//! A room as the port is lent it for a solve and a reset: what the lines of crates/replay_solve store.
//! crates/stored_room has as many places as there are here.

use crate::answers::word;
use crate::cases::Case;

pub const SURFELS: usize = 12;
pub const CLUSTERS: usize = 8;
pub const MEMBERS: usize = 32;
pub const STARTS: usize = 16;
pub const LINKS: usize = 64;

/// How many places of each table a solve is lent, in the order of the line `lent`. More than there
/// are means all.
#[derive(Clone, Copy, PartialEq, Eq)]
pub struct Lent {
    pub albedo: usize,
    pub area: usize,
    pub direct: usize,
    pub cluster_area: usize,
    pub first: usize,
    pub count: usize,
    pub member: usize,
    pub starts: usize,
    pub link_cluster: usize,
    pub link_weight: usize,
    pub irr: usize,
    pub rad: usize,
    pub scratch: usize,
}

impl Lent {
    /// All places.
    pub const ALL: Lent = Lent {
        albedo: 3 * SURFELS,
        area: SURFELS,
        direct: 3 * SURFELS,
        cluster_area: CLUSTERS,
        first: CLUSTERS,
        count: CLUSTERS,
        member: MEMBERS,
        starts: STARTS,
        link_cluster: LINKS,
        link_weight: LINKS,
        irr: 3 * SURFELS,
        rad: 3 * SURFELS,
        scratch: 3 * CLUSTERS,
    };

    pub fn words(self) -> Vec<u32> {
        let lengths = [
            self.albedo,
            self.area,
            self.direct,
            self.cluster_area,
            self.first,
            self.count,
            self.member,
            self.starts,
            self.link_cluster,
            self.link_weight,
            self.irr,
            self.rad,
            self.scratch,
        ];
        lengths.map(|length| length as u32).to_vec()
    }
}

/// What is stored. Vectors are flat, three floats each; `light` is what a reset is given.
pub struct Room {
    pub albedo: [f32; 3 * SURFELS],
    pub area: [f32; SURFELS],
    pub direct: [f32; 3 * SURFELS],
    pub cluster_area: [f32; CLUSTERS],
    pub first: [u32; CLUSTERS],
    pub count: [u32; CLUSTERS],
    pub member: [u32; MEMBERS],
    pub starts: [u32; STARTS],
    pub link_cluster: [u32; LINKS],
    pub link_weight: [f32; LINKS],
    pub irr: [f32; 3 * SURFELS],
    pub rad: [f32; 3 * SURFELS],
    pub scratch: [f32; 3 * CLUSTERS],
    pub light: [f32; 3 * SURFELS],
    pub lent: Lent,
}

impl Room {
    /// As the program starts: every word is zero, and nothing is lent.
    pub fn new() -> Room {
        let mut room = Room {
            albedo: [0.0; 3 * SURFELS],
            area: [0.0; SURFELS],
            direct: [0.0; 3 * SURFELS],
            cluster_area: [0.0; CLUSTERS],
            first: [0; CLUSTERS],
            count: [0; CLUSTERS],
            member: [0; MEMBERS],
            starts: [0; STARTS],
            link_cluster: [0; LINKS],
            link_weight: [0.0; LINKS],
            irr: [0.0; 3 * SURFELS],
            rad: [0.0; 3 * SURFELS],
            scratch: [0.0; 3 * CLUSTERS],
            light: [0.0; 3 * SURFELS],
            lent: Lent::ALL,
        };
        room.lend(&[0; 13]);
        room
    }

    /// Stores what the case stores, nothing where it names a place that is not there. Whether it is
    /// a case that stores: else it is a question.
    pub fn store(&mut self, case: &Case) -> bool {
        let words = &case.operands;
        let x = f32::from_bits(words[0]);
        match case.name {
            "lent" => self.lend(words),
            "fill" => {
                self.irr.fill(x);
                self.rad.fill(x);
                self.scratch.fill(x);
            }
            "fill_direct" => self.direct.fill(x),
            name => return self.put(name, words[0] as usize, &words[1..]),
        }
        true
    }

    fn lend(&mut self, words: &[u32]) {
        let length = |k: usize, places: usize| places.min(words[k] as usize);
        self.lent = Lent {
            albedo: length(0, self.albedo.len()),
            area: length(1, self.area.len()),
            direct: length(2, self.direct.len()),
            cluster_area: length(3, self.cluster_area.len()),
            first: length(4, self.first.len()),
            count: length(5, self.count.len()),
            member: length(6, self.member.len()),
            starts: length(7, self.starts.len()),
            link_cluster: length(8, self.link_cluster.len()),
            link_weight: length(9, self.link_weight.len()),
            irr: length(10, self.irr.len()),
            rad: length(11, self.rad.len()),
            scratch: length(12, self.scratch.len()),
        };
    }

    /// Puts words into the table that the line names, from place `at` on, as far as there are
    /// places. Whether there is such a table.
    fn put(&mut self, name: &str, at: usize, words: &[u32]) -> bool {
        match self.table(name) {
            Some(Table::Numbers(table)) => put_from(table, at, words.iter().copied()),
            Some(Table::Floats(table)) => {
                put_from(table, at, words.iter().copied().map(f32::from_bits));
            }
            None => return false,
        }
        true
    }

    /// What the table holds that the line puts words into.
    pub fn words(&mut self, name: &str) -> Vec<u32> {
        match self.table(name).expect("a table") {
            Table::Numbers(table) => table.to_vec(),
            Table::Floats(table) => table.iter().copied().map(word).collect(),
        }
    }

    fn table(&mut self, name: &str) -> Option<Table<'_>> {
        Some(match name {
            "put_albedo" => Table::Floats(&mut self.albedo),
            "put_area" => Table::Floats(&mut self.area),
            "put_direct" => Table::Floats(&mut self.direct),
            "put_cluster_area" => Table::Floats(&mut self.cluster_area),
            "put_first" => Table::Numbers(&mut self.first),
            "put_count" => Table::Numbers(&mut self.count),
            "put_member" => Table::Numbers(&mut self.member),
            "put_starts" => Table::Numbers(&mut self.starts),
            "put_link_cluster" => Table::Numbers(&mut self.link_cluster),
            "put_link_weight" => Table::Floats(&mut self.link_weight),
            "put_irr" => Table::Floats(&mut self.irr),
            "put_rad" => Table::Floats(&mut self.rad),
            "put_light" => Table::Floats(&mut self.light),
            _ => return None,
        })
    }
}

enum Table<'a> {
    Numbers(&'a mut [u32]),
    Floats(&'a mut [f32]),
}

/// Puts entries one after the other, from place `at` on, as far as there are places.
fn put_from<T>(table: &mut [T], at: usize, entries: impl Iterator<Item = T>) {
    for (place, entry) in table.iter_mut().skip(at).zip(entries) {
        *place = entry;
    }
}
