//! The cases of crates/replay_formfactor: which surfels, clusters and scenes are stored, and what is
//! asked about each.

mod buckets;
mod cluster_limits;
mod full;
mod linked;
mod pairs;
mod row_limits;
mod sums;
mod voxels;

use crate::answers::word;
use crate::cases::{others, Case};
use crate::random::Random;
use crate::scene_cases::rooms::{direction, point};
use crate::scene_cases::{at, plane, sphere, Room};
use crate::stores::{ClustersLent, RowsLent, Store, CLUSTERS, LINKS, STARTS, SURFELS};
use crate::transfers::{self, ClustersTold, RowsTold};
pub(crate) use cluster_limits::{ends, put};
use interflect::Vec3;
use std::collections::HashMap;

const NAN: f32 = f32::NAN;
const INF: f32 = f32::INFINITY;
const LEAST: f32 = f32::from_bits(1);

/// All cases of crates/replay_formfactor, in the order of its file stdin.
pub fn all() -> Vec<Case> {
    let mut script = Script::new();
    buckets::write(&mut script);
    voxels::write(&mut script);
    sums::write(&mut script);
    cluster_limits::write(&mut script);
    linked::write(&mut script);
    pairs::write(&mut script);
    full::write(&mut script);
    row_limits::write(&mut script);
    script.list
}

/// A surfel as these calls take it.
#[derive(Clone, Copy)]
struct Patch {
    p: Vec3,
    n: Vec3,
    area: f32,
}

fn patch(p: Vec3, n: Vec3, area: f32) -> Patch {
    Patch { p, n, area }
}

/// A cluster as a call for rows takes it.
#[derive(Clone, Copy)]
struct Emitter {
    p: Vec3,
    n: Vec3,
    area: f32,
    radius: f32,
}

fn emitter(p: Vec3, n: Vec3, area: f32, radius: f32) -> Emitter {
    Emitter { p, n, area, radius }
}

/// The bounds of a scene.
#[derive(Clone, Copy)]
struct Bounds {
    lo: Vec3,
    hi: Vec3,
}

impl Bounds {
    /// From minus this size to this size on each axis.
    fn within(size: f32) -> Bounds {
        Bounds {
            lo: Vec3::splat(-size),
            hi: Vec3::splat(size),
        }
    }

    fn clusters(self, n: usize, res: u32) -> ClustersTold {
        ClustersTold {
            n: n as u32,
            res,
            lo: self.lo,
            hi: self.hi,
        }
    }

    fn rows(self, n: usize, nc: usize) -> RowsTold {
        RowsTold {
            n: n as u32,
            nc: nc as u32,
            lo: self.lo,
            hi: self.hi,
        }
    }
}

const UP: Vec3 = Vec3::new(0.0, 0.0, 1.0);
const DOWN: Vec3 = Vec3::new(0.0, 0.0, -1.0);

/// Normals along the axes, in the order of the buckets.
pub const AXES: [Vec3; 6] = [
    Vec3::new(1.0, 0.0, 0.0),
    Vec3::new(-1.0, 0.0, 0.0),
    Vec3::new(0.0, 1.0, 0.0),
    Vec3::new(0.0, -1.0, 0.0),
    UP,
    DOWN,
];

/// A room closed by six planes, this far from the middle.
pub fn closed(size: f32) -> Room {
    let mut room = Room::default();
    for (mat, n) in (0..).zip(AXES) {
        room.add(plane(n, -size), &[], mat);
    }
    room
}

fn flat(vectors: impl Iterator<Item = Vec3>) -> Vec<u32> {
    vectors.flat_map(|v| [v.x, v.y, v.z]).map(word).collect()
}

/// Whether a length is less than it need be.
fn short(lent: Vec<u32>, need: Vec<u32>) -> bool {
    lent.iter().zip(&need).any(|(lent, need)| lent < need)
}

/// The lines so far, the tables as they stand after them, and what was last stored of the scene.
struct Script {
    list: Vec<Case>,
    store: Store,
    scene: HashMap<(&'static str, u32), Vec<u32>>,
    fills: u32,
    /// How many calls were made with other lengths than the last.
    lengths: usize,
}

impl Script {
    fn new() -> Script {
        Script {
            list: Vec::new(),
            store: Store::new(),
            scene: HashMap::new(),
            fills: 0,
            lengths: 0,
        }
    }

    /// A line that stores.
    fn put(&mut self, name: &'static str, operands: Vec<u32>) {
        let case = Case { name, operands };
        assert!(self.store.store(&case));
        self.list.push(case);
    }

    /// Puts words into a table from place 0 on: lines for the places that hold other words.
    fn table(&mut self, name: &'static str, words: &[u32]) {
        for places in others(&self.store.words(name), words) {
            let first = places.start as u32;
            self.put(name, [&[first], &words[places]].concat());
        }
    }

    /// Puts one float at a place of a table.
    fn poke(&mut self, name: &'static str, place: usize, x: f32) {
        self.put(name, vec![place as u32, word(x)]);
    }

    /// Stores a scene, but for the parts of it that are stored already.
    fn scene(&mut self, room: &Room) {
        for line in room.lines() {
            self.scene_line(line);
        }
    }

    fn scene_line(&mut self, line: Case) {
        let place = match line.name {
            "counts" => 0,
            _ => line.operands[0],
        };
        let last = self.scene.insert((line.name, place), line.operands.clone());
        if last.as_ref() != Some(&line.operands) {
            self.put(line.name, line.operands);
        }
    }

    fn surfels(&mut self, list: &[Patch]) {
        self.table("put_p", &flat(list.iter().map(|s| s.p)));
        self.table("put_normals", &flat(list.iter().map(|s| s.n)));
        let areas: Vec<u32> = list.iter().map(|s| word(s.area)).collect();
        self.table("put_area", &areas);
    }

    fn emitters(&mut self, list: &[Emitter]) {
        self.table("put_cluster_p", &flat(list.iter().map(|c| c.p)));
        self.table("put_cluster_n", &flat(list.iter().map(|c| c.n)));
        let areas: Vec<u32> = list.iter().map(|c| word(c.area)).collect();
        self.table("put_cluster_area", &areas);
        let radii: Vec<u32> = list.iter().map(|c| word(c.radius)).collect();
        self.table("put_radius", &radii);
    }

    fn lend_clusters(&mut self, lent: ClustersLent) {
        if self.store.clusters_lent != lent {
            self.put("lent_clusters", lent.words());
        }
    }

    fn lend_rows(&mut self, lent: RowsLent) {
        if self.store.rows_lent != lent {
            self.put("lent_rows", lent.words());
        }
    }

    /// A word that no fill before had: a number above every count, and a large float.
    fn fill(&mut self, name: &'static str) {
        self.fills += 1;
        self.put(name, vec![0x4F00_0000 + self.fills]);
    }

    /// A question; what it answers.
    fn ask(&mut self, name: &'static str, operands: Vec<u32>) -> Vec<u32> {
        let case = Case { name, operands };
        let answer = transfers::answer(&mut self.store, &case);
        self.list.push(case);
        answer
    }

    /// What a call left: scratch from this place on.
    fn show(&mut self, name: &'static str, from: u32) {
        self.list.push(Case {
            name,
            operands: vec![from],
        });
    }

    /// A call for clusters after a fill, and what it leaves; what it answers.
    fn clusters(&mut self, told: ClustersTold) -> Vec<u32> {
        self.fill("fill_clusters");
        let answer = self.ask("clusters", told.words());
        let open = if answer[0] == 0 { told.n } else { 0 };
        self.show("show_clusters", open);
        answer
    }

    /// A call for rows after a fill, and what it leaves; what it answers.
    fn rows(&mut self, told: RowsTold) -> Vec<u32> {
        self.fill("fill_rows");
        let answer = self.ask("rows", told.words());
        let open = match answer[0] {
            0 | 8 => told.nc,
            _ => 0,
        };
        self.show("show_rows", open);
        answer
    }

    /// The clusters of these surfels; how many there are. The tables are lent as they were if they
    /// are long enough, at their need, or longer, each in its turn.
    fn grouped(&mut self, list: &[Patch], bounds: Bounds, res: u32) -> usize {
        self.surfels(list);
        self.lengths += 1;
        let n = list.len();
        let wide = SURFELS.min(n + self.lengths % 3);
        match self.lengths % 4 {
            0 => self.lend_clusters(ClustersLent::need(n)),
            1 => self.lend_clusters(ClustersLent {
                cluster_n: 3 * wide,
                count: wide,
                order: wide,
                ..ClustersLent::need(SURFELS.min(n + 1))
            }),
            _ if short(
                self.store.clusters_lent.words(),
                ClustersLent::need(n).words(),
            ) =>
            {
                self.lend_clusters(ClustersLent::need(SURFELS.min(n + 2)));
            }
            _ => {}
        }
        let answer = self.clusters(bounds.clusters(n, res));
        assert_eq!(answer[0], 0);
        answer[1] as usize
    }

    /// The rows of the first n surfels over the first nc clusters that are stored; the answer. The
    /// tables are lent as in `grouped`, with places for all links.
    fn linked(&mut self, bounds: Bounds, n: usize, nc: usize) -> Vec<u32> {
        self.lengths += 1;
        let more = self.lengths % 3;
        let most = LINKS.min(n * nc + more);
        let need = RowsLent::need(n, nc, most);
        let wide = RowsLent {
            starts: STARTS.min(n + 1 + more),
            link_weight: LINKS.min(most + 1),
            link: CLUSTERS.min(nc + more),
            ..RowsLent::need(SURFELS.min(n + more), CLUSTERS.min(nc + 1), most)
        };
        match self.lengths % 4 {
            0 => self.lend_rows(need),
            1 => self.lend_rows(wide),
            _ if short(self.store.rows_lent.words(), need.words()) => self.lend_rows(wide),
            _ => {}
        }
        let answer = self.rows(bounds.rows(n, nc));
        assert_eq!(answer[0], 0);
        answer
    }
}
