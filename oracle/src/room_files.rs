//! A room as a room file holds it, and the file's bytes.

use interflect::formfactor::Transfer;
use interflect::surfel::Surfel;
use interflect::Vec3;

/// A surfel: thirteen floats.
#[derive(Clone, Copy)]
pub struct Patch {
    pub p: Vec3,
    pub n: Vec3,
    pub albedo: Vec3,
    pub area: f32,
    pub direct: Vec3,
}

/// A cluster: its area, where its members begin, and how many they are.
#[derive(Clone, Copy)]
pub struct Emitter {
    pub area: f32,
    pub first: u32,
    pub count: u32,
}

/// A link: to which cluster, and its weight.
#[derive(Clone, Copy)]
pub struct Link {
    pub cluster: u32,
    pub weight: f32,
}

/// A place where light is read.
#[derive(Clone, Copy)]
pub struct Probe {
    pub p: Vec3,
    pub n: Vec3,
}

/// All that a room file says. Nothing holds it to being a room that is accepted.
#[derive(Clone)]
pub struct RoomFile {
    pub limit: u32,
    pub surfels: Vec<Patch>,
    pub clusters: Vec<Emitter>,
    pub members: Vec<u32>,
    pub starts: Vec<u32>,
    pub links: Vec<Link>,
    pub lo: Vec3,
    pub hi: Vec3,
    pub cell: f32,
    pub radius: f32,
    pub probes: Vec<Probe>,
}

impl RoomFile {
    /// Room Q: "one surfel at 0 0 0, normal 0 0 1, albedo 0.5, area 1, direct 1; one cluster, area 1,
    /// member 0; one link of weight 0.5; limit 12; lo 0 0 0, hi 4 1 1, cell 1, radius 1; probes at
    /// 0 0 0 and 1 0 0, normal 0 0 1".
    pub fn q() -> RoomFile {
        let up = Vec3::new(0.0, 0.0, 1.0);
        let patch = Patch {
            p: Vec3::ZERO,
            n: up,
            albedo: Vec3::splat(0.5),
            area: 1.0,
            direct: Vec3::ONE,
        };
        let probe = |x| Probe {
            p: Vec3::new(x, 0.0, 0.0),
            n: up,
        };
        let hi = Vec3::new(4.0, 1.0, 1.0);
        let mut room = RoomFile::empty(Vec3::ZERO, hi, 1.0, 1.0);
        room.limit = 12;
        room.surfels = vec![patch];
        room.set_clusters(&[(1.0, vec![0])]);
        room.set_rows(&[vec![(0, 0.5)]]);
        room.probes = vec![probe(0.0), probe(1.0)];
        room
    }

    /// No surfels, clusters, links and probes, and a limit of 0.
    pub fn empty(lo: Vec3, hi: Vec3, cell: f32, radius: f32) -> RoomFile {
        RoomFile {
            limit: 0,
            surfels: Vec::new(),
            clusters: Vec::new(),
            members: Vec::new(),
            starts: vec![0],
            links: Vec::new(),
            lo,
            hi,
            cell,
            radius,
            probes: Vec::new(),
        }
    }

    /// These surfels with their direct light, and these clusters and rows.
    pub fn set_transfer(&mut self, surfels: &[Surfel], transfer: &Transfer) {
        let patch = |s: &Surfel| Patch {
            p: s.p,
            n: s.n,
            albedo: s.albedo,
            area: s.area,
            direct: s.direct,
        };
        self.surfels = surfels.iter().map(patch).collect();
        let members = transfer
            .clusters
            .iter()
            .map(|c| (c.area, c.members.clone()));
        self.set_clusters(&members.collect::<Vec<_>>());
        let links = transfer.idx.iter().zip(&transfer.w);
        self.starts = transfer.starts.clone();
        self.links = links
            .map(|(&cluster, &weight)| Link { cluster, weight })
            .collect();
    }

    /// Clusters of these areas and members, one after the other.
    pub fn set_clusters(&mut self, clusters: &[(f32, Vec<u32>)]) {
        self.clusters.clear();
        self.members.clear();
        for (area, members) in clusters {
            self.clusters.push(Emitter {
                area: *area,
                first: self.members.len() as u32,
                count: members.len() as u32,
            });
            self.members.extend(members);
        }
    }

    /// Rows of these links, one after the other.
    pub fn set_rows(&mut self, rows: &[Vec<(u32, f32)>]) {
        self.starts = vec![0];
        self.links.clear();
        for row in rows {
            let links = row
                .iter()
                .map(|&(cluster, weight)| Link { cluster, weight });
            self.links.extend(links);
            self.starts.push(self.links.len() as u32);
        }
    }

    /// The file's words: the header, then the six blocks, each where the one before it ends.
    pub fn words(&self) -> Vec<u32> {
        let blocks = self.blocks();
        let mut words = self.counts();
        let mut end = 64;
        for block in &blocks {
            words.push(end);
            end += 4 * block.len() as u32;
        }
        words.extend([end, 0, 0]);
        words.extend(blocks.iter().flatten());
        words
    }

    /// The file's bytes: each word with its lowest byte first.
    pub fn bytes(&self) -> Vec<u8> {
        bytes_of(&self.words())
    }

    /// The first seven words: the form, the five counts and the limit.
    fn counts(&self) -> Vec<u32> {
        let counts = [
            self.surfels.len(),
            self.clusters.len(),
            self.members.len(),
            self.links.len(),
            self.probes.len(),
        ];
        let mut words = vec![1];
        words.extend(counts.map(|count| count as u32));
        words.push(self.limit);
        words
    }

    fn blocks(&self) -> [Vec<u32>; 6] {
        let cluster = |c: &Emitter| [c.area.to_bits(), c.first, c.count];
        let link = |l: &Link| [l.cluster, l.weight.to_bits()];
        [
            self.surfels.iter().flat_map(patch_words).collect(),
            self.clusters.iter().flat_map(cluster).collect(),
            self.members.clone(),
            self.starts.clone(),
            self.links.iter().flat_map(link).collect(),
            self.probe_words(),
        ]
    }

    fn probe_words(&self) -> Vec<u32> {
        let sizes = [self.cell, self.radius].map(f32::to_bits);
        let mut words = [bits(self.lo), bits(self.hi)].concat();
        words.extend(sizes);
        for probe in &self.probes {
            words.extend([bits(probe.p), bits(probe.n)].concat());
        }
        words
    }
}

fn patch_words(s: &Patch) -> Vec<u32> {
    let area = [s.area.to_bits()];
    let parts: [&[u32]; 5] = [
        &bits(s.p),
        &bits(s.n),
        &bits(s.albedo),
        &area,
        &bits(s.direct),
    ];
    parts.concat()
}

fn bits(v: Vec3) -> [u32; 3] {
    [v.x, v.y, v.z].map(f32::to_bits)
}

/// The bytes of words, the lowest byte of each first.
pub fn bytes_of(words: &[u32]) -> Vec<u8> {
    words.iter().flat_map(|word| word.to_le_bytes()).collect()
}
