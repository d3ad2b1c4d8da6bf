//! Document 01's paragraph "The room file and `roomlight`" and the rows of its table "Refused calls"
//! that touch a room file, written from its text, but for two readings of ours: the length word and
//! the number of bytes both equal what the counts give, and probes count as points. Rows 6 and 8 speak
//! of scenes and rows in the making that a room file does not have.

use crate::room_files::{Emitter, Link, Patch, Probe, RoomFile};
use interflect::Vec3;
use std::ops::RangeInclusive;

/// How long a file may be, and how many places there are for the starts of its grid.
#[derive(Clone, Copy)]
pub struct Limits {
    pub bytes: usize,
    pub starts: usize,
}

/// "in `roomlight` over 65,536", "It has 16,384 places for grid starts".
pub const ROOMLIGHT: Limits = Limits {
    bytes: 65_536,
    starts: 16_384,
};

/// "over 268,435,456"; reading a file builds no grid.
pub const FILE: Limits = Limits {
    bytes: 268_435_456,
    starts: usize::MAX,
};

/// The room that the bytes hold, or the number that refuses them.
pub fn read(bytes: &[u8], limits: Limits) -> Result<RoomFile, u32> {
    read_where(bytes, limits, |room| cells(room) < limits.starts)
}

/// The same of any file that is read into columns of which so many places are lent.
pub fn read_into(bytes: &[u8], lent: &[usize; 14]) -> Result<RoomFile, u32> {
    let holds = |room: &RoomFile| {
        needs(room)
            .iter()
            .zip(lent)
            .all(|(need, lent)| need <= lent)
    };
    read_where(bytes, FILE, holds)
}

/// "a result slice holds target, n or point entries (...; starts one more than rows or cells ...)": how
/// many places the columns need. p, normals, albedo, area, direct; the clusters' area, first member and
/// count; the members; the rows' starts; the links' cluster and weight; the probes' p and normals.
pub fn needs(room: &RoomFile) -> [usize; 14] {
    let (n, nc) = (room.surfels.len(), room.clusters.len());
    let (links, probes) = (room.links.len(), room.probes.len());
    let members = room.members.len();
    [
        3 * n,
        3 * n,
        3 * n,
        n,
        3 * n,
        nc,
        nc,
        nc,
        members,
        n + 1,
        links,
        links,
        3 * probes,
        3 * probes,
    ]
}

/// "If several apply, the lowest number is returned." A row is asked only where those before it do not
/// apply. The call's own test of 4 is given.
fn read_where(
    bytes: &[u8],
    limits: Limits,
    holds: impl Fn(&RoomFile) -> bool,
) -> Result<RoomFile, u32> {
    let counts = counts(bytes, limits).ok_or(1u32)?;
    if counts.too_many() {
        return Err(2);
    }
    let room = room(bytes, counts);
    if !bounded(&room) {
        Err(3)
    } else if !holds(&room) {
        Err(4)
    } else if !in_range(&room) {
        Err(5)
    } else if rows_misfit(&room) || members_misfit(&room) {
        Err(7)
    } else {
        Ok(room)
    }
}

/// "counts of surfels, clusters, members, links, probes; bounce limit".
#[derive(Clone, Copy)]
struct Counts {
    surfels: u64,
    clusters: u64,
    members: u64,
    links: u64,
    probes: u64,
    limit: u64,
}

impl Counts {
    /// 2: "surfels, members, points or target over 400,000; clusters over 65,536; ... bounces over
    /// 4,096; links over 16,777,216".
    fn too_many(self) -> bool {
        self.surfels > 400_000
            || self.members > 400_000
            || self.probes > 400_000
            || self.clusters > 65_536
            || self.limit > 4_096
            || self.links > 16_777_216
    }

    /// How many words each block has: "surfel p, n, albedo, area, direct (13 floats); cluster area,
    /// member start, member count; members; row starts; links (cluster, weight); lo, hi, cell, radius,
    /// then p, n per probe". Starts are "one more than rows".
    fn sizes(self) -> [u64; 6] {
        [
            13 * self.surfels,
            3 * self.clusters,
            self.members,
            self.surfels + 1,
            2 * self.links,
            8 + 6 * self.probes,
        ]
    }
}

/// The counts of a file whose header is as it should be, by what passes 1: "room file: shorter than 64
/// bytes, over 268,435,456 (in `roomlight` over 65,536), form not 1, a spare word not zero, an offset
/// or the length not what the counts give". Sizes are summed in 64 bits.
fn counts(bytes: &[u8], limits: Limits) -> Option<Counts> {
    if bytes.len() < 64 || bytes.len() > limits.bytes {
        return None;
    }
    let header: Vec<u64> = (0..16).map(|k| u64::from(word(bytes, k))).collect();
    let counts = Counts {
        surfels: header[1],
        clusters: header[2],
        members: header[3],
        links: header[4],
        probes: header[5],
        limit: header[6],
    };
    let mut end = 64;
    for (offset, size) in header[7..13].iter().zip(counts.sizes()) {
        if *offset != end {
            return None;
        }
        end += 4 * size;
    }
    let is_sound =
        header[0] == 1 && header[13] == end && bytes.len() as u64 == end && header[14..] == [0, 0];
    is_sound.then_some(counts)
}

/// Word k of the file: "Little-endian 32-bit words".
fn word(bytes: &[u8], k: usize) -> u32 {
    let four = [0, 1, 2, 3].map(|i| bytes[4 * k + i]);
    u32::from_le_bytes(four)
}

/// The words of a file, one after the other.
struct Words<'a> {
    bytes: &'a [u8],
    next: usize,
}

impl Words<'_> {
    fn number(&mut self) -> u32 {
        self.next += 1;
        word(self.bytes, self.next - 1)
    }

    fn float(&mut self) -> f32 {
        f32::from_bits(self.number())
    }

    fn vector(&mut self) -> Vec3 {
        let [x, y, z] = [(); 3].map(|()| self.float());
        Vec3::new(x, y, z)
    }

    /// What so many entries hold, each read by `entry`.
    fn table<T>(&mut self, entries: u64, entry: impl Fn(&mut Self) -> T) -> Vec<T> {
        (0..entries).map(|_| entry(self)).collect()
    }
}

/// The blocks, "from byte 64, in order, no gaps". For bytes that have as many as the counts give.
fn room(bytes: &[u8], counts: Counts) -> RoomFile {
    let mut w = Words { bytes, next: 16 };
    RoomFile {
        limit: counts.limit as u32,
        surfels: w.table(counts.surfels, |w| Patch {
            p: w.vector(),
            n: w.vector(),
            albedo: w.vector(),
            area: w.float(),
            direct: w.vector(),
        }),
        clusters: w.table(counts.clusters, |w| Emitter {
            area: w.float(),
            first: w.number(),
            count: w.number(),
        }),
        members: w.table(counts.members, Words::number),
        starts: w.table(counts.surfels + 1, Words::number),
        links: w.table(counts.links, |w| Link {
            cluster: w.number(),
            weight: w.float(),
        }),
        lo: w.vector(),
        hi: w.vector(),
        cell: w.float(),
        radius: w.float(),
        probes: w.table(counts.probes, |w| Probe {
            p: w.vector(),
            n: w.vector(),
        }),
    }
}

/// "coordinates, normals and plane heights ±10,000".
const COORDINATE: RangeInclusive<f32> = -10_000.0..=10_000.0;

/// "surfel area, direct and cluster radius 0..1,000,000".
const AMOUNT: RangeInclusive<f32> = 0.0..=1_000_000.0;

/// Whether all floats are in the range. No range has a NaN.
fn all(range: RangeInclusive<f32>, floats: &[f32]) -> bool {
    floats.iter().all(|x| range.contains(x))
}

fn floats(v: Vec3) -> [f32; 3] {
    [v.x, v.y, v.z]
}

/// 3, by what passes: "lo above hi on an axis or beyond 10,000 in size; cell outside 0.0001..10,000;
/// radius outside 0..10,000; ... a NaN in any of these".
fn bounded(room: &RoomFile) -> bool {
    let (lo, hi) = (floats(room.lo), floats(room.hi));
    all(COORDINATE, &lo)
        && all(COORDINATE, &hi)
        && lo.iter().zip(&hi).all(|(lo, hi)| lo <= hi)
        && (0.0001..=10_000.0).contains(&room.cell)
        && (0.0..=10_000.0).contains(&room.radius)
}

/// How many cells the Rust's `Grid::build` has, in its steps; it is not asked, since it makes them
/// all. For a box that passes 3.
pub fn cells(room: &RoomFile) -> usize {
    let inv_cell = 1.0 / room.cell;
    let ext = floats(room.hi - room.lo);
    let dim = ext.map(|e| ((e * inv_cell).ceil() as i32).clamp(1, 512) as usize);
    dim.iter().product()
}

/// 5, by what passes: "coordinates, normals ... ±10,000; albedo and metallic 0..1; surfel area, direct
/// ... 0..1,000,000; cluster area 0..1e12; weight 0..2".
fn in_range(room: &RoomFile) -> bool {
    let surfel = |s: &Patch| {
        all(COORDINATE, &floats(s.p))
            && all(COORDINATE, &floats(s.n))
            && all(0.0..=1.0, &floats(s.albedo))
            && all(AMOUNT, &[s.area])
            && all(AMOUNT, &floats(s.direct))
    };
    let probe = |p: &Probe| all(COORDINATE, &floats(p.p)) && all(COORDINATE, &floats(p.n));
    room.surfels.iter().all(surfel)
        && room.clusters.iter().all(|c| all(0.0..=1e12, &[c.area]))
        && room.links.iter().all(|l| all(0.0..=2.0, &[l.weight]))
        && room.probes.iter().all(probe)
}

/// 7: "row starts not from 0, falling, or not ending at the link count; a cluster number ≥ nc; links
/// not strictly ascending in a row".
fn rows_misfit(room: &RoomFile) -> bool {
    let (starts, links) = (&room.starts, &room.links);
    let falls = starts.windows(2).any(|pair| pair[1] < pair[0]);
    if starts[0] != 0 || falls || starts[starts.len() - 1] as usize != links.len() {
        return true;
    }
    let clusters = room.clusters.len();
    let row = |pair: &[u32]| &links[pair[0] as usize..pair[1] as usize];
    let ascends = |row: &[Link]| row.windows(2).all(|l| l[0].cluster < l[1].cluster);
    links.iter().any(|link| link.cluster as usize >= clusters)
        || !starts.windows(2).all(|pair| ascends(row(pair)))
}

/// 7: "a member ≥ n; member ranges not contiguous from 0 to the member count".
fn members_misfit(room: &RoomFile) -> bool {
    let mut end = 0;
    for c in &room.clusters {
        if u64::from(c.first) != end {
            return true;
        }
        end += u64::from(c.count);
    }
    let surfels = room.surfels.len();
    end != room.members.len() as u64 || room.members.iter().any(|&m| m as usize >= surfels)
}
