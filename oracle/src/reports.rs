//! What `roomlight` prints of a room file: its report by the Rust's own solve, grid and readings, or
//! the number that refuses it.

use crate::answers::word;
use crate::room_files::{Emitter, Patch, RoomFile};
use crate::room_refusals::{self as refusals, FILE, ROOMLIGHT};
use crate::weights;
use interflect::formfactor::{Cluster, Transfer};
use interflect::solve::{self, SolveStats};
use interflect::surfel::{Grid, Surfel};
use interflect::Vec3;

/// The text, each of its lines with a newline at the end.
pub fn report(bytes: &[u8]) -> String {
    let read = refusals::read(bytes, ROOMLIGHT);
    assert_limits(bytes, read.as_ref().err().copied());
    match read {
        Ok(room) => {
            assert_eq!(room.bytes(), bytes);
            report_of(&room)
        }
        Err(number) => format!("refused {number}\n"),
    }
}

/// Asserts that a file within `roomlight`'s limits is refused as any file is. Beyond them the number
/// is 1 for bytes and 4 for cells.
fn assert_limits(bytes: &[u8], number: Option<u32>) {
    let of_file = refusals::read(bytes, FILE).err();
    if bytes.len() > ROOMLIGHT.bytes {
        assert_eq!(number, Some(1));
    } else if number == Some(4) {
        assert!(of_file.is_none_or(|other| other > 4));
    } else {
        assert_eq!(number, of_file);
    }
}

/// "resets, solves, reads the probes". For a room that is not refused.
fn report_of(room: &RoomFile) -> String {
    let mut surfels: Vec<Surfel> = room.surfels.iter().map(reset).collect();
    let stats = solve::solve(&mut surfels, &transfer(room), room.limit);
    let points: Vec<Vec3> = surfels.iter().map(|s| s.p).collect();
    let grid = Grid::build(&points, room.lo, room.hi, room.cell);
    let cells: i32 = grid.dim.iter().product();
    assert_eq!(cells as usize, refusals::cells(room));

    let mut text = counted(room) + &bounced(stats);
    for (k, probe) in room.probes.iter().enumerate() {
        let read = weights::reading(&surfels, &grid, probe.p, probe.n, room.radius);
        text += &probed(k, read);
    }
    text
}

fn counted(room: &RoomFile) -> String {
    let (surfels, clusters) = (room.surfels.len(), room.clusters.len());
    let links = room.links.len();
    format!("surfels {surfels} clusters {clusters} links {links}\n")
}

/// "A run is settled when it made a bounce and its last change is under 0.0001"; "an unsettled run
/// prints `open`".
fn bounced(stats: SolveStats) -> String {
    let (bounces, change) = (stats.iterations, stats.residual);
    let settled = bounces > 0 && change < 0.0001;
    let end = if settled { "settled" } else { "open" };
    format!("bounces {bounces} residual {:08X} {end}\n", word(change))
}

/// "a probe line has its number and the reading's x, y, z".
fn probed(k: usize, read: Option<Vec3>) -> String {
    let seen = if read.is_some() { "seen" } else { "unseen" };
    let light = read.unwrap_or(Vec3::ZERO);
    let [x, y, z] = [light.x, light.y, light.z].map(word);
    format!("probe {k} {seen} {x:08X} {y:08X} {z:08X}\n")
}

/// "A reset (from `light_surfels`) sets `direct` and `rad` to the given light and `irr` to zero".
fn reset(s: &Patch) -> Surfel {
    Surfel {
        p: s.p,
        n: s.n,
        albedo: s.albedo,
        area: s.area,
        direct: s.direct,
        irr: Vec3::ZERO,
        rad: s.direct,
    }
}

/// The Rust's matrix of the room.
fn transfer(room: &RoomFile) -> Transfer {
    let cluster = |c: &Emitter| {
        let (first, count) = (c.first as usize, c.count as usize);
        Cluster {
            p: Vec3::ZERO,
            n: Vec3::ZERO,
            area: c.area,
            radius: 0.0,
            members: room.members[first..first + count].to_vec(),
        }
    };
    Transfer {
        clusters: room.clusters.iter().map(cluster).collect(),
        mean_row_sum: 0.0,
        starts: room.starts.clone(),
        idx: room.links.iter().map(|link| link.cluster).collect(),
        w: room.links.iter().map(|link| link.weight).collect(),
        nc: room.clusters.len(),
        links: room.links.len(),
    }
}
