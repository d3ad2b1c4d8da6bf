//! Random rooms of some metres: surfels, clusters and rows that make light, and probes among them.

use super::*;

pub(super) fn write(script: &mut Script) {
    let mut random = Random::new(0x726F_6F6D);
    let mut room = drawn(&mut random);
    let (mut seen, mut open) = (0, 0);
    for k in 0..ROOMS {
        if k % 6 == 0 {
            room = drawn(&mut random);
        } else {
            redraw(&mut random, &mut room);
        }
        let printed = script.printed(&room);
        seen += printed.matches(" seen ").count();
        open += printed.matches(" open\n").count();
    }
    assert!(seen > 250 && open > 20, "{seen} {open}");
}

const ROOMS: u32 = 150;

fn drawn(random: &mut Random) -> RoomFile {
    let (n, nc) = match random.below(8) {
        0 => (8 + random.below(8), 4 + random.below(4)),
        _ => (1 + random.below(7), 1 + random.below(4)),
    };
    let mut room = RoomFile::q();
    bounds(random, &mut room);
    room.surfels = (0..n).map(|_| surfel(random, &room)).collect();
    clusters(random, &mut room, nc);
    rows(random, &mut room);
    probes(random, &mut room);
    room
}

/// Another room of as many surfels and clusters: one part of it is another.
fn redraw(random: &mut Random, room: &mut RoomFile) {
    match random.below(6) {
        0 => bounds(random, room),
        1 => {
            let k = random.below(room.surfels.len() as u32) as usize;
            room.surfels[k] = surfel(random, room);
        }
        2 => clusters(random, room, room.clusters.len() as u32),
        3 => rows(random, room),
        4 => probes(random, room),
        _ => {
            room.radius = random.between(0.0, 4.0);
            room.cell = random.between(0.25, 2.0);
        }
    }
    room.limit = limit(random);
}

fn limit(random: &mut Random) -> u32 {
    match random.below(6) {
        0 => random.below(4),
        1 => 4_096,
        _ => random.below(40),
    }
}

fn vector(random: &mut Random, lo: f32, hi: f32) -> Vec3 {
    let mut x = || random.between(lo, hi);
    Vec3::new(x(), x(), x())
}

fn bounds(random: &mut Random, room: &mut RoomFile) {
    room.lo = vector(random, -4.0, 1.0);
    room.hi = room.lo + vector(random, 0.5, 5.0);
    room.cell = random.between(0.25, 2.0);
    room.radius = random.between(0.2, 3.0);
}

/// A place in the box, or a little outside.
fn spot(random: &mut Random, room: &RoomFile) -> Vec3 {
    let at = vector(random, -0.1, 1.1);
    room.lo + (room.hi - room.lo) * at
}

/// One of six axes, or a direction.
fn normal(random: &mut Random) -> Vec3 {
    let axes = [Vec3::new(1.0, 0.0, 0.0), Vec3::Y, UP];
    match random.below(9) {
        k @ 0..3 => axes[k as usize],
        k @ 3..6 => -axes[k as usize - 3],
        _ => vector(random, -1.0, 1.0).normalize(),
    }
}

fn surfel(random: &mut Random, room: &RoomFile) -> Patch {
    Patch {
        p: spot(random, room),
        n: normal(random),
        albedo: vector(random, 0.0, 0.95),
        area: random.between(0.01, 2.0),
        direct: match random.below(3) {
            0 => Vec3::ZERO,
            _ => vector(random, 0.0, 3.0),
        },
    }
}

/// Each surfel in one cluster, whose area is that of its members; or any members and any area.
fn clusters(random: &mut Random, room: &mut RoomFile, nc: u32) {
    let n = room.surfels.len() as u32;
    let parted = random.below(3) > 0;
    let mut clusters = vec![(0.0, Vec::new()); nc as usize];
    for k in 0..n {
        let member = if parted { k } else { random.below(n) };
        clusters[random.below(nc) as usize].1.push(member);
    }
    for (area, members) in &mut clusters {
        let of_members = members.iter().map(|&k| room.surfels[k as usize].area).sum();
        *area = match parted {
            true => of_members,
            false => random.between(0.05, 6.0),
        };
    }
    room.set_clusters(&clusters);
}

/// Links to about half of the clusters; their weights sum up to at most 1, or to anything.
fn rows(random: &mut Random, room: &mut RoomFile) {
    let nc = room.clusters.len() as u32;
    let most = match random.below(5) {
        0 => 2.0,
        _ => 1.0 / nc as f32,
    };
    let rows: Vec<_> = room.surfels.iter().map(|_| row(random, nc, most)).collect();
    room.set_rows(&rows);
}

fn row(random: &mut Random, nc: u32, most: f32) -> Vec<(u32, f32)> {
    let mut row = Vec::new();
    for c in 0..nc {
        if random.below(5) < 3 {
            row.push((c, random.between(0.0, most)));
        }
    }
    row
}

/// Probes near surfels that face as they do, and probes anywhere.
fn probes(random: &mut Random, room: &mut RoomFile) {
    let near = |random: &mut Random, s: &Patch| Probe {
        p: s.p + vector(random, -0.3, 0.3),
        n: s.n,
    };
    let many = 1 + random.below(4);
    room.probes.clear();
    for _ in 0..many {
        let k = random.below(room.surfels.len() as u32) as usize;
        let probe = match random.below(4) {
            0 => Probe {
                p: spot(random, room),
                n: normal(random),
            },
            _ => near(random, &room.surfels[k]),
        };
        room.probes.push(probe);
    }
}
