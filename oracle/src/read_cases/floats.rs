//! Random rooms whose floats are of any bits that pass: the ends of each range, zeros of both signs,
//! subnormal ones and patterns of any 32 bits.

use super::*;

pub(super) fn write(script: &mut Script) {
    let mut random = Random::new(0x7265_6164);
    for k in 0..30 {
        let room = drawn(&mut random);
        let need = needs(&room);
        let more = |random: &mut Random| match k % 3 {
            0 => 0,
            1 => random.below(4) as usize,
            _ => random.below(64) as usize,
        };
        let lent = need.map(|need| PLACES.min(need + more(&mut random)));
        script.read(&room.words(), lent, 0);
    }
}

/// A float from lo to hi.
fn float(random: &mut Random, lo: f32, hi: f32) -> f32 {
    let chosen = match random.below(8) {
        0 => lo,
        1 => hi,
        2 => -0.0,
        3 => f32::from_bits(random.below(0x0080_0000)),
        4 => hi.next_down(),
        5 => lo.next_up(),
        _ => NAN,
    };
    if (lo..=hi).contains(&chosen) {
        return chosen;
    }
    loop {
        let x = f32::from_bits(random.word());
        if (lo..=hi).contains(&x) {
            return x;
        }
    }
}

fn vector(random: &mut Random, lo: f32, hi: f32) -> Vec3 {
    let mut x = || float(random, lo, hi);
    Vec3::new(x(), x(), x())
}

/// A coordinate or a normal.
fn coordinates(random: &mut Random) -> Vec3 {
    vector(random, -10_000.0, 10_000.0)
}

fn drawn(random: &mut Random) -> RoomFile {
    let (lo, hi) = bounds(random);
    let cell = float(random, 0.0001, 10_000.0);
    let mut room = RoomFile::empty(lo, hi, cell, float(random, 0.0, 10_000.0));
    room.limit = random.below(4_097);
    let n = random.below(7);
    let nc = random.below(6);
    room.surfels = (0..n).map(|_| surfel(random)).collect();
    let clusters: Vec<_> = (0..nc).map(|_| cluster(random, n)).collect();
    room.set_clusters(&clusters);
    let rows: Vec<_> = (0..n).map(|_| row(random, nc)).collect();
    room.set_rows(&rows);
    let probe = |random: &mut Random| Probe {
        p: coordinates(random),
        n: coordinates(random),
    };
    room.probes = (0..random.below(5)).map(|_| probe(random)).collect();
    room
}

/// The corners of a box: on each axis the lesser of two coordinates first.
fn bounds(random: &mut Random) -> (Vec3, Vec3) {
    let (a, b) = (coordinates(random), coordinates(random));
    let pair = |a: f32, b: f32| if a <= b { (a, b) } else { (b, a) };
    let [x, y, z] = [pair(a.x, b.x), pair(a.y, b.y), pair(a.z, b.z)];
    (Vec3::new(x.0, y.0, z.0), Vec3::new(x.1, y.1, z.1))
}

fn surfel(random: &mut Random) -> Patch {
    Patch {
        p: coordinates(random),
        n: coordinates(random),
        albedo: vector(random, 0.0, 1.0),
        area: float(random, 0.0, 1_000_000.0),
        direct: vector(random, 0.0, 1_000_000.0),
    }
}

/// An area and up to four members of n surfels.
fn cluster(random: &mut Random, n: u32) -> (f32, Vec<u32>) {
    let many = if n == 0 { 0 } else { random.below(5) };
    let members = (0..many).map(|_| random.below(n)).collect();
    (float(random, 0.0, 1e12), members)
}

/// Links to about half of the clusters.
fn row(random: &mut Random, nc: u32) -> Vec<(u32, f32)> {
    let mut row = Vec::new();
    for c in 0..nc {
        if random.below(2) > 0 {
            row.push((c, float(random, 0.0, 2.0)));
        }
    }
    row
}
