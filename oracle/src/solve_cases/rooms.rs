//! Random rooms, solved from a reset, from random light and from where the room before ended, often
//! several times in a row, with refused solves between.

use super::*;

pub(super) fn write(script: &mut Script) {
    let mut random = Random::new(0x736F_6C76);
    let mut m = Making::q();
    for k in 0..ROOMS {
        if k % 5 == 0 {
            m = drawn(&mut random);
        } else {
            redraw(&mut random, &mut m);
        }
        script.room(&m);
        lend(script, &mut random, &m);
        begin(script, &mut random, &m);
        for _ in 0..1 + random.below(3) {
            let limit = limit(&mut random);
            assert_eq!(script.solved(m.told(limit))[0], 0);
            if random.below(3) == 0 {
                refused(script, &mut random, &m);
            }
        }
    }
    script.lend(Lent::ALL);
    script.show_all();
}

const ROOMS: u32 = 300;

/// A room of up to 7 surfels, sometimes 12, and up to 4 clusters, sometimes 8.
fn drawn(random: &mut Random) -> Making {
    let (n, nc) = match random.below(8) {
        0 => (8 + random.below(5), 5 + random.below(4)),
        _ => (1 + random.below(7), 1 + random.below(4)),
    };
    let mut m = Making {
        surfels: vec![patch(0.0, 0.0, 0.0); n as usize],
        clusters: vec![(0.0, Vec::new()); nc as usize],
        rows: vec![Vec::new(); n as usize],
    };
    surfels(random, &mut m);
    clusters(random, &mut m);
    rows(random, &mut m);
    m
}

/// Another room of as many surfels and clusters: one part of it is another, or each one may be.
fn redraw(random: &mut Random, m: &mut Making) {
    match random.below(4) {
        0 => surfels(random, m),
        1 => clusters(random, m),
        2 => rows(random, m),
        _ => {
            let k = random.below(m.surfels.len() as u32) as usize;
            m.surfels[k] = surfel(random);
            clusters(random, m);
        }
    }
}

fn vector(random: &mut Random, most: f32) -> Vec3 {
    let mut channel = || random.between(0.0, most);
    Vec3::new(channel(), channel(), channel())
}

fn surfel(random: &mut Random) -> Patch {
    Patch {
        albedo: vector(random, 0.95),
        area: random.between(0.01, 2.0),
        direct: match random.below(3) {
            0 => Vec3::ZERO,
            _ => vector(random, 3.0),
        },
    }
}

fn surfels(random: &mut Random, m: &mut Making) {
    for s in &mut m.surfels {
        *s = surfel(random);
    }
}

/// Each surfel in one cluster, whose area is that of its members; or any members and any area.
fn clusters(random: &mut Random, m: &mut Making) {
    let (n, nc) = (m.surfels.len() as u32, m.clusters.len() as u32);
    let parted = random.below(3) > 0;
    for cluster in &mut m.clusters {
        cluster.1.clear();
    }
    for k in 0..n {
        let (c, member) = match parted {
            true => (random.below(nc), k),
            false => (random.below(nc), random.below(n)),
        };
        m.clusters[c as usize].1.push(member);
    }
    for (area, members) in &mut m.clusters {
        *area = match parted {
            true => members.iter().map(|&k| m.surfels[k as usize].area).sum(),
            false => random.between(0.05, 6.0),
        };
    }
}

/// Links to about half of the clusters; their weights sum up to at most 1, or to anything.
fn rows(random: &mut Random, m: &mut Making) {
    let nc = m.clusters.len() as u32;
    let most = match random.below(4) {
        0 => 2.0,
        _ => 1.0 / nc as f32,
    };
    for row in &mut m.rows {
        row.clear();
        for c in 0..nc {
            if random.below(5) < 3 {
                row.push((c, random.between(0.0, most)));
            }
        }
    }
}

/// All places, or exactly the need.
fn lend(script: &mut Script, random: &mut Random, m: &Making) {
    match random.below(8) {
        0 => script.lend(m.need()),
        _ => script.lend(Lent::ALL),
    }
}

/// The light that a room starts from: a reset's, any, or what the tables hold.
fn begin(script: &mut Script, random: &mut Random, m: &Making) {
    match random.below(8) {
        0 => {
            let mut any = || match random.below(4) {
                0 => f32::from_bits(random.word()),
                _ => random.between(-2.0, 5.0),
            };
            let mut light = |_| Vec3::new(any(), any(), any());
            let irr: Vec<Vec3> = (0..m.surfels.len()).map(&mut light).collect();
            let rad: Vec<Vec3> = (0..m.surfels.len()).map(&mut light).collect();
            script.light(&irr, &rad);
        }
        1 => {
            script.fill();
            script.fresh(m);
        }
        2..5 => script.fresh(m),
        _ => {}
    }
}

fn limit(random: &mut Random) -> u32 {
    match random.below(6) {
        0 => 1,
        1 => 2 + random.below(3),
        2 => random.below(2) * 4_096,
        _ => random.below(24),
    }
}

/// A solve that is refused: of other counts, or of other surfels, which are put back.
fn refused(script: &mut Script, random: &mut Random, m: &Making) {
    let told = m.told(1 + random.below(9));
    let other = match random.below(5) {
        0 => Told {
            limit: 4_097 + random.word() / 2,
            ..told
        },
        1 => Told {
            members: told.members + 1,
            ..told
        },
        2 => Told {
            n: told.n + 13,
            ..told
        },
        3 => Told {
            links: told.links + 1,
            ..told
        },
        _ => {
            let k = random.below(3 * told.n) as usize;
            script.poke("put_albedo", k, word(1.0f32.next_up()));
            told
        }
    };
    assert_ne!(script.solved(other)[0], 0);
    script.room(m);
}
