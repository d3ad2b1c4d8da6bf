//! Rooms of each kind: room Q, without surfels, clusters, members, links or probes, and as large as the
//! columns are.

use super::*;

pub(super) fn write(script: &mut Script) {
    known(script);
    without(script);
    members(script);
    largest(script);
    too_large(script);
}

/// Room Q and the smallest file.
fn known(script: &mut Script) {
    let [one, four] = [1.0f32, 4.0].map(f32::to_bits);
    let head = [0, 1, 1, 1, 1, 2, 12, 0, 0, 0, four, one, one, one, one];
    let q = RoomFile::q();
    assert_eq!(script.taken(&q), head);
    assert_eq!(script.read(&q.words(), ALL, 0), head);
    let smallest = RoomFile::empty(Vec3::ZERO, Vec3::ONE, 1.0, 1.0);
    script.taken(&smallest);
    script.read(&smallest.words(), ALL, 0);
    script.taken(&uneven());
    script.read(&uneven().words(), ALL, 0);
    // A mark that is no number.
    script.line("mark", vec![u32::MAX]);
    script.line("read", vec![4 * uneven().words().len() as u32]);
    script.show(0);
}

/// No surfels, one or three, no clusters or two, with members, links and probes or without.
fn without(script: &mut Script) {
    for n in [0, 1, 3] {
        for nc in [0, 2] {
            for kind in 0..8 {
                let (members, links) = (kind & 1 > 0, kind & 2 > 0);
                if n * nc > 0 || kind & 3 == 0 {
                    script.taken(&of_counts(n, nc, members, links, kind & 4 > 0));
                }
            }
        }
    }
}

/// Surfels that are all members of every cluster and linked to every one, or not.
fn of_counts(n: u32, nc: u32, members: bool, links: bool, probes: bool) -> RoomFile {
    let mut room = uneven();
    room.surfels.truncate(n as usize);
    let of_cluster = if members { n } else { 0 };
    room.set_clusters(&vec![(n as f32, (0..of_cluster).collect()); nc as usize]);
    let row = (0..nc).map(|c| (c, 0.25)).filter(|_| links);
    room.set_rows(&vec![row.collect(); n as usize]);
    room.probes.truncate(if probes { 3 } else { 0 });
    room
}

/// Members that come twice, in no order, in two clusters; clusters without members between others.
fn members(script: &mut Script) {
    let clusters: [&[&[u32]]; 4] = [
        &[&[0, 0], &[1]],
        &[&[], &[3, 1, 2], &[]],
        &[&[2], &[], &[0], &[3, 3, 3]],
        &[&[], &[], &[]],
    ];
    for lists in clusters {
        let mut room = uneven();
        let clusters: Vec<_> = lists.iter().map(|list| (0.75, list.to_vec())).collect();
        room.set_clusters(&clusters);
        script.taken(&room);
    }
}

/// So many surfels, clusters, members, links and probes. Members are all in the last cluster; each row
/// has links to the first clusters, as many as it can.
fn of_many(n: usize, nc: usize, members: usize, links: usize, probes: usize) -> RoomFile {
    let mut room = uneven();
    let spot = |k: usize| Vec3::new(k as f32 / 8.0, 0.0, -(k as f32));
    let surfel = |k: usize| patch(spot(k), 0.5, k as f32, 1.0 + k as f32);
    room.surfels = (0..n).map(surfel).collect();
    let mut clusters: Vec<_> = (0..nc).map(|c| (c as f32 + 0.5, Vec::new())).collect();
    if let Some(last) = clusters.last_mut() {
        last.1 = (0..members).map(|k| (k * 5 % n) as u32).collect();
    }
    room.set_clusters(&clusters);
    let weight = |c: usize| (c as u32, c as f32 / 64.0);
    let many = |row: usize| nc.min(links - links.min(row * nc));
    let row = |k: usize| (0..many(k)).map(weight).collect();
    room.set_rows(&(0..n).map(row).collect::<Vec<_>>());
    assert_eq!(room.links.len(), links);
    let facing = |k: usize| probe(k as f32, -0.0, k as f32 / 3.0);
    room.probes = (0..probes).map(facing).collect();
    room
}

/// As many of each as the columns have places for, alone and all of them.
fn largest(script: &mut Script) {
    for [n, nc, members, links, probes] in [
        [21, 0, 0, 0, 0],
        [1, 64, 0, 0, 0],
        [1, 1, 64, 0, 0],
        [1, 64, 0, 64, 0],
        [0, 0, 0, 0, 21],
        [21, 64, 64, 64, 21],
        [16, 4, 16, 64, 16],
    ] {
        script.taken(&of_many(n, nc, members, links, probes));
    }
}

/// One more of each than all places of its columns hold.
fn too_large(script: &mut Script) {
    for [n, nc, members, links, probes] in [
        [22, 0, 0, 0, 0],
        [1, 65, 0, 0, 0],
        [1, 1, 65, 0, 0],
        [2, 64, 0, 65, 0],
        [0, 0, 0, 0, 22],
    ] {
        let words = of_many(n, nc, members, links, probes).words();
        script.read(&words, ALL, 4);
    }
}
