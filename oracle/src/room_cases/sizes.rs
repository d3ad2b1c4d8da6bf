//! Files of each length that document 01 names, and the largest rooms of 65,536 bytes.

use super::*;
use crate::held_rooms::{BYTES, SPACE};
use crate::room_files::Link;

pub(super) fn write(script: &mut Script) {
    small(script);
    most_probes(script);
    most_surfels(script);
    most_clusters(script);
    most_rows(script);
    most_links(script);
    most_members(script);
    beyond(script);
}

/// Files of up to 101 bytes: of the smallest room, of room Q, and of zeros.
fn small(script: &mut Script) {
    let smallest = headers::smallest();
    assert_eq!(4 * smallest.len(), 100);
    for length in [0, 1, 3, 4, 63, 64, 65, 68, 99, 100, 101] {
        script.cut(&smallest, length, u32::from(length != 100));
        script.cut(&RoomFile::q().words(), length, 1);
        script.cut(&[0; 26], length, 1);
    }
    // A header alone whose length is its own.
    script.cut(&edited(&smallest, &[(13, 64)]), 64, 1);
}

/// A room of exactly 65,536 bytes, asked for with a byte and a word more and less.
fn full(script: &mut Script, room: &RoomFile) -> Vec<u32> {
    let words = room.words();
    assert_eq!(4 * words.len(), 65_536);
    let longer = [&words[..], &[0]].concat();
    for length in [65_535, 65_537, 65_532, 65_540] {
        script.cut(&longer, length, 1);
        script.cut(&edited(&longer, &[(13, length as u32)]), length, 1);
    }
    words
}

/// 2,726 probes and a cluster without members, of which only the length is printed; 2,723 probes with a
/// surfel, its cluster and its link, which are all printed. Most stand at zero and face nowhere.
fn most_probes(script: &mut Script) {
    let nowhere = Probe {
        p: Vec3::ZERO,
        n: Vec3::ZERO,
    };
    let mut room = RoomFile::empty(Vec3::ZERO, Vec3::splat(4.0), 1.0, 1.0);
    room.set_clusters(&[(1.0, Vec::new())]);
    room.limit = 4_096;
    room.probes = vec![nowhere; 2_726];
    let words = full(script, &room);
    script.short(&words, 65_536, SPACE as u32);

    let mut room = RoomFile::q();
    room.set_clusters(&[(1.0, vec![0, 0])]);
    room.probes = vec![nowhere; 2_723];
    for (k, probe) in room.probes.iter_mut().enumerate() {
        if k % 61 == 0 || k == 2_722 {
            probe.n = UP;
            probe.p.x = (k % 7) as f32 / 4.0;
        }
    }
    let words = full(script, &room);
    script.tried(&words, 0);
}

/// A black surfel of no size in a corner of the box.
fn nothing() -> Patch {
    Patch {
        n: Vec3::ZERO,
        ..patch(Vec3::ZERO, 0.0, 0.0, 0.0)
    }
}

/// 1,168 surfels, most of them nothing, with one link in the last row.
fn most_surfels(script: &mut Script) {
    let mut room = RoomFile::q();
    room.surfels = vec![nothing(); 1_168];
    for k in (0..1_168).step_by(97) {
        room.surfels[k] = patch(Vec3::new(k as f32 / 400.0, 0.0, 0.0), 0.75, 1.0, 1.0);
    }
    room.surfels[1_167] = patch(Vec3::new(1.0, 0.0, 0.0), 0.75, 1.0, 1.0);
    room.set_clusters(&[(2.0, vec![1_067, 1_167])]);
    room.starts = vec![0; 1_169];
    room.starts[1_168] = 1;
    room.probes.clear();
    let words = full(script, &room);
    script.tried(&words, 0);
    // A number of the last surfel, and one past it.
    let member = place(&words, MEMBERS, 1);
    script.tried(&edited(&words, &[(member, 1_168)]), 7);
    let last = place(&words, SURFELS, 13 * 1_168 - 1);
    script.tried(&edited(&words, &[(last, NAN.to_bits())]), 5);
}

/// 5,448 clusters, the last of which has the one member.
fn most_clusters(script: &mut Script) {
    let mut room = RoomFile::q();
    let mut clusters = vec![(0.0, Vec::new()); 5_448];
    clusters[5_447] = (2.0, vec![0]);
    room.set_clusters(&clusters);
    room.set_rows(&[Vec::new()]);
    room.probes.clear();
    let words = full(script, &room);
    script.tried(&words, 0);
    let last = place(&words, CLUSTERS, 3 * 5_447);
    script.tried(&edited(&words, &[(last, (-1.0f32).to_bits())]), 5);
    script.tried(&edited(&words, &[(last + 1, 1)]), 7);

    // A link to the last of them, in place of eight bytes of another.
    let mut room = RoomFile::q();
    room.set_clusters(&clusters[1..]);
    room.set_rows(&[vec![(5_446, 0.5)]]);
    room.probes.clear();
    room.members.push(0);
    room.clusters[5_446].count = 2;
    let words = room.words();
    assert_eq!(4 * words.len(), 65_536);
    script.tried(&words, 0);
    let link = place(&words, LINKS, 0);
    script.tried(&edited(&words, &[(link, 5_447)]), 7);
}

/// 1,022 surfels, each with a link to the one cluster: as many rows with a link as there can be.
fn most_rows(script: &mut Script) {
    let mut room = RoomFile::q();
    room.surfels = vec![nothing(); 1_022];
    for k in (0..1_022).step_by(73) {
        room.surfels[k] = patch(Vec3::new(k as f32 / 256.0, 0.0, 0.0), 0.5, 1.0, 0.5);
    }
    room.set_clusters(&[(4.0, vec![0, 73, 146, 219])]);
    let weight = |k: usize| if k % 73 == 0 { 0.5 } else { 0.0 };
    let rows: Vec<_> = (0..1_022).map(|k| vec![(0, weight(k))]).collect();
    room.set_rows(&rows);
    room.probes.clear();
    let words = full(script, &room);
    script.tried(&words, 0);
    // The starts of two rows are one, so that the next has two links to the same cluster.
    let start = place(&words, STARTS, 1_000);
    script.tried(&edited(&words, &[(start, 999)]), 7);
}

/// 41 surfels with links to all of 186 clusters, but for 13 in the first row: 7,613 links, as many as
/// there can be. More links than rows and clusters can have are refused.
fn most_links(script: &mut Script) {
    let mut room = RoomFile::q();
    let spot = |k: usize| Vec3::new(k as f32 / 11.0, 0.0, 0.0);
    let lit = |k: usize| patch(spot(k), 0.5, 1.0, 1.0 + (k % 5) as f32);
    room.surfels = (0..41).map(lit).collect();
    let mut clusters = vec![(1.0, Vec::new()); 186];
    clusters[185] = (1.0, vec![40]);
    room.set_clusters(&clusters);
    let row: Vec<_> = (0..186).map(|c| (c, (1 + c % 3) as f32 / 8.0)).collect();
    let mut rows = vec![row; 41];
    rows[0].truncate(173);
    room.set_rows(&rows);
    room.probes.clear();
    let words = full(script, &room);
    script.tried(&words, 0);
    let last = place(&words, LINKS, 2 * 7_612);
    script.tried(&edited(&words, &[(last, 186)]), 7);
    script.tried(&edited(&words, &[(last + 1, INF.to_bits())]), 5);
    let start = place(&words, STARTS, 41);
    script.tried(&edited(&words, &[(start, 7_612)]), 7);

    let mut room = RoomFile::empty(Vec3::ZERO, Vec3::ONE, 1.0, 1.0);
    let link = RoomFile::q().links[0];
    room.links = vec![
        Link {
            weight: 0.0,
            ..link
        };
        8_179
    ];
    room.members = vec![0];
    let words = full(script, &room);
    script.tried(&words, 7);
}

/// 16,342 members, all of them the one surfel; 16,359 where there is none, which are refused.
fn most_members(script: &mut Script) {
    let mut room = RoomFile::q();
    room.set_clusters(&[(16_342.0, vec![0; 16_342])]);
    room.set_rows(&[Vec::new()]);
    room.probes.clear();
    let words = full(script, &room);
    script.tried(&words, 0);
    let last = place(&words, MEMBERS, 16_341);
    script.tried(&edited(&words, &[(last, 1)]), 7);
    let count = place(&words, CLUSTERS, 2);
    script.tried(&edited(&words, &[(count, 16_341)]), 7);

    let mut room = RoomFile::empty(Vec3::ZERO, Vec3::ONE, 1.0, 1.0);
    room.members = vec![0; 16_359];
    let words = full(script, &room);
    script.tried(&words, 7);
}

/// Rooms that are sound but for their 65,540 and 65,600 bytes.
fn beyond(script: &mut Script) {
    let mut room = RoomFile::q();
    room.set_rows(&[Vec::new()]);
    room.probes.clear();
    for members in [1, 2, 17] {
        room.set_clusters(&vec![(0.0, Vec::new()); 5_448]);
        room.members = vec![0; members];
        room.clusters[5_447].count = members as u32;
        let words = room.words();
        let length = 65_536 + 4 * (members - 1);
        assert!(length <= BYTES);
        script.cut(&words, length, u32::from(members > 1));
    }
}
