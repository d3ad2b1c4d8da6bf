//! Where a run ends: changes at 0.0001, runs that never settle, and runs that pass the largest float.

use super::*;

pub(super) fn write(script: &mut Script) {
    changes(script);
    endless(script);
    overruns(script);
    overrun_channels(script);
}

/// A black surfel that shines, and one that reflects all of it: the first bounce changes that by
/// exactly the light, the second by nothing.
fn shone(light: Vec3) -> RoomFile {
    let mut room = RoomFile::q();
    let mut lamp = patch(Vec3::ZERO, 0.0, 1.0, 0.0);
    lamp.direct = light;
    room.surfels = vec![lamp, patch(Vec3::new(1.0, 0.0, 0.0), 1.0, 1.0, 0.0)];
    room.set_clusters(&[(1.0, vec![0])]);
    room.set_rows(&[Vec::new(), vec![(0, 1.0)]]);
    room
}

/// "its last change is under 0.0001", on each channel, in the last bounce that is allowed or not.
fn changes(script: &mut Script) {
    let limit = 0.0001f32;
    for x in [limit.next_down(), limit, limit.next_up(), 0.0, LEAST] {
        for light in [
            Vec3::new(x, 0.0, 0.0),
            Vec3::new(0.0, x, 0.0),
            Vec3::new(0.0, 0.0, x),
        ] {
            for bounces in [0, 1, 2, 12] {
                let mut room = shone(light);
                room.limit = bounces;
                let printed = script.printed(&room);
                let settled = bounces > 0 && x < limit || bounces > 1;
                assert_eq!(printed.contains(" settled\n"), settled);
            }
        }
    }
}

/// White surfels and weights of 1: each bounce adds the direct light again. With a weight over 1 it
/// grows until it is infinite, and infinite light no longer changes.
fn endless(script: &mut Script) {
    for (weight, area) in [
        (1.0, 1.0),
        (1.0, 0.5),
        (0.999, 1.0),
        (1.5, 1.0),
        (2.0, 1e-3),
    ] {
        for limit in [1, 12, 100, 1_000, 4_096] {
            let mut room = RoomFile::q();
            room.surfels[0].albedo = Vec3::new(1.0, 0.5, 0.0);
            room.clusters[0].area = area;
            room.links[0].weight = weight;
            room.limit = limit;
            script.printed(&room);
        }
    }
}

/// The brightest room: area, direct light and weight at their largest, the cluster's area 0.
fn brightest() -> RoomFile {
    let mut room = RoomFile::q();
    room.surfels[0] = patch(Vec3::ZERO, 1.0, 1_000_000.0, 1_000_000.0);
    room.clusters[0].area = 0.0;
    room.links[0].weight = 2.0;
    room.radius = 2.0;
    room
}

/// It is infinite after a few bounces. Its change is then NaN, which the greatest change passes over:
/// the run settles at a change of 0.
fn overruns(script: &mut Script) {
    for limit in [1, 2, 3, 4, 5, 12, 4_096] {
        let mut room = brightest();
        room.limit = limit;
        let printed = script.printed(&room);
        if limit == 12 {
            assert!(printed.contains("residual 00000000 settled\n"));
            assert!(printed.contains("probe 0 seen 7F800000 7F800000 7F800000\n"));
        }
    }
    // A surfel without albedo turns infinite light into NaN.
    for albedo in [0.0, LEAST, 0.5] {
        for limit in 2..7 {
            let mut room = brightest();
            room.surfels[0].albedo = Vec3::new(1.0, albedo, 1.0);
            room.surfels[0].direct = Vec3::new(1_000_000.0, 1.0, 0.0);
            room.limit = limit;
            script.printed(&room);
        }
    }
}

/// Infinite light by a weight of 0, and at exactly the radius, is NaN: printed as 7FC00000.
fn overrun_channels(script: &mut Script) {
    let mut printed = String::new();
    for weight in [0.0, -0.0, LEAST, 1.0] {
        for limit in [2, 3, 4, 12] {
            let mut room = brightest();
            room.surfels[0].direct.z = 0.0;
            let far = Vec3::new(1.0, 0.0, 0.0);
            room.surfels.push(patch(far, 0.5, 1.0, 0.25));
            room.set_rows(&[vec![(0, 2.0)], vec![(0, weight)]]);
            room.radius = 1.0;
            room.limit = limit;
            room.probes = [0.0, 0.5, 1.0, 2.0].map(|x| probe(x, 0.0, 0.0)).to_vec();
            printed += &script.printed(&room);
        }
    }
    assert!(printed.contains("probe 0 seen 7FC00000 7FC00000"));
    assert!(printed.contains("probe 2 unseen 00000000") || printed.contains("probe 3 unseen"));
}
