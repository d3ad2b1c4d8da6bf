//! Rooms of each kind: without surfels, clusters, members, links or probes, with members of several
//! clusters or of none, and the values that a column may have at its ends.

use super::*;

pub(super) fn write(script: &mut Script) {
    without(script);
    shared_members(script);
    values(script);
}

/// Each number of surfels and clusters up to 3, with members, links and probes or without.
fn without(script: &mut Script) {
    for n in [0, 1, 3] {
        for nc in 0..3 {
            for kind in 0..8 {
                let (members, links) = (kind & 1 > 0, kind & 2 > 0);
                if n * nc > 0 || kind & 3 == 0 {
                    script.printed(&of_counts(n, nc, members, links, kind & 4 > 0));
                }
            }
        }
    }
    for limit in [0, 1, 4_096] {
        let mut room = of_counts(2, 0, false, false, true);
        room.limit = limit;
        assert!(script
            .printed(&room)
            .contains("bounces 0 residual 00000000 open\n"));
        let mut room = of_counts(0, 2, false, false, true);
        room.limit = limit;
        let settled = script
            .printed(&room)
            .contains("bounces 1 residual 00000000 settled\n");
        assert_eq!(settled, limit > 0);
    }
}

/// Surfels beside each other, each a member of every cluster and linked to every one, or not.
fn of_counts(n: u32, nc: u32, members: bool, links: bool, probes: bool) -> RoomFile {
    let mut room = RoomFile::q();
    let surfel = |k: u32| patch(Vec3::new(k as f32, 0.0, 0.0), 0.5, 1.0, 1.0 + k as f32);
    room.surfels = (0..n).map(surfel).collect();
    let of_cluster = if members {
        (0..n).collect()
    } else {
        Vec::new()
    };
    room.set_clusters(&vec![(n as f32, of_cluster); nc as usize]);
    let row = (0..nc).map(|c| (c, 0.25)).filter(|_| links);
    room.set_rows(&vec![row.collect(); n as usize]);
    if !probes {
        room.probes.clear();
    }
    room
}

/// Members that come twice, in no order, in two clusters; clusters without members between others.
fn shared_members(script: &mut Script) {
    let clusters: [&[&[u32]]; 6] = [
        &[&[0, 0], &[1], &[2]],
        &[&[2, 1, 0], &[0, 2], &[2, 2, 2]],
        &[&[], &[0, 1, 2], &[]],
        &[&[], &[], &[1]],
        &[&[2], &[], &[0]],
        &[&[], &[], &[]],
    ];
    for lists in clusters {
        let mut room = several_of_each();
        let clusters: Vec<_> = lists.iter().map(|list| (0.75, list.to_vec())).collect();
        room.set_clusters(&clusters);
        script.printed(&room);
    }
}

/// Albedo, areas, direct light and weights at their ends and about zero, of all surfels or of one.
fn values(script: &mut Script) {
    let small = [0.0, -0.0, LEAST, f32::MIN_POSITIVE, 1e-12, 1e-6];
    for x in small.into_iter().chain([0.25, 1.0]) {
        for one in [true, false] {
            let change: [&dyn Fn(&mut Patch); 4] = [
                &|s| s.albedo = Vec3::splat(x),
                &|s| s.albedo.y = x,
                &|s| s.area = x,
                &|s| s.direct = Vec3::new(x, 0.5, x),
            ];
            for change in change {
                let mut room = several_of_each();
                let many = if one { 1 } else { 3 };
                room.surfels[..many].iter_mut().for_each(change);
                script.printed(&room);
            }
        }
        let mut room = several_of_each();
        room.clusters[1].area = x;
        script.printed(&room);
        room.links.iter_mut().for_each(|link| link.weight = x);
        script.printed(&room);
    }
}
