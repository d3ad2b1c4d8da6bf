//! Rooms at the edges of what a solve takes: without clusters, surfels, members or links, and with
//! zeros of both signs.

use super::*;

pub(super) fn write(script: &mut Script) {
    without_clusters(script);
    without_surfels(script);
    without_links_or_members(script);
    repeated_members(script);
    zeros(script);
    small_cluster_areas(script);
    as_lent(script);
}

/// From the light of a reset: no bounce, one, one more, and up to 20.
fn each_limit(script: &mut Script, m: &Making) {
    script.fill();
    script.fresh(m);
    for limit in [0, 1, 1, 20] {
        script.solved(m.told(limit));
    }
}

/// A solve after a fill, and what it leaves.
fn filled(script: &mut Script, told: Told) -> Vec<u32> {
    script.fill();
    script.solved(told)
}

/// No cluster: no bounce, whatever the limit.
fn without_clusters(script: &mut Script) {
    for n in [0, 1, 2, 12] {
        let m = Making {
            surfels: vec![patch(0.5, 1.0, 0.75); n],
            rows: vec![Vec::new(); n],
            ..Making::default()
        };
        script.room(&m);
        for limit in [0, 1, 4_096] {
            assert_eq!(filled(script, m.told(limit)), [0, 0, 0]);
        }
    }
}

/// No surfel: one bounce, change 0, and the clusters have no light.
fn without_surfels(script: &mut Script) {
    for nc in [1, 2, 8] {
        for area in [0.0, 1.0, 1e12] {
            let m = Making {
                clusters: vec![(area, Vec::new()); nc],
                ..Making::default()
            };
            script.room(&m);
            assert_eq!(filled(script, m.told(0)), [0, 0, 0]);
            assert_eq!(filled(script, m.told(1)), [0, 1, 0]);
            assert_eq!(filled(script, m.told(9)), [0, 1, 0]);
        }
    }
}

/// Rows and clusters that are empty, first, last, between others, or all of them.
fn without_links_or_members(script: &mut Script) {
    let surfels: Vec<Patch> = (1..=4)
        .map(|k| patch(0.2 * k as f32, k as f32, 0.3))
        .collect();
    let clusters = vec![(1.5, vec![0]), (2.0, vec![1, 2]), (4.5, vec![3])];
    let rows: Vec<Vec<(u32, f32)>> = (0..4)
        .map(|i| (0..3).map(|c| (c, 0.1 + 0.05 * (i + c) as f32)).collect())
        .collect();
    let whole = Making {
        surfels,
        clusters,
        rows,
    };
    let mut list = Vec::new();
    for empty in 0..4 {
        let mut m = whole.clone();
        m.rows[empty].clear();
        list.push(m.clone());
        m.clusters[empty % 3].1.clear();
        list.push(m);
    }
    let mut m = whole.clone();
    m.rows.iter_mut().for_each(Vec::clear);
    list.push(m.clone());
    m.clusters.iter_mut().for_each(|cluster| cluster.1.clear());
    list.push(m.clone());
    m.rows = whole.rows;
    list.push(m);
    for m in list {
        each_limit(script, &m);
    }
}

/// A member twice in a cluster, in several clusters, in none; members in falling order.
fn repeated_members(script: &mut Script) {
    let surfels: Vec<Patch> = (0..3)
        .map(|k| patch(0.7, 0.5 + k as f32, 0.1 + 0.3 * k as f32))
        .collect();
    let rows = vec![vec![(0, 0.3), (1, 0.2)], vec![(1, 0.6)], vec![(0, 0.4)]];
    let lists: [[&[u32]; 2]; 6] = [
        [&[0, 0], &[1, 2]],
        [&[0, 1, 2], &[0, 1, 2]],
        [&[2, 1, 0], &[2]],
        [&[1, 1, 1, 1, 1, 1, 1], &[1]],
        [&[], &[2, 0, 2, 0]],
        [&[0; 31], &[0]],
    ];
    for lists in lists {
        let clusters = lists.map(|list| (1.25 * list.len() as f32, list.to_vec()));
        let m = Making {
            surfels: surfels.clone(),
            clusters: clusters.to_vec(),
            rows: rows.clone(),
        };
        each_limit(script, &m);
    }
}

/// Zero, and minus zero, wherever a range starts at 0; and minus zero as light.
fn zeros(script: &mut Script) {
    for zero in [0.0, -0.0] {
        let bright = patch(0.5, 1.0, 1.0);
        let rooms = [
            Making::single(patch(zero, 1.0, 1.0), 1.0, 0.5),
            Making::single(patch(0.5, zero, 1.0), 1.0, 0.5),
            Making::single(patch(0.5, 1.0, zero), 1.0, 0.5),
            Making::single(bright, zero, 0.5),
            Making::single(bright, 1.0, zero),
            Making::single(patch(zero, zero, zero), zero, zero),
        ];
        for m in rows_of_zeros(rooms) {
            script.fill();
            script.fresh(&m);
            script.solved(m.told(3));
            for rad in [1.0, -1.0, 0.0, -0.0] {
                script.light(&[Vec3::splat(-0.0)], &[Vec3::splat(rad)]);
                script.solved(m.told(1));
            }
        }
    }
}

/// The rooms, and each with an empty row as well.
fn rows_of_zeros(rooms: [Making; 6]) -> Vec<Making> {
    let empty = rooms.clone().map(|mut m| {
        m.rows[0].clear();
        m
    });
    [rooms, empty].concat()
}

/// A cluster area at 1e-12 and beside it, far below and far above.
fn small_cluster_areas(script: &mut Script) {
    let least = 1e-12f32;
    let areas = [
        least,
        least.next_down(),
        least.next_up(),
        LEAST,
        1e-30,
        5e-13,
        2e-12,
        1e-6,
        1e12,
    ];
    for area in areas {
        for (s, weight) in [(patch(0.5, 1.0, 1.0), 0.5), (patch(0.9, 3e-13, 0.7), 1.9)] {
            let m = Making::single(s, area, weight);
            script.fresh(&m);
            script.solved(m.told(1));
            script.solved(m.told(4));
        }
    }
}

/// Tables of exactly the need, and longer by one; as many surfels, clusters, members and links as
/// there are places.
fn as_lent(script: &mut Script) {
    let full = Making {
        surfels: (1..=12)
            .map(|k| patch(0.06 * k as f32, 0.2 * k as f32, 0.11 * k as f32))
            .collect(),
        clusters: (0..8)
            .map(|c| (0.5 + c as f32, (4 * c..4 * c + 4).map(|k| k % 12).collect()))
            .collect(),
        rows: (0..12)
            .map(|i| {
                let links = if i < 8 { 8 } else { 0 };
                (0..links).map(|c| (c, 0.01 * (1 + i + c) as f32)).collect()
            })
            .collect(),
    };
    for m in [full, Making::q(), Making::default()] {
        let need = m.need();
        let longer = Lent {
            albedo: need.albedo + 1,
            irr: need.irr + 2,
            rad: need.rad + 1,
            scratch: need.scratch + 1,
            ..need
        };
        for lent in [need, longer, Lent::ALL] {
            script.lend(lent);
            script.room(&m);
            script.fill();
            script.solve(m.told(2));
            script.show_all();
            script.solve(m.told(30));
            script.show_all();
        }
    }
    script.lend(Lent::ALL);
}
