//! Facts that document 01 gives, asked of this build of the Rust, places where another order of
//! float steps gives other bits, the tables of the closure's directions, and the steps of placement.
//! `oracle/build` runs these tests.

// Shared with the replays, which use all of them.
#[allow(dead_code)]
mod answers;
mod reports;
#[allow(dead_code)]
mod room_files;
mod room_refusals;
mod weights;

use interflect::formfactor::{self, Cluster, Transfer};
use interflect::scene::{open::of_shapes, QuadLight, Scene};
use interflect::sdf::{Object, Prim};
use interflect::solve::{light_surfels, solve};
use interflect::surfel::{self, gather, Grid, Surfel};
use interflect::{ltc, trace, Vec3};
use room_files::{bytes_of, RoomFile};

/// The surfel of room Q after a reset, and the room's one link.
fn room_q() -> ([Surfel; 1], Transfer) {
    let surfel = Surfel {
        p: Vec3::ZERO,
        n: Vec3::new(0.0, 0.0, 1.0),
        albedo: Vec3::splat(0.5),
        area: 1.0,
        direct: Vec3::ONE,
        irr: Vec3::ZERO,
        rad: Vec3::ONE,
    };
    let cluster = Cluster {
        p: surfel.p,
        n: surfel.n,
        area: 1.0,
        radius: 0.0,
        members: vec![0],
    };
    let transfer = Transfer {
        clusters: vec![cluster],
        mean_row_sum: 0.0,
        starts: vec![0, 1],
        idx: vec![0],
        w: vec![0.5],
        nc: 1,
        links: 1,
    };
    ([surfel], transfer)
}

/// Room Q's grid over the given points.
fn grid_q(points: &[Vec3]) -> Grid {
    Grid::build(points, Vec3::ZERO, Vec3::new(4.0, 1.0, 1.0), 1.0)
}

#[test]
fn halton_in_base_2() {
    let points = [1, 2, 3, 6].map(|i| surfel::open::halton(i, 2));
    assert_eq!(points, [0.5, 0.25, 0.75, 0.375]);
}

#[test]
fn the_closure_has_the_same_radical_inverse() {
    for (i, base) in (1..=16).flat_map(|i| [(i, 2), (i, 3)]) {
        let inverse = trace::open::radical_inverse(i, base);
        assert_eq!(inverse.to_bits(), surfel::open::halton(i, base).to_bits());
    }
}

#[test]
fn roots() {
    assert_eq!(4f32.sqrt(), 2.0);
    assert_eq!(2f32.sqrt().to_bits(), 0x3FB504F3);
    assert_eq!(f32::from_bits(1).sqrt().to_bits(), 0x1A3504F3);
}

#[test]
fn normal_buckets() {
    let normals = [
        (1.0, 1.0, 1.0),
        (-1.0, 1.0, 0.0),
        (0.0, 1.0, 1.0),
        (0.0, 0.0, -1.0),
    ];
    let buckets = normals.map(|(x, y, z)| formfactor::open::normal_bucket(Vec3::new(x, y, z)));
    assert_eq!(buckets, [0, 1, 2, 5]);
}

/// Zeros of both signs are along x, and not below 0.
#[test]
fn normal_buckets_of_zeros() {
    let zeros = [Vec3::ZERO, Vec3::splat(-0.0), Vec3::new(-0.0, 0.0, -0.0)];
    assert_eq!(zeros.map(formfactor::open::normal_bucket), [0, 0, 0]);
    let lone = [Vec3::new(-0.0, -1.0, 0.0), Vec3::new(-0.0, 0.0, 1.0)];
    assert_eq!(lone.map(formfactor::open::normal_bucket), [3, 4]);
}

/// Room Q's surfel at another place, with another normal and area.
fn surfel_at(p: Vec3, n: Vec3, area: f32) -> Surfel {
    let ([surfel], _) = room_q();
    Surfel {
        p,
        n,
        area,
        ..surfel
    }
}

/// The clusters of these surfels in a box from 0 to this size.
fn clusters_in(size: f32, surfels: &[Surfel], res: i32) -> Vec<Cluster> {
    let mut scene = of_shapes(Vec::new(), Vec::new());
    scene.bounds = (Vec3::ZERO, Vec3::splat(size));
    formfactor::build_clusters(&scene, surfels, res)
}

/// "a cluster whose area is at most 1e-12 is dropped".
#[test]
fn an_area_of_1e_12_is_dropped() {
    let count = |area| clusters_in(1.0, &[surfel_at(Vec3::ONE, Vec3::Y, area)], 1).len();
    assert_eq!(count(1e-12), 0);
    assert_eq!(count(1e-12f32.next_up()), 1);
}

/// "key (voxel x, y, z, normal bucket) ascending, members ascending".
#[test]
fn clusters_in_the_order_of_their_keys() {
    let spots = [
        (1.5, 0.5, 0.5),
        (0.5, 1.5, 0.5),
        (0.5, 0.5, 1.5),
        (0.5, 0.5, 0.5),
    ];
    let mut surfels: Vec<Surfel> = spots
        .map(|(x, y, z)| surfel_at(Vec3::new(x, y, z), Vec3::Y, 1.0))
        .to_vec();
    surfels.push(surfel_at(Vec3::ONE * 0.5, Vec3::new(1.0, 0.0, 0.0), 1.0));
    surfels.push(surfels[1]);
    let members: Vec<Vec<u32>> = clusters_in(2.0, &surfels, 2)
        .into_iter()
        .map(|c| c.members)
        .collect();
    assert_eq!(members, [vec![4], vec![3], vec![2], vec![1, 5], vec![0]]);
}

/// A voxel is (p - lo) × (resolution / extent): divided by the extent first, or last, it would be 4.
#[test]
fn voxels_are_counted_by_the_resolution_over_the_extent() {
    let (x, size) = (f32::from_bits(0x3FF0B4F8), f32::from_bits(0x40529E59));
    assert_eq!((x / size * 7.0) as i32, 4);
    assert_eq!((x * 7.0 / size) as i32, 4);
    let fourth = surfel_at(Vec3::new(size * 3.1 / 7.0, 0.0, 0.0), Vec3::Y, 1.0);
    let surfels = [fourth, surfel_at(Vec3::new(x, 0.0, 0.0), Vec3::Y, 1.0)];
    assert_eq!(clusters_in(size, &surfels, 7).len(), 1);
}

/// A cluster's normal is multiplied by one over its length: divided by it, z would be 3EF8DCFC.
#[test]
fn a_cluster_normal_is_multiplied_by_one_over_its_length() {
    let [x, y, z] = [0x3F0A69F0, 0x3F2FC49B, 0x3EF8DCFB].map(f32::from_bits);
    let surfel = surfel_at(Vec3::ONE, Vec3::new(x, y, z), 1.0);
    let clusters = clusters_in(1.0, &[surfel], 1);
    assert_eq!(clusters[0].n.z.to_bits(), 0x3EF8DCFD);
}

/// A cluster's centre can pass 10,000 by rounding: rows over it are then refused with 5.
#[test]
fn a_centre_past_10_000() {
    let areas = [0x3D3C6A7F, 0x3EE978D5].map(f32::from_bits);
    let surfels = areas.map(|area| surfel_at(Vec3::splat(10_000.0), Vec3::Y, area));
    let clusters = clusters_in(10_000.0, &surfels, 1);
    assert_eq!(clusters[0].p.x.to_bits(), 0x461C4001);
}

/// One surfel at zero that looks up, one cluster above it that looks down, in this scene.
fn row_in(mut scene: Scene, area: f32) -> (Transfer, u64) {
    scene.bounds = (Vec3::splat(-2.0), Vec3::splat(2.0));
    let up = Vec3::new(0.0, 0.0, 1.0);
    let cluster = Cluster {
        p: up,
        n: -up,
        area,
        radius: 0.1,
        members: Vec::new(),
    };
    formfactor::build(&scene, &[surfel_at(Vec3::ZERO, up, 1.0)], vec![cluster])
}

/// A row whose target is 0 keeps its links, at weight 0. Each of the 16 marches ends after a sample.
#[test]
fn a_row_under_the_open_sky_keeps_its_links() {
    let (transfer, evals) = row_in(of_shapes(Vec::new(), Vec::new()), 1.0);
    assert_eq!((transfer.links, transfer.starts), (1, vec![0, 1]));
    assert_eq!(transfer.w[0].to_bits(), 0);
    assert_eq!(transfer.mean_row_sum.to_bits(), 0);
    let (_, marches) = row_in(of_shapes(Vec::new(), Vec::new()), 0.0);
    assert_eq!(marches, 16);
    assert!(evals > 16);
}

/// "scaled by min(target/sum, 8)": below an eighth of the target the mean is 8 times the sum.
#[test]
fn a_row_is_scaled_by_8_at_most() {
    let walls = [(1.0, 0.0, 0.0), (0.0, 1.0, 0.0), (0.0, 0.0, 1.0)];
    let normals = walls.map(|(x, y, z)| Vec3::new(x, y, z));
    let planes: Vec<Object> = normals
        .iter()
        .flat_map(|&n| [plane(n, -2.0), plane(-n, -2.0)])
        .collect();
    let sum = |area| row_in(of_shapes(planes.clone(), Vec::new()), area).0;
    assert_eq!(sum(1.0).mean_row_sum, 1.0);
    let small = sum(0.01);
    assert!(small.mean_row_sum < 0.1);
    assert_eq!(small.mean_row_sum, small.w[0]);
}

#[test]
fn three_bounces_of_q() {
    let (mut surfels, transfer) = room_q();
    assert_eq!(solve(&mut surfels, &transfer, 3).residual, 0.015625);
}

#[test]
fn the_report_of_q() {
    let (mut surfels, transfer) = room_q();
    let stats = solve(&mut surfels, &transfer, 12);
    assert_eq!(stats.iterations, 7);
    assert_eq!(stats.residual.to_bits(), 0x38800000);

    let grid = grid_q(&[surfels[0].p]);
    let probe = |x| gather(&surfels, &grid, Vec3::new(x, 0.0, 0.0), surfels[0].n, 1.0);
    assert_eq!(probe(0.0).x.to_bits(), 0x3F2AA800);
    assert_eq!(probe(1.0).x.to_bits(), 0);
}

/// Room Q's file, word by word as document 01 lays it out: the header, a surfel, a cluster, a member,
/// two row starts, a link, the box, the cell and the radius, and two probes.
const FILE_Q: [u32; 57] = [
    1, 1, 1, 1, 1, 2, 12, 64, 116, 128, 132, 140, 148, 228, 0, 0, //
    0, 0, 0, 0, 0, 0x3F800000, 0x3F000000, 0x3F000000, 0x3F000000, 0x3F800000, //
    0x3F800000, 0x3F800000, 0x3F800000, //
    0x3F800000, 0, 1, //
    0, //
    0, 1, //
    0, 0x3F000000, //
    0, 0, 0, 0x40800000, 0x3F800000, 0x3F800000, 0x3F800000, 0x3F800000, //
    0, 0, 0, 0, 0, 0x3F800000, 0x3F800000, 0, 0, 0, 0, 0x3F800000,
];

#[test]
fn the_file_of_q() {
    assert_eq!(RoomFile::q().words(), FILE_Q);
    let bytes = RoomFile::q().bytes();
    assert_eq!(bytes.len(), 228);
    assert_eq!(bytes[..8], [1, 0, 0, 0, 1, 0, 0, 0]);
    assert_eq!(bytes[28..36], [64, 0, 0, 0, 116, 0, 0, 0]);
}

/// "It prints exactly".
#[test]
fn the_text_of_q() {
    let text = "surfels 1 clusters 1 links 1
bounces 7 residual 38800000 settled
probe 0 seen 3F2AA800 3F2AA800 3F2AA800
probe 1 unseen 00000000 00000000 00000000
";
    assert_eq!(reports::report(&bytes_of(&FILE_Q)), text);
}

/// What is printed of room Q with one word of its file changed.
fn report_of_q(place: usize, word: u32) -> String {
    let mut words = FILE_Q;
    words[place] = word;
    reports::report(&bytes_of(&words))
}

/// "A refusal prints only `refused`, a space and the number": a form, a limit, a cell, a grid, an
/// albedo and a member.
#[test]
fn the_refusals_of_q() {
    let (tiny, above) = (0.0001f32.to_bits(), 1.0f32.next_up().to_bits());
    assert_eq!(report_of_q(0, 2), "refused 1\n");
    assert_eq!(report_of_q(6, 4_097), "refused 2\n");
    assert_eq!(report_of_q(43, 0), "refused 3\n");
    assert_eq!(report_of_q(43, tiny), "refused 4\n");
    assert_eq!(report_of_q(22, above), "refused 5\n");
    assert_eq!(report_of_q(32, 1), "refused 7\n");
    assert_eq!(reports::report(&bytes_of(&FILE_Q)[..227]), "refused 1\n");
}

/// "It has 16,384 places for grid starts": 127 × 43 × 3 cells need them all, 128 × 128 one more.
#[test]
fn places_for_grid_starts() {
    let of_box = |x, y, z| {
        let mut room = RoomFile::empty(Vec3::ZERO, Vec3::new(x, y, z), 1.0, 1.0);
        room.limit = 12;
        reports::report(&room.bytes())
    };
    let nothing = "surfels 0 clusters 0 links 0\nbounces 0 residual 00000000 open\n";
    assert_eq!(of_box(127.0, 43.0, 3.0), nothing);
    assert_eq!(of_box(128.0, 128.0, 1.0), "refused 4\n");
}

/// A file without surfels and probes has a header, one row start and the eight floats of a box.
#[test]
fn the_smallest_file() {
    let room = RoomFile::empty(Vec3::ZERO, Vec3::ONE, 1.0, 1.0);
    assert_eq!(room.bytes().len(), 100);
    assert!(reports::report(&room.bytes()).starts_with("surfels 0 "));
}

/// "a lent slice shorter than its need": room Q has one surfel, and so two row starts, and two probes.
#[test]
fn the_columns_of_q() {
    let need = [3, 3, 3, 1, 3, 1, 1, 1, 1, 2, 1, 1, 6, 6];
    assert_eq!(room_refusals::needs(&RoomFile::q()), need);
    let number = |lent| room_refusals::read_into(&bytes_of(&FILE_Q), &lent).err();
    assert_eq!(number(need), None);
    for column in 0..14 {
        let mut lent = need;
        lent[column] -= 1;
        assert_eq!(number(lent), Some(4));
    }
}

/// The number that refuses a file of more than 65,536 bytes by the limits of any file, and 1 by those
/// of `roomlight`; 0 where no number does.
fn number_of(room: &RoomFile) -> u32 {
    let bytes = room.bytes();
    let number = |limits| room_refusals::read(&bytes, limits).map_or_else(|n| n, |_| 0);
    assert!(bytes.len() > 65_536);
    assert_eq!(number(room_refusals::ROOMLIGHT), 1);
    number(room_refusals::FILE)
}

/// "surfels, members, points or target over 400,000; clusters over 65,536".
#[test]
fn counts_over_their_limits() {
    let q = RoomFile::q();
    for (more, number) in [(0, 0), (1, 2)] {
        let mut room = q.clone();
        room.probes = vec![q.probes[0]; 400_000 + more];
        assert_eq!(number_of(&room), number);
        room = q.clone();
        room.set_clusters(&[(1.0, vec![0; 400_000 + more])]);
        assert_eq!(number_of(&room), number);
        room.set_clusters(&vec![(1.0, Vec::new()); 65_536 + more]);
        assert_eq!(number_of(&room), number);
        room = q.clone();
        room.surfels = vec![q.surfels[0]; 400_000 + more];
        room.set_rows(&vec![Vec::new(); 400_000 + more]);
        assert_eq!(number_of(&room), number);
    }
}

#[test]
fn five_bounces_and_two_are_seven() {
    let (mut once, transfer) = room_q();
    let (mut twice, _) = room_q();
    solve(&mut once, &transfer, 7);
    solve(&mut twice, &transfer, 5);
    solve(&mut twice, &transfer, 2);
    assert_eq!(once[0].irr.x.to_bits(), twice[0].irr.x.to_bits());
    assert_eq!(once[0].rad.x.to_bits(), twice[0].rad.x.to_bits());
}

/// Q's light after the last bounce, that of its cluster too: a black surfel that belongs to no
/// cluster, with one link of weight 1, shows it.
#[test]
fn the_last_light_of_q() {
    let ([surfel], mut transfer) = room_q();
    let mut black = surfel;
    (black.albedo, black.direct, black.rad) = (Vec3::ZERO, Vec3::ZERO, Vec3::ZERO);
    (transfer.starts, transfer.idx) = (vec![0, 1, 2], vec![0, 0]);
    (transfer.w, transfer.links) = (vec![0.5, 1.0], 2);
    let mut surfels = [surfel, black];
    assert_eq!(solve(&mut surfels, &transfer, 12).iterations, 7);
    assert_eq!(surfels[0].irr.x.to_bits(), 0x3F2AA800);
    assert_eq!(surfels[0].rad.x.to_bits(), 0x3FAAAA00);
    assert_eq!(surfels[1].irr.x.to_bits(), 0x3FAAA800);
}

/// A limit of 8 makes seven bounces, as one of 12 does; a solve after that makes one more.
#[test]
fn eight_bounces_and_four() {
    let (mut surfels, transfer) = room_q();
    let first = solve(&mut surfels, &transfer, 8);
    assert_eq!(first.iterations, 7);
    assert_eq!(first.residual.to_bits(), 0x38800000);
    assert_eq!(solve(&mut surfels, &transfer, 4).iterations, 1);
}

/// "A limit of 0: 0 bounces, last change 0", and the same with no clusters.
#[test]
fn no_bounce() {
    let (mut surfels, mut transfer) = room_q();
    let stats = solve(&mut surfels, &transfer, 0);
    assert_eq!((stats.iterations, stats.residual.to_bits()), (0, 0));
    (transfer.nc, transfer.links) = (0, 0);
    let stats = solve(&mut surfels, &transfer, 12);
    assert_eq!((stats.iterations, stats.residual.to_bits()), (0, 0));
    assert_eq!(surfels[0].rad.x, 1.0);
}

/// No surfel and a cluster: one bounce, "starting at 0" and so settled.
#[test]
fn one_bounce_of_no_surfel() {
    let (_, mut transfer) = room_q();
    transfer.clusters[0].members.clear();
    let stats = solve(&mut [], &transfer, 12);
    assert_eq!((stats.iterations, stats.residual.to_bits()), (1, 0));
}

/// Room Q without its light but for this rad, and black: the first bounce takes that away.
fn bounces_of_a_change(change: f32) -> u32 {
    let ([mut surfel], transfer) = room_q();
    (surfel.albedo, surfel.direct) = (Vec3::ZERO, Vec3::ZERO);
    surfel.rad = Vec3::splat(change);
    solve(&mut [surfel], &transfer, 12).iterations
}

/// "a run stops when that is under 0.0001".
#[test]
fn a_change_of_0_0001_is_not_the_last() {
    assert_eq!(bounces_of_a_change(0.0001), 2);
    assert_eq!(bounces_of_a_change(-0.0001), 2);
    assert_eq!(bounces_of_a_change(0.0001f32.next_down()), 1);
}

/// The cluster's light is divided by its area: multiplied by one over it, 1 would be 3F7FFFFF.
#[test]
fn the_light_of_a_cluster_is_divided_by_its_area() {
    let ([mut surfel], mut transfer) = room_q();
    surfel.area = 41.0;
    transfer.clusters[0].area = 41.0;
    transfer.w[0] = 1.0;
    let mut surfels = [surfel];
    solve(&mut surfels, &transfer, 1);
    assert_eq!(surfels[0].irr.x, 1.0);
}

/// A link of weight 0 is not left out: infinite light makes it NaN.
#[test]
fn a_link_of_weight_0_is_not_left_out() {
    let ([mut surfel], mut transfer) = room_q();
    surfel.rad = Vec3::splat(f32::INFINITY);
    transfer.w[0] = 0.0;
    let mut surfels = [surfel];
    solve(&mut surfels, &transfer, 1);
    assert!(surfels[0].irr.x.is_nan());
}

/// "A reset (from `light_surfels`) sets `direct` and `rad` to the given light and `irr` to zero".
#[test]
fn a_reset_sets_the_light() {
    let corner = |x: f32, y: f32| Vec3::new(x, y, 2.0);
    let mut scene = of_shapes(Vec::new(), Vec::new());
    scene.lights = vec![QuadLight {
        verts: [
            corner(-1.0, -1.0),
            corner(-1.0, 1.0),
            corner(1.0, 1.0),
            corner(1.0, -1.0),
        ],
        emit: Vec3::new(1.0, 2.0, 3.0),
    }];
    let (mut surfels, _) = room_q();
    surfels[0].irr = Vec3::splat(f32::NAN);
    light_surfels(&scene, &mut surfels);
    let [s] = surfels;
    assert!(s.direct.x > 0.0 && s.direct.x != 1.0);
    assert_eq!(bits(s.rad), bits(s.direct));
    assert_eq!(bits(s.irr), [0; 3]);
}

#[test]
fn four_points_in_the_grid_of_q() {
    let grid = grid_q(&[3.5, 0.5, 0.5, 1.5].map(|x| Vec3::new(x, 0.5, 0.5)));
    assert_eq!(surfel::open::starts(&grid), [0, 2, 3, 3, 4]);
    assert_eq!(surfel::open::items(&grid), [1, 2, 3, 0]);
}

/// "Each of three dimensions is ceil(extent × (1/cell))": by division there would be 5.
#[test]
fn cells_are_counted_by_one_over_the_cell() {
    let (extent, cell) = (f32::from_bits(0x3C75C290), f32::from_bits(0x3B449BA6));
    let grid = Grid::build(&[], Vec3::ZERO, Vec3::splat(extent), cell);
    assert_eq!(grid.dim, [6, 6, 6]);
}

/// "cells 0, 0.0001, 10,000": the first is refused, so the Rust is not asked for it.
#[test]
fn the_least_and_the_largest_cell() {
    let dim = |hi, cell| Grid::build(&[], Vec3::ZERO, hi, cell).dim;
    assert_eq!(dim(Vec3::new(0.0005, 0.00095, 0.0), 0.0001), [5, 10, 1]);
    assert_eq!(dim(Vec3::splat(0.0003), 0.0001), [4, 4, 4]);
    assert_eq!(dim(Vec3::new(4.0, 1.0, 1.0), 0.0001), [512, 512, 512]);
    assert_eq!(dim(Vec3::new(4.0, 1.0, 10_000.0), 10_000.0), [1, 1, 1]);
}

/// "z outermost, x innermost, and point numbers in list order".
#[test]
fn the_cells_near_a_point_in_their_order() {
    // Point k lies in cell 7 - k of eight, and point 8 beside point 7.
    let spots = [7, 6, 5, 4, 3, 2, 1, 0, 0];
    let points = spots.map(|c| Vec3::new((c % 2) as f32, (c / 2 % 2) as f32, (c / 4) as f32));
    let grid = Grid::build(&points, Vec3::ZERO, Vec3::splat(2.0), 1.0);
    let near = |reach| {
        let mut list = Vec::new();
        grid.for_each_near(Vec3::ZERO, reach, |number| list.push(number));
        list
    };
    assert_eq!(near(0), [7, 8]);
    assert_eq!(near(1), [7, 8, 6, 5, 4, 3, 2, 1, 0]);
}

/// One surfel at zero with this irradiance, read in room Q's grid.
fn read(irr: f32, at: f32, n: f32, radius: f32) -> f32 {
    let (mut surfels, _) = room_q();
    surfels[0].irr = Vec3::splat(irr);
    let grid = grid_q(&[surfels[0].p]);
    let (p, n) = (Vec3::new(at, 0.0, 0.0), Vec3::new(0.0, 0.0, n));
    gather(&surfels, &grid, p, n, radius).x
}

/// "radius 0 is unseen": the Rust gives zero.
#[test]
fn a_radius_of_0_gives_zero() {
    assert_eq!(read(1.0, 0.0, 1.0, 0.0).to_bits(), 0);
    assert_eq!(read(f32::NAN, 0.0, 1.0, 0.0).to_bits(), 0);
}

/// The light is divided by the weight sum: multiplied by one over it, 1 would be 3F7FFFFF.
#[test]
fn a_reading_is_divided_by_its_weight() {
    assert_eq!(41.0 * (1.0 / 41.0f32), f32::from_bits(0x3F7FFFFF));
    assert_eq!(read(1.0, 0.0, 41.0, 1.0), 1.0);
}

/// A normal's dot product of 0.15 does not count, the next float does.
#[test]
fn a_dot_product_over_0_15() {
    assert_eq!(read(1.0, 0.0, 0.15, 1.0).to_bits(), 0);
    assert_eq!(read(1.0, 0.0, 0.15f32.next_up(), 1.0), 1.0);
}

/// A surfel at exactly the radius counts with the weight 0, which infinite light makes NaN.
#[test]
fn a_weight_of_0_is_not_left_out() {
    let (mut surfels, _) = room_q();
    surfels[0].irr = Vec3::splat(f32::INFINITY);
    let mut second = surfels[0];
    second.p = Vec3::new(1.0, 0.0, 0.0);
    second.irr = Vec3::ONE;
    let surfels = [surfels[0], second];
    let grid = grid_q(&surfels.map(|s| s.p));
    let at = |x| gather(&surfels, &grid, Vec3::new(x, 0.0, 0.0), surfels[0].n, 1.0).x;
    assert!(at(1.0).is_nan());
    assert_eq!(at(1.0f32.next_up()), 1.0);
}

/// A plane without subtractions.
fn plane(n: Vec3, h: f32) -> Object {
    alone(Prim::Plane { n, h })
}

/// A shape without subtractions.
fn alone(prim: Prim) -> Object {
    Object {
        prim,
        subtract: Vec::new(),
        mat: 0,
        blend: 0.0,
    }
}

/// A scene's normal is divided by its length: multiplied by one over it, y would be 3F2FC423.
#[test]
fn a_normal_is_divided_by_its_length() {
    let [x, y, z] = [0x3F0A69F0, 0x3F2FC49B, 0x3EF8DCFB].map(f32::from_bits);
    let scene = of_shapes(vec![plane(Vec3::new(x, y, z), 0.0)], Vec::new());
    let normal = scene.normal(Vec3::new(0.25, 0.5, 0.125));
    assert_eq!(normal.y.to_bits(), 0x3F2FC424);
}

// ---- the 16 directions of the closure: the tables that the port has (`oracle/directions`)

const COS: [u32; 16] = [
    0xBF000001, 0xBEFFFFFD, 0x3F441B7C, 0xBF708FB4, 0x3E31D0F2, 0x3E31D0C7, 0xBF708FB1, 0x3F441B86,
    0x3F791978, 0xBF2FAD89, 0xBE92D7E2, 0x3F18DF61, 0xBF7E44DF, 0x3ECACAFF, 0xBD6E2984, 0xBF55E287,
];

/// On a C library that rounds correctly the last is BF0CACA0.
const SIN: [u32; 16] = [
    0x3F5DB3D7, 0xBF5DB3D8, 0x3F248DBC, 0x3EAF1D37, 0xBF7C1C5B, 0x3F7C1C5D, 0xBEAF1D4C, 0xBF248DB0,
    0x3E6C2693, 0x3F3A3528, 0xBF753ECD, 0x3F4D57F3, 0x3DEDC1E6, 0xBF6B1034, 0x3F7F911F, 0xBF0CAC9F,
];

/// The factors of t, of b and of n.
const PARTS: [[u32; 3]; 16] = [
    [0xBEB504F4, 0x3F1CC470, 0x3F3504F3],
    [0xBE7FFFFD, 0xBEDDB3D8, 0x3F5DB3D7],
    [0x3F29D57E, 0x3F0E81F5, 0x3F000000],
    [0xBEAA1A41, 0x3DF7A615, 0x3F6F7751],
    [0x3E0C9378, 0xBF474FA2, 0x3F1CC471],
    [0x3DD9C757, 0x3F1A62BE, 0x3F4A62C2],
    [0xBF610645, 0xBEA3CDF8, 0x3EB504F3],
    [0x3E441B86, 0xBE248DB0, 0x3F77DEF6],
    [0x3F3AD31A, 0x3E311CEE, 0x3F2953FD],
    [0xBEC469F1, 0x3ED02FBD, 0x3F544395],
    [0xBE845CDD, 0xBF5D0FA7, 0x3EDDB3D7],
    [0x3E84643B, 0x3EB1D52E, 0x3F66C15A],
    [0xBF52D429, 0x3DC52357, 0x3F0F1BBD],
    [0x3E86228B, 0xBF1B7AD1, 0x3F400000],
    [0xBD66997B, 0x3F77739A, 0x3E800000],
    [0xBE173D4C, 0xBDC6F189, 0x3F7BF7DF],
];

#[test]
fn the_16_directions() {
    for k in 0..16 {
        let direction = trace::open::direction(k as u32);
        assert_eq!(direction.cos.to_bits(), COS[k]);
        assert_eq!(direction.sin.to_bits(), SIN[k]);
        assert_eq!(direction.parts.map(f32::to_bits), PARTS[k]);
    }
}

/// The closure by the table: the open part and the evaluations of its 16 marches.
fn closure_by_table(scene: &Scene, p: Vec3, n: Vec3, tmax: f32) -> (f32, u32) {
    let (t, b) = ltc::frame(n);
    let marches = PARTS.map(|part| {
        let [x, y, z] = part.map(f32::from_bits);
        let d = t * x + b * y + n * z;
        trace::trace(scene, p + n * 1e-3, d.normalize(), 1e-3, tmax)
    });
    let open = marches.iter().filter(|(hit, _)| hit.is_none()).count();
    let evals = marches.iter().map(|(_, evals)| evals).sum();
    (open as f32 / 16.0, evals)
}

/// `hemisphere_closure` itself marches in the table's directions: in each of these scenes, by ends
/// that lie close to one another, it counts the same directions as open.
#[test]
fn the_closure_takes_these_directions() {
    let floor = plane(Vec3::Y, 0.0);
    let wall = plane(Vec3::new(-0.6, 0.0, 0.8), -2.0);
    for size in [0.25, 0.5, 1.0, 1.5] {
        let ball = alone(Prim::Sphere {
            c: Vec3::new(0.5, 2.0, -0.25),
            r: size,
        });
        let scene = of_shapes(vec![floor.clone(), wall.clone()], vec![ball]);
        for end in 0..200 {
            let tmax = 0.05 * end as f32;
            let (p, n) = (Vec3::new(0.25, 0.0, 0.125), Vec3::Y);
            let closure = trace::hemisphere_closure(&scene, p, n, tmax, 16);
            assert_eq!(closure, closure_by_table(&scene, p, n, tmax));
        }
    }
}

// ---- placement

/// The seeds 1, 2 and 3, in bases 2, 3 and 5. 1/9 by one division would be 3DE38E39.
#[test]
fn the_first_three_seeds() {
    let seed = |i| [2, 3, 5].map(|base| surfel::open::halton(i, base).to_bits());
    assert_eq!(seed(1), [0x3F000000, 0x3EAAAAAB, 0x3E4CCCCD]);
    assert_eq!(seed(2), [0x3E800000, 0x3F2AAAAB, 0x3ECCCCCD]);
    assert_eq!(seed(3), [0x3F400000, 0x3DE38E3A, 0x3F19999A]);
}

/// The surfels of a scene of planes and objects in a box.
fn placed(planes: Vec<Object>, objects: Vec<Object>, lo: Vec3, hi: Vec3, n: usize) -> Vec<Surfel> {
    let mut scene = of_shapes(planes, objects);
    scene.bounds = (lo, hi);
    surfel::generate(&scene, n)
}

/// The floor of a box from 0 to this corner, whose normal is as long as this.
fn on_floor(hi: Vec3, length: f32, h: f32, n: usize) -> Vec<Surfel> {
    let floor = plane(Vec3::new(0.0, length, 0.0), h);
    placed(vec![floor], Vec::new(), Vec3::ZERO, hi, n)
}

fn bits(v: Vec3) -> [u32; 3] {
    [v.x, v.y, v.z].map(f32::to_bits)
}

/// Bounds without height on a plane: every seed is on it at once. The first is seed 1, not seed 0, which
/// would be at zero.
#[test]
fn the_seeds_start_at_1() {
    let surfels = on_floor(Vec3::new(4.0, 0.0, 2.0), 1.0, 0.0, 1);
    assert_eq!(bits(surfels[0].p), bits(Vec3::new(2.0, 0.0, 0.4)));
    assert_eq!(surfels.len(), 1);
}

/// A ball and the target 1: where the first seed goes, its normal, its area and its albedo.
#[test]
fn one_surfel_on_a_ball() {
    let ball = alone(Prim::Sphere {
        c: Vec3::ZERO,
        r: 1.0,
    });
    let (lo, hi) = (Vec3::splat(-2.0), Vec3::splat(2.0));
    let surfels = placed(Vec::new(), vec![ball], lo, hi, 1);
    let s = &surfels[0];
    assert_eq!(bits(s.p), [0x38BA6481, 0xBEF8A339, 0xBF5FC99A]);
    assert_eq!(bits(s.n), [0xB8F9FBEE, 0xBEF8A433, 0xBF5FC953]);
    assert_eq!(s.area.to_bits(), 0x4293B13B);
    assert_eq!(bits(s.albedo), bits(Vec3::splat(0.8)));
}

/// A box of 2, 3 and 6 has a diagonal of 7: the target 49 sets surfels 1 apart, and each stands for
/// 1 / 0.65.
#[test]
fn the_separation_and_the_area() {
    let surfels = on_floor(Vec3::new(2.0, 3.0, 6.0), 1.0, 1.0, 49);
    assert_eq!((1.0f32 / 0.65).to_bits(), 0x3FC4EC4F);
    assert_eq!(surfels[0].area.to_bits(), 0x3FC4EC4F);
}

/// The same box lifted so that the first seed's y is 0; eps is 0.02. Nearer than that the seed stays, at
/// eps it is moved onto the plane.
#[test]
fn the_first_test_is_at_eps() {
    let first = |h: f32| {
        let floor = plane(Vec3::Y, h);
        let (lo, hi) = (Vec3::new(0.0, -1.0, 0.0), Vec3::new(2.0, 2.0, 6.0));
        placed(vec![floor], Vec::new(), lo, hi, 49)[0].p.y
    };
    assert_eq!(first(0.02f32.next_down()), 0.0);
    assert_eq!(first(0.02), 0.02);
    assert_eq!(first(0.03), 0.03);
}

/// Ten tests, with nine steps between them. From y = 1/3 a normal of length 0.32 leaves 0.0033 at the
/// tenth, less than eps: seed 1 is kept. One of length 0.3 leaves 0.004, and the next step, which would
/// be near enough, is not tested: seed 3 is the first that is kept.
#[test]
fn ten_tests_and_no_more() {
    let first = |length| on_floor(Vec3::ONE, length, 0.0, 100)[0].p.x;
    assert_eq!([first(0.32), first(0.3)], [0.5, 0.75]);
}

/// A seed whose distance is over the diagonal is dropped, one at it is not. With a normal of length 1.5
/// the second seed, at y = 1.3333334, has distance 2, the diagonal: its steps end near 1/64 of that y.
#[test]
fn a_distance_of_the_diagonal_is_not_too_far() {
    let surfels = on_floor(Vec3::new(0.0, 2.0, 0.0), 1.5, 0.0, 1);
    assert_eq!(surfels[0].p.y.to_bits(), 0x3CAAAAAA);
}

/// On a line of 4 the target 16 sets surfels 1 apart. The seeds 2, 1 and 3 are exactly 1 apart, and are
/// kept.
#[test]
fn exactly_the_separation_is_not_too_close() {
    let surfels = on_floor(Vec3::new(4.0, 0.0, 0.0), 1.0, 0.0, 16);
    let places: Vec<f32> = surfels.iter().map(|s| s.p.x).collect();
    assert_eq!(places, [2.0, 1.0, 3.0]);
}

/// A point on the bounds is kept, one beyond them is dropped. Some seeds are near enough at once, and
/// stay where they are.
#[test]
fn a_point_beyond_the_bounds_is_dropped() {
    let count = |h: f32| on_floor(Vec3::ONE, 1.0, h, 100).len();
    assert_eq!([0.0, -1e-6].map(count), [25, 7]);
}

/// "Target 0 gives none", and so does a scene with nothing in it.
#[test]
fn no_surfels() {
    assert_eq!(on_floor(Vec3::ONE, 1.0, 0.5, 0).len(), 0);
    assert_eq!(
        placed(Vec::new(), Vec::new(), Vec3::ZERO, Vec3::ONE, 9).len(),
        0
    );
}

/// A capsule whose ends differ by the least float: at x up to 0.5 its distance is NaN, and just beyond
/// that two of the normal's taps miss it.
#[test]
fn a_normal_that_is_no_number() {
    let least = Vec3::new(f32::from_bits(1), 0.0, 0.0);
    let short = alone(Prim::Capsule {
        a: Vec3::ZERO,
        b: least,
        r: 0.8,
    });
    let (lo, hi) = (Vec3::new(0.5, -1.0, -1.0), Vec3::new(0.5004, 1.0, 1.0));
    let surfels = placed(Vec::new(), vec![short], lo, hi, 4);
    assert!(!surfels.is_empty());
    for s in surfels {
        assert!(s.n.x.is_nan());
        assert_eq!([s.n.y, s.n.z], [0.0; 2]);
    }
}

/// The area passes 1,000,000 in the largest bounds: the next entry then refuses with 5.
#[test]
fn an_area_over_1_000_000() {
    let (lo, hi) = (Vec3::splat(-10_000.0), Vec3::splat(10_000.0));
    let surfels = placed(vec![plane(Vec3::Y, 0.0)], Vec::new(), lo, hi, 1);
    assert_eq!(surfels[0].area.to_bits(), 0x4EDC1425);
}
