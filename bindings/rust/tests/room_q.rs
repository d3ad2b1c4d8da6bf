//! Document 01's room Q: one surfel that lights itself by half, bit for bit.
use sokitahe::{Bounds, Clusters, Grid, Probe, Reading, Room, Rows, Surfels};

const UP: [f32; 3] = [0.0, 0.0, 1.0];
const BOX: Bounds = Bounds {
    lo: [0.0; 3],
    hi: [4.0, 1.0, 1.0],
};

/// Room Q with its light reset.
fn room_q() -> Room {
    let surfels = Surfels {
        p: vec![[0.0; 3]],
        normals: vec![UP],
        albedo: vec![[0.5; 3]],
        area: vec![1.0],
        direct: vec![[f32::NAN; 3]],
        irr: vec![[f32::NAN; 3]],
        rad: vec![[f32::NAN; 3]],
    };
    let clusters = Clusters {
        area: vec![1.0],
        first: vec![0],
        count: vec![1],
        members: vec![0],
        ..Clusters::default()
    };
    let rows = Rows {
        starts: vec![0, 1],
        link_cluster: vec![0],
        link_weight: vec![0.5],
        ..Rows::default()
    };
    let mut room = Room::new(surfels, clusters, rows);
    room.reset(&[[1.0; 3]]).expect("light within its range");
    room
}

#[test]
fn a_reset_sets_direct_and_rad_to_the_light_and_irr_to_zero() {
    let room = room_q();
    assert_eq!(room.surfels.direct, [[1.0; 3]]);
    assert_eq!(room.surfels.rad, [[1.0; 3]]);
    assert_eq!(room.surfels.irr[0].map(f32::to_bits), [0; 3]);
}

#[test]
fn it_settles_after_seven_bounces() {
    let mut room = room_q();
    let solved = room.solve(12).expect("room Q is accepted");
    assert_eq!(
        (solved.bounces, solved.last_change.to_bits()),
        (7, 0x3880_0000)
    );
    assert!(solved.settled());
    assert_eq!(room.surfels.irr[0].map(f32::to_bits), [0x3F2A_A800; 3]);
    assert_eq!(room.surfels.rad[0].map(f32::to_bits), [0x3FAA_AA00; 3]);
    assert_eq!(room.cluster_light[0].map(f32::to_bits), [0x3FAA_A800; 3]);
    assert_eq!(room.surfels.direct, [[1.0; 3]]);
}

#[test]
fn three_bounces_leave_it_open() {
    let solved = room_q().solve(3).expect("room Q is accepted");
    assert_eq!((solved.bounces, solved.last_change), (3, 0.015625));
    assert!(!solved.settled());
}

#[test]
fn a_limit_of_zero_makes_no_bounce() {
    let mut room = room_q();
    let before = room.clone();
    let solved = room.solve(0).expect("room Q is accepted");
    assert_eq!((solved.bounces, solved.last_change), (0, 0.0));
    assert!(!solved.settled());
    assert_eq!(room, before);
}

#[test]
fn a_probe_is_seen_or_unseen() {
    let mut room = room_q();
    room.solve(12).expect("room Q is accepted");
    let grid = Grid::build(&room.surfels.p, BOX, 1.0).expect("a grid of four cells");
    assert_eq!(grid.dims, [4, 1, 1]);
    let probes = [[0.0; 3], [1.0, 0.0, 0.0]].map(|p| Probe { p, normal: UP });
    let seen = Reading::Seen([f32::from_bits(0x3F2A_A800); 3]);
    let readings = grid.gather_all(&room.surfels, &probes, 1.0);
    assert_eq!(readings, Ok(vec![seen, Reading::Unseen]));
    for (probe, reading) in probes.iter().zip([seen, Reading::Unseen]) {
        assert_eq!(
            grid.gather(&room.surfels, probe.p, probe.normal, 1.0),
            Ok(reading)
        );
    }
    let nothing = grid.gather(&room.surfels, [0.0; 3], UP, 0.0);
    assert_eq!(nothing, Ok(Reading::Unseen));
}

#[test]
fn a_dark_room_is_seen() {
    let mut room = room_q();
    room.reset(&[[0.0; 3]])
        .expect("no light is light within its range");
    room.solve(12).expect("room Q is accepted");
    let grid = Grid::build(&room.surfels.p, BOX, 1.0).expect("a grid of four cells");
    let reading = grid.gather(&room.surfels, [0.0; 3], UP, 1.0);
    assert_eq!(reading, Ok(Reading::Seen([0.0; 3])));
}
