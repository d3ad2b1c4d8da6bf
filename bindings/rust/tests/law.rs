//! Solves in a row are one solve, with refused solves between them: every bit of every field.
mod common;

use common::room_file;
use sokitahe::{Room, RoomFile, Solved};

/// A room of the repository, before its first bounce.
fn room(name: &str) -> Room {
    RoomFile::read(&room_file(name)).expect("a sound room").room
}

/// The bits of all that a solve may change, and of all that it may not.
fn bits(room: &Room) -> Vec<u32> {
    let s = &room.surfels;
    let vectors = [
        &s.p,
        &s.normals,
        &s.albedo,
        &s.direct,
        &s.irr,
        &s.rad,
        &room.cluster_light,
    ];
    let floats = [&s.area, &room.clusters.area, &room.rows.link_weight];
    let c = &room.clusters;
    let numbers = [
        &c.first,
        &c.count,
        &c.members,
        &room.rows.starts,
        &room.rows.link_cluster,
    ];
    let vectors = vectors.into_iter().flat_map(|column| column.as_flattened());
    let floats = vectors.chain(floats.into_iter().flatten());
    floats
        .map(|x| x.to_bits())
        .chain(numbers.into_iter().flatten().copied())
        .collect()
}

/// A solve that is refused, by its limit or by a room that is spoilt for it, changes nothing.
fn refused_between(room: &mut Room) {
    let before = bits(room);
    assert_eq!(room.solve(4_097).unwrap_err().number(), 2);
    assert_eq!(room.solve(usize::MAX).unwrap_err().number(), 2);
    assert_eq!(bits(room), before);
    let mut spoilt = room.clone();
    spoilt.surfels.albedo[0][2] = 1.5;
    let light = bits(&spoilt);
    assert_eq!(spoilt.solve(5).unwrap_err().number(), 5);
    assert_eq!(bits(&spoilt), light);
    spoilt.surfels.albedo[0] = room.surfels.albedo[0];
    *room = spoilt;
}

/// The solves of these limits, one after the other: their bounces added up, and the last change.
fn in_a_row(room: &mut Room, limits: &[usize]) -> Solved {
    let mut all = Solved::default();
    for limit in limits {
        assert!(
            !all.settled(),
            "the law speaks of the solves up to the first that settled"
        );
        refused_between(room);
        let solved = room.solve(*limit).expect("a sound room");
        all.bounces += solved.bounces;
        all.last_change = solved.last_change;
        refused_between(room);
    }
    all
}

/// One solve of the sum of the limits, and those of the limits in a row.
fn are_one_solve(name: &str, limits: &[usize]) -> Solved {
    let (mut whole, mut parts) = (room(name), room(name));
    let one = whole.solve(limits.iter().sum()).expect("a sound room");
    assert_eq!(in_a_row(&mut parts, limits), one, "{name} {limits:?}");
    assert_eq!(bits(&parts), bits(&whole), "{name} {limits:?}");
    one
}

#[test]
fn five_then_two_are_seven() {
    let solved = are_one_solve("q.room", &[5, 2]);
    assert_eq!((solved.bounces, solved.settled()), (7, true));
}

#[test]
fn steps_of_a_clinic() {
    assert_eq!(are_one_solve("clinic.room", &[1, 2, 3, 14]).bounces, 20);
    assert_eq!(are_one_solve("clinic.room", &[7, 4_000]).bounces, 20);
    assert!(!are_one_solve("clinic.room", &[6, 1, 4]).settled());
    assert_eq!(are_one_solve("ward.room", &[1; 15]).bounces, 15);
}

#[test]
fn a_solve_after_the_first_that_settled_makes_a_bounce_more() {
    let mut q = room("q.room");
    assert_eq!(q.solve(8).map(|solved| solved.bounces), Ok(7));
    assert_eq!(q.solve(4).map(|solved| solved.bounces), Ok(1));
}
