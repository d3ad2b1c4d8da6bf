//! The same room with few surfels, as a room file that `roomlight` takes.

use crate::scene::{BOUNDS, COUCH, COUCH_TOP};
use crate::{light, sheet};
use sokitahe::{Clusters, Probe, Refused, Room, RoomFile, Rows, Scene, Surfels};
use std::error::Error;

/// The most bytes that `roomlight` takes.
const MOST_BYTES: usize = 65_536;
/// How many surfels to place at most, and voxels on an axis for their clusters.
const TARGET: usize = 300;
const RESOLUTION: usize = 2;
/// These surfels lie farther apart than those of the large room, and are read from farther.
const RADIUS: f32 = 0.6;
/// How many probes there are along the couch, from its head to its foot.
const ALONG: usize = 7;

/// The bytes of the room file; an error where they are more than `roomlight` takes.
pub fn file(scene: &Scene, limit: usize) -> Result<Vec<u8>, Box<dyn Error>> {
    let bytes = room_file(scene, limit)?.to_bytes()?;
    let many = bytes.len();
    if many > MOST_BYTES {
        let too_long =
            format!("{many} bytes, where roomlight takes {MOST_BYTES}: place fewer surfels");
        return Err(too_long.into());
    }
    Ok(bytes)
}

/// The room before its first bounce.
fn room_file(scene: &Scene, limit: usize) -> Result<RoomFile, Refused> {
    let surfels = Surfels::place(scene, BOUNDS, TARGET)?;
    let clusters = Clusters::build(&surfels, BOUNDS, RESOLUTION)?;
    let rows = Rows::build(scene, BOUNDS, &surfels, &clusters)?;
    let direct = light::direct(1, scene, &surfels)?;
    let mut room = Room::new(surfels, clusters, rows);
    room.reset(&direct)?;
    Ok(RoomFile {
        room,
        limit,
        bounds: BOUNDS,
        cell: RADIUS,
        radius: RADIUS,
        probes: probes(scene)?,
    })
}

/// Probes along the middle of the couch, and one over the free floor that no surfel is near to.
fn probes(scene: &Scene) -> Result<Vec<Probe>, Refused> {
    let along = COUCH.middles(ALONG, 1);
    let on_couch = along.map(|[x, z]| sheet::couch_probe(scene, x, z));
    let mid_air = Probe {
        p: [COUCH.hi[0] + 1.0, COUCH_TOP + 1.0, COUCH.middle()[1]],
        normal: [0.0, 1.0, 0.0],
    };
    on_couch.chain([Ok(mid_air)]).collect()
}
