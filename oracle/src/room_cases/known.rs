//! Room Q, whose report document 01 gives, at other limits and radii, and reports into too little space.

use super::*;
use crate::held_rooms::{BYTES, SPACE};

pub(super) fn write(script: &mut Script) {
    limits(script);
    readings(script);
    spaces(script);
}

/// What document 01 says that room Q prints.
const REPORT: &str = "surfels 1 clusters 1 links 1
bounces 7 residual 38800000 settled
probe 0 seen 3F2AA800 3F2AA800 3F2AA800
probe 1 unseen 00000000 00000000 00000000
";

fn limits(script: &mut Script) {
    let mut q = RoomFile::q();
    assert_eq!(script.printed(&q), REPORT);
    for limit in [0, 1, 2, 3, 4, 5, 6, 7, 8, 4_095, 4_096] {
        q.limit = limit;
        let printed = script.printed(&q);
        assert_eq!(printed == REPORT, limit >= 7);
        if limit == 3 {
            assert!(printed.contains("bounces 3 residual 3C800000 open\n"));
        }
    }
    q.limit = 12;
    assert_eq!(script.printed(&q), REPORT);
}

/// Other radii, "radius 0 is unseen", and normals at the least dot product.
fn readings(script: &mut Script) {
    for radius in [0.0, LEAST, 1e-20, 0.5, 1.0f32.next_up(), 2.0, 10_000.0] {
        let mut q = RoomFile::q();
        q.radius = radius;
        let printed = script.printed(&q);
        if radius == 0.0 {
            assert!(printed.contains("probe 0 unseen 00000000 00000000 00000000\n"));
        }
    }
    for z in [0.15, 0.15f32.next_up(), -1.0, 41.0] {
        let mut q = RoomFile::q();
        q.probes[0].n.z = z;
        script.printed(&q);
    }
    let mut q = RoomFile::q();
    q.probes = (0..12)
        .map(|k| probe(0.125 * k as f32, 0.25, 0.0))
        .collect();
    script.printed(&q);
}

/// The text must have 131,072 bytes, whether the room is refused or not.
fn spaces(script: &mut Script) {
    let q = RoomFile::q().words();
    let wrong = edited(&q, &[(0, 2)]);
    let most = SPACE as u32;
    let spaces = [0, 1, 10, 146, 65_536, most - 1, most, most + 1, u32::MAX];
    for (words, length) in [
        (&q, 4 * q.len()),
        (&wrong, 4 * q.len()),
        (&q, 0),
        (&q, BYTES),
    ] {
        for space in spaces {
            let printed = script.short(words, length, space);
            assert_eq!(printed == "00000004\n", space < most);
        }
    }
    assert_eq!(REPORT.len(), 147);
    assert_eq!(script.short(&q, 4 * q.len(), most), "00000000 00000093\n");
    script.tried(&q, 0);
}
