//! Room files.
use super::answered;
use crate::bounds::Bounds;
use crate::ffi;
use crate::lent::{RoomColumns, RoomHeader};
use crate::refused::Refused;
use std::thread;

/// The stack of the thread that a report is made on. The entry works in local arrays of some 1.1 MB.
const REPORT_STACK: usize = 4 << 20;

/// Reads the bytes of a room file into lent columns, as the solve and the reading take them, and
/// answers its header.
///
/// Refuses with 1 (the file's form or length), 2 (a count or the limit), 3 (the bounds, the cell or the
/// radius), 4 (a column too short), 5 (a number out of range) and 7 (rows or members that do not fit
/// together).
pub fn room_read(bytes: &[u8], columns: RoomColumns<'_>) -> Result<RoomHeader, Refused> {
    let (mut counts, mut sizes) = ([0; 6], [0.0; 8]);
    let result = call!(interflect_room_read: read bytes, write columns.p, write columns.normals,
        write columns.albedo, write columns.area, write columns.direct, write columns.cluster_area,
        write columns.first, write columns.count, write columns.member, write columns.starts,
        write columns.link_cluster, write columns.link_weight, write columns.probe_p,
        write columns.probe_normals, out counts, out sizes,);
    answered("room_read", result, header_of(counts, sizes))
}

/// The header that these numbers are, in the file's order.
fn header_of(counts: [usize; 6], sizes: [f32; 8]) -> RoomHeader {
    let [surfels, clusters, members, links, probes, limit] = counts;
    let [lx, ly, lz, hx, hy, hz, cell, radius] = sizes;
    RoomHeader {
        surfels,
        clusters,
        members,
        links,
        probes,
        limit,
        bounds: Bounds {
            lo: [lx, ly, lz],
            hi: [hx, hy, hz],
        },
        cell,
        radius,
    }
}

/// Writes what `roomlight` prints of a room file, of 100 to 65,536 bytes, to the front of `text`, which
/// needs 131,072 bytes, and answers how many bytes it is. What refuses the file stands in the text.
///
/// Refuses with 4 alone, a text that is too short. The entry works on a thread of its own, whose stack
/// is large enough.
///
/// # Panics
///
/// Where the system can make no thread.
pub fn room_report(bytes: &[u8], text: &mut [u8]) -> Result<usize, Refused> {
    let call = || {
        let mut length = 0;
        let result = call!(interflect_room_report: read bytes, write text, out length,);
        answered("room_report", result, length)
    };
    thread::scope(|scope| {
        let builder = thread::Builder::new().stack_size(REPORT_STACK);
        let thread = builder
            .spawn_scoped(scope, call)
            .expect("a thread for the report");
        thread.join().expect("the library does not panic")
    })
}
