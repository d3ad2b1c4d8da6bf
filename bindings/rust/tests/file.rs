//! Room files: read, written, reported, and the report told again by the crate's own solve and readings.
mod common;

use common::files::{set_word, wrong_bytes};
use common::room_file;
use sokitahe::{report, Grid, Reading, Refused, RoomFile};
use std::fmt::Write;

/// The rooms of the repository, by their names.
const ROOMS: [&str; 7] = [
    "q",
    "full",
    "clinic",
    "clinic_open",
    "clinic_cells",
    "clinic_albedo",
    "ward",
];

/// A room of the repository, and what `roomlight` prints of it.
fn room(name: &str) -> (Vec<u8>, String) {
    let text = room_file(&format!("{name}.txt"));
    (
        room_file(&format!("{name}.room")),
        String::from_utf8(text).expect("a report is text"),
    )
}

/// The bits of floats as a report writes them.
fn words(floats: &[f32]) -> String {
    let words: Vec<String> = floats
        .iter()
        .map(|x| format!("{:08X}", x.to_bits()))
        .collect();
    words.join(" ")
}

/// What a report says of a file, by the crate's own reset, solve, grid and readings.
fn told(bytes: &[u8]) -> Result<String, Refused> {
    let mut file = RoomFile::read(bytes)?;
    let direct = file.room.surfels.direct.clone();
    file.room.reset(&direct)?;
    let solved = file.room.solve(file.limit)?;
    let grid = Grid::build(&file.room.surfels.p, file.bounds, file.cell)?;
    let readings = grid.gather_all(&file.room.surfels, &file.probes, file.radius)?;
    let (surfels, clusters) = (file.room.surfels.len(), file.room.clusters.len());
    let links = file.room.rows.link_cluster.len();
    let mut text = format!("surfels {surfels} clusters {clusters} links {links}\n");
    let state = if solved.settled() { "settled" } else { "open" };
    let residual = words(&[solved.last_change]);
    writeln!(
        text,
        "bounces {} residual {residual} {state}",
        solved.bounces
    )
    .expect("a string grows");
    for (k, reading) in readings.iter().enumerate() {
        let line = match reading {
            Reading::Seen(light) => format!("probe {k} seen {}", words(light)),
            Reading::Unseen => format!("probe {k} unseen {}", words(&[0.0; 3])),
        };
        writeln!(text, "{line}").expect("a string grows");
    }
    Ok(text)
}

#[test]
fn reports_are_what_roomlight_prints() {
    for name in ROOMS {
        let (bytes, text) = room(name);
        assert_eq!(report(&bytes), text, "{name}");
    }
}

#[test]
fn solve_and_readings_tell_what_the_report_tells() {
    for name in ROOMS
        .into_iter()
        .filter(|name| !["clinic_cells", "clinic_albedo"].contains(name))
    {
        let (bytes, text) = room(name);
        assert_eq!(told(&bytes), Ok(text), "{name}");
    }
}

#[test]
fn refused_rooms() {
    let (bytes, text) = room("clinic_albedo");
    let refused = RoomFile::read(&bytes).unwrap_err();
    assert_eq!(text, format!("refused {}\n", refused.number()));
    assert_eq!(refused.number(), 5);
    // A report has fewer places for cells than a host: it refuses with 4 what the crate can read.
    let (bytes, text) = room("clinic_cells");
    assert_eq!(text, "refused 4\n");
    let lines = told(&bytes).expect("a sound room").lines().count();
    assert_eq!(
        lines,
        2 + RoomFile::read(&bytes).expect("a sound room").probes.len()
    );
}

#[test]
fn a_file_is_written_as_it_was_read() {
    for name in ROOMS.into_iter().filter(|name| *name != "clinic_albedo") {
        let (bytes, _) = room(name);
        let file = RoomFile::read(&bytes).expect("a sound room");
        assert_eq!(file.to_bytes(), Ok(bytes), "{name}");
    }
}

#[test]
fn a_file_that_is_read_stands_before_its_first_bounce() {
    let file = RoomFile::read(&room("clinic").0).expect("a sound room");
    let surfels = &file.room.surfels;
    assert_eq!((surfels.len(), file.limit, file.probes.len()), (90, 40, 6));
    assert_eq!(surfels.rad, surfels.direct);
    assert!(
        surfels.direct.as_flattened().iter().any(|x| *x > 0.0),
        "the lamp shines"
    );
    assert!(surfels.irr.iter().all(|light| *light == [0.0; 3]) && surfels.irr.len() == 90);
    assert!(file.room.clusters.p.is_empty() && file.room.clusters.len() == 31);
}

/// Files with a mistake, and files of absurd counts, are refused by their number, as their reports say.
#[test]
fn spoilt_files() {
    for wrong in wrong_bytes() {
        let mut bytes = room("q").0;
        (wrong.make)(&mut bytes);
        let refused = RoomFile::read(&bytes).unwrap_err();
        assert_eq!(
            (refused.entry(), refused.number()),
            ("room_read", wrong.number),
            "{}",
            wrong.name
        );
        assert_eq!(
            report(&bytes),
            format!("refused {}\n", wrong.number),
            "{}",
            wrong.name
        );
    }
}

/// Counts over their limits in a file that is long enough for them.
#[test]
fn counts_over_their_limits() {
    let q = RoomFile::read(&room("q").0).expect("a sound room");
    let mut members = q.clone();
    members.room.clusters.members = vec![0; 400_001];
    members.room.clusters.count = vec![400_001];
    assert_eq!(
        members.to_bytes().map_err(|refused| refused.number()),
        Err(2)
    );
    let mut clusters = q;
    clusters.room.clusters.area = vec![1.0; 65_537];
    clusters.room.clusters.first = [vec![0], vec![1; 65_536]].concat();
    clusters.room.clusters.count = [vec![1], vec![0; 65_536]].concat();
    assert_eq!(
        clusters.to_bytes().map_err(|refused| refused.number()),
        Err(2)
    );
}

/// A room that no file can hold is refused where it is to be written.
#[test]
fn rooms_that_are_not_written() {
    let refused = |spoil: fn(&mut RoomFile)| {
        let mut file = RoomFile::read(&room("q").0).expect("a sound room");
        spoil(&mut file);
        file.to_bytes()
            .map_err(|refused| (refused.entry(), refused.number()))
    };
    let with = |number: u32| Err(("room_read", number));
    assert_eq!(refused(|file| file.limit = 4_097), with(2));
    assert_eq!(refused(|file| file.limit = usize::MAX), with(2));
    assert_eq!(refused(|file| file.cell = 0.0), with(3));
    assert_eq!(refused(|file| file.room.surfels.p.clear()), with(4));
    assert_eq!(refused(|file| file.room.surfels.direct.clear()), with(4));
    assert_eq!(refused(|file| file.room.clusters.first.clear()), with(4));
    assert_eq!(refused(|file| file.room.rows.link_weight.clear()), with(4));
    assert_eq!(refused(|file| file.room.rows.starts.truncate(1)), with(4));
    assert_eq!(
        refused(|file| file.room.surfels.albedo[0][1] = f32::NAN),
        with(5)
    );
    assert_eq!(refused(|file| file.probes[1].p[0] = f32::INFINITY), with(5));
    assert_eq!(refused(|file| file.room.rows.link_cluster[0] = 1), with(7));
    // The lowest number is told where a column is short, too.
    let short_and = |spoil: fn(&mut RoomFile)| {
        let mut file = RoomFile::read(&room("q").0).expect("a sound room");
        file.room.surfels.p.clear();
        spoil(&mut file);
        file.to_bytes().map_err(|refused| refused.number())
    };
    assert_eq!(short_and(|file| file.radius = f32::NAN), Err(3));
    assert_eq!(short_and(|file| file.limit = 5_000), Err(2));
    assert_eq!(short_and(|file| file.room.surfels.area[0] = -1.0), Err(4));
}

/// A file is reported as one too long from 65,537 bytes on, and read up to 268,435,456.
#[test]
fn a_file_that_is_too_long_to_report() {
    let mut file = RoomFile::read(&room("full").0).expect("a sound room");
    file.probes.push(file.probes[0]);
    let bytes = file.to_bytes().expect("a sound room");
    assert_eq!(bytes.len(), 65_536 + 24);
    assert_eq!(report(&bytes), "refused 1\n");
    assert_eq!(RoomFile::read(&bytes), Ok(file));
    let mut spoilt = bytes;
    set_word(&mut spoilt, 0, 3);
    assert_eq!(RoomFile::read(&spoilt).unwrap_err().number(), 1);
}

/// A report needs more stack than a thread may have, and brings its own.
#[test]
fn a_report_on_a_thread_with_little_stack() {
    let (bytes, text) = room("clinic");
    let small = std::thread::Builder::new().stack_size(64 << 10);
    let thread = small.spawn(move || report(&bytes)).expect("a thread");
    assert_eq!(thread.join().expect("a report"), text);
}
