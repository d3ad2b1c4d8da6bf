//! `replay CRATES ROOMS` writes the files stdin and stdout of each crates/replay_* program: the cases,
//! and what the Rust answers; and the room files of a folder, each with its report, of which room Q is
//! what crates/roomlight is run on. The same bytes in every run.

mod answers;
mod cases;
mod grid_refusals;
mod held_columns;
mod held_rooms;
mod placement_cases;
mod placement_refusals;
mod placements;
mod queries;
mod random;
mod read_cases;
mod readings;
mod refusals;
mod reports;
mod room_cases;
mod room_files;
mod room_refusals;
mod rooms;
mod sample_rooms;
mod scene_cases;
mod sheets;
mod sites;
mod solve_cases;
mod solve_refusals;
mod solves;
mod stores;
mod surfel_cases;
mod tables;
mod transfer_cases;
mod transfer_refusals;
mod transfers;
mod weights;

use cases::Case;
use held_rooms::Held;
use rooms::Room;
use sheets::Sheet;
use sites::Site;
use std::path::Path;
use std::{env, fs, io};
use stores::Store;
use tables::Tables;

fn main() -> io::Result<()> {
    let folder = |k| env::args_os().nth(k).expect("usage: replay CRATES ROOMS");
    let (crates, rooms) = (folder(1), folder(2));
    let crates = Path::new(&crates);
    write(&crates.join("replay_float"), &cases::floats(), |case| {
        Some(answers::answer(case.name, &case.operands))
    })?;
    let mut tables = Tables::new();
    write(&crates.join("replay_scene"), &scene_cases::all(), |case| {
        (!tables.store(case)).then(|| queries::answer(&tables, case))
    })?;
    let mut sheet = Sheet::new();
    write(
        &crates.join("replay_surfel"),
        &surfel_cases::all(),
        |case| (!sheet.store(case)).then(|| readings::answer(&mut sheet, case)),
    )?;
    let mut room = Room::new();
    write(&crates.join("replay_solve"), &solve_cases::all(), |case| {
        (!room.store(case)).then(|| solves::answer(&mut room, case))
    })?;
    let mut store = Store::new();
    write(
        &crates.join("replay_formfactor"),
        &transfer_cases::all(),
        |case| transfers::lines(&mut store, case),
    )?;
    let mut site = Site::new();
    write(
        &crates.join("replay_placement"),
        &placement_cases::all(),
        |case| placements::lines(&mut site, case),
    )?;
    let mut held = Held::new();
    write_text(&crates.join("replay_room"), &room_cases::all(), |case| {
        held.printed(case)
    })?;
    let mut held = held_columns::Held::new();
    write(&crates.join("replay_read"), &read_cases::all(), |case| {
        held.answer(case)
    })?;
    write_rooms(Path::new(&rooms), &crates.join("roomlight"))
}

/// Writes each sample room and its report into a folder, and room Q as what a program is run on.
fn write_rooms(folder: &Path, roomlight: &Path) -> io::Result<()> {
    fs::create_dir_all(folder)?;
    fs::create_dir_all(roomlight)?;
    for (name, room) in sample_rooms::all() {
        let (bytes, text) = (room.bytes(), reports::report(&room.bytes()));
        fs::write(folder.join(format!("{name}.room")), &bytes)?;
        fs::write(folder.join(format!("{name}.txt")), &text)?;
        if name == "q" {
            fs::write(roomlight.join("stdin"), &bytes)?;
            fs::write(roomlight.join("stdout"), &text)?;
        }
        let first = text.lines().take(2).collect::<Vec<_>>().join(", ");
        println!("{name}.room: {} bytes: {first}", bytes.len());
    }
    Ok(())
}

/// Writes the cases and their answers into a folder, a line for each case and each answer. A case
/// without an answer has no line in stdout, and one may have many.
fn write<A: IntoIterator<Item = Vec<u32>>>(
    folder: &Path,
    cases: &[Case],
    mut answer: impl FnMut(&Case) -> A,
) -> io::Result<()> {
    write_text(folder, cases, |case| {
        let lines = answer(case).into_iter();
        lines.map(|words| hexadecimal(&words) + "\n").collect()
    })
}

/// Writes the cases and the text that each prints, and prints how many cases there are.
fn write_text(
    folder: &Path,
    cases: &[Case],
    mut printed: impl FnMut(&Case) -> String,
) -> io::Result<()> {
    let (mut stdin, mut stdout) = (String::new(), String::new());
    for case in cases {
        stdin += &format!("{} {}\n", case.name, hexadecimal(&case.operands));
        stdout += &printed(case);
    }
    fs::create_dir_all(folder)?;
    fs::write(folder.join("stdin"), &stdin)?;
    fs::write(folder.join("stdout"), &stdout)?;

    let name = folder.file_name().unwrap_or_default().to_string_lossy();
    let (all, bytes, each) = (cases.len(), stdin.len(), counted(cases));
    println!("{name}: {all} cases in {bytes} bytes: {each}");
    Ok(())
}

/// Eight upper-case digits a word, a space between two.
fn hexadecimal(words: &[u32]) -> String {
    let digits: Vec<String> = words.iter().map(|word| format!("{word:08X}")).collect();
    digits.join(" ")
}

/// How many cases each operation has, as text, in the order in which they first come.
fn counted(cases: &[Case]) -> String {
    let mut counts: Vec<(&str, usize)> = Vec::new();
    for case in cases {
        match counts.iter_mut().find(|(name, _)| *name == case.name) {
            Some((_, count)) => *count += 1,
            None => counts.push((case.name, 1)),
        }
    }
    let counts: Vec<String> = counts
        .iter()
        .map(|(name, n)| format!("{name} {n}"))
        .collect();
    counts.join(", ")
}
