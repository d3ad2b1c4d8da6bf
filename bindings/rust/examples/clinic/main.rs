//! A consulting room from its shapes to a picture of its bounced light, step by step.
//!
//! `cargo run --release --example clinic [FOLDER]` places surfels on the surfaces of the room, lights
//! them by a ceiling panel, lets the light bounce, and reads it over the couch and the floor. It
//! writes `clinic.png`, the picture, and `clinic.room`, a small room for `roomlight`, into the folder;
//! where none is named, into `clinic` in cargo's target folder.

mod canvas;
mod colours;
mod letters;
mod light;
mod output;
mod picture;
mod plan;
mod png;
mod progress;
mod scene;
mod sheet;
mod small_room;

use progress::{grouped, seconds, Failed, Progress, Steps};
use scene::{BOUNDS, COUCH, ROOM};
use sheet::RADIUS;
use sokitahe::{Clusters, Grid, Refused, Room, Rows, Scene, Solved, Surfels, Vec3};
use std::error::Error;
use std::fs;
use std::path::Path;
use std::process::ExitCode;

/// How many surfels to place at most.
const TARGET: usize = 20_000;
/// Voxels on an axis: the surfels in one of them that face one way become a cluster.
const RESOLUTION: usize = 4;
/// The most bounces.
const LIMIT: usize = 12;
/// How far beyond the couch its sheets go: farther than the radius, so that unseen points show.
const MARGIN: f32 = 0.22;
/// Points of the printed sheet, along the couch and across it.
const PRINTED: [usize; 2] = [15, 7];

fn main() -> ExitCode {
    match run() {
        Ok(()) => ExitCode::SUCCESS,
        Err(failed) => {
            eprintln!("{failed}");
            ExitCode::FAILURE
        }
    }
}

/// The recipe: a room with its direct light, bounces, readings, files.
fn run() -> Result<(), Failed> {
    let mut steps = Steps::new();
    let threads = std::thread::available_parallelism().map_or(1, |threads| threads.get());
    let folder = steps.run("Making the folder", output::folder, |folder| {
        folder.display().to_string()
    })?;
    let scene = scene::clinic();
    let mut room = lit_room(&mut steps, threads, &scene)?;
    let solved = steps.run("Bouncing the light", || room.solve(LIMIT), told_of_solve)?;
    let grid = steps.run(
        "Sorting surfels into a grid",
        || Grid::build(&room.surfels.p, BOUNDS, RADIUS),
        |grid| {
            format!(
                "{} cells of {RADIUS} m",
                grouped(grid.dims.iter().product())
            )
        },
    )?;
    read_couch(&mut steps, &scene, &grid, &room.surfels)?;
    let drawn = steps.run(
        "Drawing the couch and the floor",
        || drawing(&scene, &grid, &room.surfels, solved.bounces),
        |png| format!("{} bytes", grouped(png.len())),
    )?;
    let small = make_small_room(&mut steps, &scene)?;
    write_files(&mut steps, &folder, drawn, small)?;
    println!(
        "All of it took {} on {threads} threads.",
        seconds(steps.elapsed())
    );
    Ok(())
}

/// The room with its surfels, clusters and rows, and the panel's light on it; none has bounced yet.
fn lit_room(steps: &mut Steps, threads: usize, scene: &Scene) -> Result<Room, Failed> {
    let surfels = steps.run(
        "Placing surfels",
        || Surfels::place(scene, BOUNDS, TARGET),
        |placed| {
            format!(
                "{} of {} came to lie",
                grouped(placed.len()),
                grouped(TARGET)
            )
        },
    )?;
    let direct = steps.run(
        "Lighting them by the ceiling panel",
        || light::direct(threads, scene, &surfels),
        |direct| told_of_direct(direct),
    )?;
    let clusters = steps.run(
        "Taking surfels together as clusters",
        || Clusters::build(&surfels, BOUNDS, RESOLUTION),
        |clusters| format!("{} clusters", clusters.len()),
    )?;
    let rows = steps.run(
        "Building transfer rows",
        || build_rows(threads, scene, &surfels, &clusters),
        told_of_rows,
    )?;
    let mut room = Room::new(surfels, clusters, rows);
    steps.run(
        "Setting the direct light",
        || room.reset(&direct),
        |()| "as the panel gives it, and no indirect light yet".into(),
    )?;
    Ok(room)
}

/// The rows, built in parts on so many threads, with a line that says how far they are.
fn build_rows(
    threads: usize,
    scene: &Scene,
    surfels: &Surfels,
    clusters: &Clusters,
) -> Result<Rows, Refused> {
    let progress = Progress::new("rows", surfels.len());
    let tell = |done| progress.tell(done);
    let rows = Rows::build_on(threads, scene, BOUNDS, surfels, clusters, tell);
    progress.end();
    rows
}

/// Reads some points over the couch and prints them as a table.
fn read_couch(
    steps: &mut Steps,
    scene: &Scene,
    grid: &Grid,
    surfels: &Surfels,
) -> Result<(), Failed> {
    let [columns, rows] = PRINTED;
    let around = COUCH.widened(MARGIN);
    let sheet = steps.run(
        "Reading the indirect illuminance over the couch",
        || sheet::couch_points(scene, around, columns, rows)?.read(grid, surfels),
        |sheet| sheet.summary_line(),
    )?;
    println!("   In lux; x along the couch from its head, z across it, in metres:");
    print!("{}", indented(&sheet.table()));
    Ok(())
}

/// The picture of the couch and the floor after so many bounces, as a PNG file.
fn drawing(
    scene: &Scene,
    grid: &Grid,
    surfels: &Surfels,
    bounces: usize,
) -> Result<Vec<u8>, Box<dyn Error>> {
    let (columns, around) = (picture::COLUMNS, COUCH.widened(MARGIN));
    let couch = sheet::couch_points(scene, around, columns, picture::rows_of(around))?;
    let floor = sheet::floor_points(ROOM, columns, picture::rows_of(ROOM));
    let [couch, floor] = [couch.read(grid, surfels)?, floor.read(grid, surfels)?];
    let [lumens, placed] = [light::PANEL.lumens as usize, surfels.len()].map(grouped);
    let caption = format!("panel of {lumens} lm, {placed} surfels, after {bounces} bounces");
    picture::draw(&couch, &floor, &caption).ok_or_else(|| "no point is seen".into())
}

/// Writes the picture and the small room, and says where they are.
fn write_files(
    steps: &mut Steps,
    folder: &Path,
    drawn: Vec<u8>,
    small: Vec<u8>,
) -> Result<(), Failed> {
    let [picture, room] = ["clinic.png", "clinic.room"].map(|name| folder.join(name));
    steps.run(
        "Writing the files",
        || fs::write(&picture, drawn).and_then(|()| fs::write(&room, small)),
        |()| format!("{}\n   {}", picture.display(), room.display()),
    )?;
    println!("   At the root of the repository this prints the report above:");
    println!("   ./roomlight < {}", room.display());
    Ok(())
}

/// The file of the small room; prints what `roomlight` prints of it.
fn make_small_room(steps: &mut Steps, scene: &Scene) -> Result<Vec<u8>, Failed> {
    let file = steps.run(
        "Making a small room of the same shapes",
        || small_room::file(scene, LIMIT),
        |file| format!("{} bytes, with this report:", grouped(file.len())),
    )?;
    print!("{}", indented(&sokitahe::report(&file)));
    Ok(file)
}

fn told_of_direct(direct: &[Vec3]) -> String {
    let sent_back: Vec<f32> = direct.iter().map(|light| light::luminous(*light)).collect();
    let mean = sent_back.iter().sum::<f32>() / sent_back.len() as f32;
    let greatest = sent_back.iter().copied().fold(0.0, f32::max);
    format!("a surfel sends back {mean:.1} lm/m² of it on average, {greatest:.1} at most")
}

fn told_of_rows(rows: &Rows) -> String {
    format!(
        "{} links, {} distance evaluations, mean row sum {:.3}",
        grouped(rows.link_cluster.len()),
        grouped(rows.evals),
        rows.mean_row_sum
    )
}

fn told_of_solve(solved: &Solved) -> String {
    let settled = if solved.settled() {
        "settled"
    } else {
        "not settled"
    };
    let Solved {
        bounces,
        last_change,
        ..
    } = solved;
    format!(
        "{bounces} bounces, of which the last changed {last_change:.5} lm/m² at most: {settled}"
    )
}

/// A text with each line a little to the right.
fn indented(text: &str) -> String {
    text.lines().map(|line| format!("   {line}\n")).collect()
}
