//! Sheets of readings: the indirect illuminance at the points of a rectangle, seen from above.

use crate::light::luminous;
use crate::plan::Plan;
use crate::scene::COUCH_TOP;
use sokitahe::{Grid, Probe, Reading, Refused, Scene, Surfels, Vec3};

/// How near a surfel must be to a point to be read there, in metres; the grid's cells are as large.
pub const RADIUS: f32 = 0.13;

const UP: Vec3 = [0.0, 1.0, 0.0];
const DOWN: Vec3 = [0.0, -1.0, 0.0];
/// How high above the mattress the search for the couch's surface begins.
const ABOVE: f32 = 0.6;
/// How far below the mattress's top it ends: the edges of the mattress are rounded.
const BELOW: f32 = 0.05;

/// Where to read: points of a rectangle in rows along x, from the lowest z to the highest.
pub struct Points {
    over: Plan,
    columns: usize,
    rows: usize,
    probes: Vec<Probe>,
}

/// The readings at points: seen with the light, or unseen.
pub struct Sheet {
    pub over: Plan,
    pub columns: usize,
    pub rows: usize,
    readings: Vec<Reading>,
}

/// The lux of the points that are seen, and how many these are.
pub struct Summary {
    pub least: f32,
    pub mean: f32,
    pub greatest: f32,
    pub seen: usize,
}

/// Points on the surface of the couch and of what lies on it, as one finds it from above. Beside the
/// couch they are in mid-air, as high as the mattress.
pub fn couch_points(
    scene: &Scene,
    over: Plan,
    columns: usize,
    rows: usize,
) -> Result<Points, Refused> {
    let found: Result<Vec<Probe>, Refused> = over
        .middles(columns, rows)
        .map(|[x, z]| couch_probe(scene, x, z))
        .collect();
    let probes = found?;
    Ok(Points {
        over,
        columns,
        rows,
        probes,
    })
}

/// Points on the floor, also where something stands on it.
pub fn floor_points(over: Plan, columns: usize, rows: usize) -> Points {
    let on_floor = |[x, z]: [f32; 2]| Probe {
        p: [x, 0.0, z],
        normal: UP,
    };
    let probes = over.middles(columns, rows).map(on_floor).collect();
    Points {
        over,
        columns,
        rows,
        probes,
    }
}

/// The point of the couch's surface at a place of the plan, with the normal there; beside the couch
/// the point in mid-air as high as the mattress, its normal upwards.
pub fn couch_probe(scene: &Scene, x: f32, z: f32) -> Result<Probe, Refused> {
    let from = [x, COUCH_TOP + ABOVE, z];
    let traced = scene.trace(from, DOWN, 0.0, ABOVE + BELOW)?;
    let (p, normal) = match traced.hit {
        Some(hit) => (hit.p, hit.n),
        None => ([x, COUCH_TOP, z], UP),
    };
    Ok(Probe { p, normal })
}

impl Points {
    /// The readings at these points in a room whose light was solved.
    pub fn read(self, grid: &Grid, surfels: &Surfels) -> Result<Sheet, Refused> {
        let readings = grid.gather_all(surfels, &self.probes, RADIUS)?;
        Ok(Sheet {
            over: self.over,
            columns: self.columns,
            rows: self.rows,
            readings,
        })
    }
}

impl Sheet {
    /// The indirect illuminance at a point in lux; nothing where it is unseen, or past the sheet.
    pub fn lux_at(&self, column: usize, row: usize) -> Option<f32> {
        if column >= self.columns || row >= self.rows {
            return None;
        }
        seen_lux(&self.readings[row * self.columns + column])
    }

    /// What there is to say of the points that are seen; nothing where none is.
    pub fn summary(&self) -> Option<Summary> {
        let lux: Vec<f32> = self.readings.iter().filter_map(seen_lux).collect();
        Some(Summary {
            least: lux.iter().copied().reduce(f32::min)?,
            mean: lux.iter().sum::<f32>() / lux.len() as f32,
            greatest: lux.iter().copied().reduce(f32::max)?,
            seen: lux.len(),
        })
    }

    /// The summary in words, with how many points are unseen.
    pub fn summary_line(&self) -> String {
        let points = self.readings.len();
        let Some(seen) = self.summary() else {
            return format!("all {points} points unseen");
        };
        let lux = format!(
            "least {:.1}, mean {:.1}, greatest {:.1} lux",
            seen.least, seen.mean, seen.greatest
        );
        let [seen, unseen] = [seen.seen, points - seen.seen];
        format!("{lux} at the {seen} points seen; {unseen} of {points} unseen")
    }

    /// The lux of every point as a table, x along its head and z along its side.
    pub fn table(&self) -> String {
        let places: Vec<[f32; 2]> = self.over.middles(self.columns, self.rows).collect();
        let head = places[..self.columns]
            .iter()
            .map(|[x, _]| format!("{x:.2}"));
        let mut text = line("z \\ x", head);
        for (row, places) in places.chunks(self.columns).enumerate() {
            let told = |column| match self.lux_at(column, row) {
                Some(lux) => format!("{lux:.1}"),
                None => "unseen".into(),
            };
            let z = format!("{:.2}", places[0][1]);
            text += &line(&z, (0..self.columns).map(told));
        }
        text
    }
}

/// A line of a table with its columns flush right.
fn line(side: &str, entries: impl Iterator<Item = String>) -> String {
    let entries: String = entries.map(|entry| format!("{entry:>7}")).collect();
    format!("{side:>6} {entries}\n")
}

fn seen_lux(reading: &Reading) -> Option<f32> {
    match reading {
        Reading::Seen(light) => Some(luminous(*light)),
        Reading::Unseen => None,
    }
}
