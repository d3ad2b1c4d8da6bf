//! Rows built in parts of one surfel each, on several threads.
//!
//! The rows of a part are those rows of the whole, and evaluations of parts add up (a theorem of the
//! library). The mean of a part of one row is that row's own sum, so that the whole's mean is found as
//! the library finds it: the sums of the rows with links, added in row order, over their number.
use crate::bounds::Bounds;
use crate::clusters::Clusters;
use crate::lent::{self, Built, Emitters, RowColumns, SceneTables};
use crate::refused::Refused;
use crate::rows::Rows;
use crate::scene::Scene;
use crate::surfels::Surfels;
use std::sync::atomic::{AtomicUsize, Ordering};
use std::sync::Mutex;
use std::thread;

/// How many rows a thread takes at a time.
const RUN: usize = 16;
/// The most threads that build, however many are asked for.
const MAX_THREADS: usize = 256;

/// What rows are built from.
#[derive(Clone, Copy)]
pub(crate) struct Setting<'a> {
    scene: SceneTables<'a>,
    bounds: Bounds,
    n: usize,
    p: &'a [f32],
    normals: &'a [f32],
    emitters: Emitters<'a>,
}

impl<'a> Setting<'a> {
    /// All surfels and all clusters.
    pub(crate) fn of(
        scene: &'a Scene,
        bounds: Bounds,
        surfels: &'a Surfels,
        clusters: &'a Clusters,
    ) -> Setting<'a> {
        Setting {
            scene: scene.tables(),
            bounds,
            n: surfels.len(),
            p: surfels.p.as_flattened(),
            normals: surfels.normals.as_flattened(),
            emitters: clusters.emitters(),
        }
    }

    /// One call of the entry.
    pub(crate) fn build(
        &self,
        rows: RowColumns<'_>,
        scratch: &mut Scratch,
    ) -> Result<Built, Refused> {
        lent::build(
            self.scene,
            self.bounds,
            self.n,
            self.p,
            self.normals,
            self.emitters,
            rows,
            &mut scratch.link,
            &mut scratch.weight,
        )
    }

    /// The part that is surfel i alone.
    fn part(&self, i: usize) -> Setting<'a> {
        Setting {
            n: 1,
            p: self.p.get(3 * i..).unwrap_or_default(),
            normals: self.normals.get(3 * i..).unwrap_or_default(),
            ..*self
        }
    }

    /// Whether one call with all surfels would be refused with 2 to 6, found without a row of it.
    ///
    /// Each number stands for tests of the scene and the clusters, and tests of the surfels. The entry
    /// makes the former where there is no surfel, the latter where there is no cluster and nothing in
    /// the scene, so that no ray goes on; the lower of the two numbers is the one of the whole.
    fn accepted(&self, scratch: &mut Scratch) -> Result<(), Refused> {
        let tables = Setting { n: 0, ..*self };
        let surfels = Setting {
            scene: SceneTables::default(),
            emitters: Emitters::default(),
            ..*self
        };
        let refusals = [tables, surfels].map(|setting| {
            setting
                .build(Rows::blank(setting.n, 0).columns(), scratch)
                .err()
        });
        let lowest = refusals.into_iter().flatten().min_by_key(Refused::number);
        lowest.map_or(Ok(()), Err)
    }
}

/// What the entry works in: a number and a float a cluster.
pub(crate) struct Scratch {
    link: Vec<u32>,
    weight: Vec<f32>,
}

impl Scratch {
    /// Scratch for the clusters of a setting.
    pub(crate) fn of(setting: &Setting<'_>) -> Scratch {
        let places = setting.emitters.nc;
        Scratch {
            link: vec![0; places],
            weight: vec![0.0; places],
        }
    }
}

/// Builds all rows on so many threads, with at most so many links.
pub(crate) fn build_in_parts(
    setting: Setting<'_>,
    threads: usize,
    capacity: usize,
    progress: &(dyn Fn(usize) + Sync),
) -> Result<Rows, Refused> {
    setting.accepted(&mut Scratch::of(&setting))?;
    let shared = Shared {
        setting,
        capacity,
        progress,
        next: AtomicUsize::new(0),
        done: Mutex::new(Done::default()),
    };
    let others = threads
        .min(MAX_THREADS)
        .min(setting.n.div_ceil(RUN))
        .saturating_sub(1);
    thread::scope(|scope| {
        for _ in 0..others {
            if thread::Builder::new()
                .spawn_scoped(scope, || shared.work())
                .is_err()
            {
                break;
            }
        }
        shared.work();
    });
    let done = shared
        .done
        .into_inner()
        .expect("a thread that panicked ends the scope");
    done.rows(capacity)
}

/// What the threads share.
struct Shared<'a> {
    setting: Setting<'a>,
    capacity: usize,
    progress: &'a (dyn Fn(usize) + Sync),
    /// The first surfel that no thread has taken.
    next: AtomicUsize,
    done: Mutex<Done>,
}

impl Shared<'_> {
    /// Builds runs of rows until none is left or no more are wanted.
    fn work(&self) {
        let mut scratch = Scratch::of(&self.setting);
        let mut row = Rows::blank(1, scratch.link.len());
        loop {
            let first = self.next.fetch_add(RUN, Ordering::Relaxed);
            if first >= self.setting.n || !self.keep(self.run(first, &mut row, &mut scratch)) {
                return;
            }
        }
    }

    /// Builds the rows from `first` on, in a place for one row.
    fn run(&self, first: usize, row: &mut Rows, scratch: &mut Scratch) -> Result<Run, Refused> {
        let end = self.setting.n.min(first + RUN);
        let mut run = Run {
            first,
            ..Run::default()
        };
        for i in first..end {
            let built = self.setting.part(i).build(row.columns(), scratch)?;
            run.link_cluster
                .extend_from_slice(&row.link_cluster[..built.links]);
            run.link_weight
                .extend_from_slice(&row.link_weight[..built.links]);
            run.links.push(built.links);
            run.sums.push(built.mean_row_sum);
            run.evals += built.evals;
        }
        Ok(run)
    }

    /// Keeps a run, tells how many rows are done, and answers whether more are wanted: not once there
    /// are more links than there may be. Runs are taken in order, so that the row whose links are too
    /// many is then among those taken.
    fn keep(&self, run: Result<Run, Refused>) -> bool {
        let Ok(mut done) = self.done.lock() else {
            return false;
        };
        match run {
            Err(refused) => done.refused = Some(refused),
            Ok(run) => {
                done.row_count += run.links.len();
                done.link_count += run.link_cluster.len();
                done.runs.push(run);
                (self.progress)(done.row_count);
            }
        }
        done.refused.is_none() && done.link_count <= self.capacity
    }
}

/// Rows that follow one another: the number of links, the sum and the links of each.
#[derive(Default)]
struct Run {
    first: usize,
    links: Vec<usize>,
    sums: Vec<f32>,
    link_cluster: Vec<u32>,
    link_weight: Vec<f32>,
    evals: usize,
}

/// The runs that are done, in any order.
#[derive(Default)]
struct Done {
    runs: Vec<Run>,
    row_count: usize,
    link_count: usize,
    refused: Option<Refused>,
}

impl Done {
    /// All rows in order, or the first that does not fit so many links.
    fn rows(mut self, capacity: usize) -> Result<Rows, Refused> {
        if let Some(refused) = self.refused {
            return Err(refused);
        }
        self.runs.sort_unstable_by_key(|run| run.first);
        let counts = self.runs.iter().flat_map(|run| &run.links);
        let starts = starts_of(counts, capacity)?;
        Ok(Rows {
            starts,
            link_cluster: self
                .runs
                .iter()
                .flat_map(|run| &run.link_cluster)
                .copied()
                .collect(),
            link_weight: self
                .runs
                .iter()
                .flat_map(|run| &run.link_weight)
                .copied()
                .collect(),
            mean_row_sum: self.mean(),
            evals: self.runs.iter().map(|run| run.evals).sum(),
        })
    }

    /// The mean of the sums of the rows with links, 0 if there are none.
    fn mean(&self) -> f32 {
        let rows = self
            .runs
            .iter()
            .flat_map(|run| run.links.iter().zip(&run.sums));
        let (mut sum, mut linked) = (0.0, 0_u32);
        for (_, row_sum) in rows.filter(|(links, _)| **links > 0) {
            sum += row_sum;
            linked += 1;
        }
        match linked {
            0 => 0.0,
            _ => sum / linked as f32,
        }
    }
}

/// Where rows of so many links begin, and where the last ends, or the first row that does not fit.
fn starts_of<'a>(
    counts: impl Iterator<Item = &'a usize>,
    capacity: usize,
) -> Result<Vec<u32>, Refused> {
    let (mut starts, mut end) = (vec![0], 0);
    for (row, links) in counts.enumerate() {
        end += links;
        match u32::try_from(end) {
            Ok(start) if end <= capacity => starts.push(start),
            _ => return Err(Refused::full("build", row)),
        }
    }
    Ok(starts)
}

#[cfg(test)]
mod tests {
    use super::*;
    use crate::bounds::Vec3;
    use std::panic::{catch_unwind, AssertUnwindSafe};

    /// Forty surfels on a floor, and eight clusters above it that face down: no row is without links.
    fn floor() -> (Surfels, Clusters) {
        let below = |i: usize| [(i % 8) as f32 * 0.5, 0.0, (i / 8) as f32 * 0.5];
        let above = |c: usize| [c as f32 * 0.5, 2.0, 1.0];
        let facing = |n: Vec3, count: usize| vec![n; count];
        let surfels = Surfels {
            p: (0..40).map(below).collect(),
            normals: facing([0.0, 1.0, 0.0], 40),
            area: vec![0.25; 40],
            ..Surfels::default()
        };
        let clusters = Clusters {
            p: (0..8).map(above).collect(),
            normals: facing([0.0, -1.0, 0.0], 8),
            area: vec![0.5; 8],
            radius: vec![0.4; 8],
            ..Clusters::default()
        };
        (surfels, clusters)
    }

    const BOX: Bounds = Bounds {
        lo: [0.0; 3],
        hi: [4.0, 2.0, 3.0],
    };

    /// With fewer links than there are, threads refuse with 8 and the row that one call names.
    #[test]
    fn links_over_the_limit_are_refused_as_by_one_call() {
        let (scene, (surfels, clusters)) = (Scene::new(), floor());
        let setting = Setting::of(&scene, BOX, &surfels, &clusters);
        let mut scratch = Scratch::of(&setting);
        let whole = build_in_parts(setting, 1, 320, &|_| ()).expect("n × nc links fit");
        assert_eq!(whole.link_cluster.len(), 320);
        for capacity in [0, 1, 8, 9, 127, 128, 200, 319, 320] {
            let mut rows = Rows::blank(surfels.len(), capacity);
            let one = setting.build(rows.columns(), &mut scratch).err();
            assert_eq!(
                one.and_then(|refused| refused.row()),
                (capacity < 320).then_some(capacity / 8)
            );
            for threads in [1, 2, 3] {
                let parts = build_in_parts(setting, threads, capacity, &|_| ()).err();
                assert_eq!(parts, one, "{capacity} links on {threads} threads");
            }
        }
    }

    /// A progress that panics ends the build on every thread, and is told to the caller as a panic.
    #[test]
    fn a_progress_that_panics_ends_the_build() {
        let (scene, (surfels, clusters)) = (Scene::new(), floor());
        let setting = Setting::of(&scene, BOX, &surfels, &clusters);
        for threads in [1, 3] {
            let build = || build_in_parts(setting, threads, 320, &|rows| assert!(rows < 32));
            assert!(catch_unwind(AssertUnwindSafe(build)).is_err());
        }
    }
}
