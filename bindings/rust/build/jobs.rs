//! How many crates are proved at a time.
use std::env;
use std::fs;
use std::thread;

/// How many, where the environment says.
const JOBS: &str = "RT_JOBS";
/// How many rt takes by itself, where there is memory.
const OF_RT: usize = 2;
/// The most where the environment does not say.
const MOST: usize = 4;
/// The memory that the check of a crate may take, in KiB.
const CHECK_MEMORY: usize = 3 << 20;

/// What to tell rt: one for each processor, as far as there is memory; nothing where rt's own choice does.
pub fn words() -> Vec<String> {
    let said = env::var(JOBS).ok().filter(|text| !text.is_empty());
    let jobs = said.or_else(|| {
        let jobs = at_once();
        (jobs > OF_RT).then(|| jobs.to_string())
    });
    jobs.map_or(Vec::new(), |jobs| vec!["--jobs".into(), jobs])
}

/// One for each processor, as far as there is memory.
fn at_once() -> usize {
    let processors = thread::available_parallelism().map_or(1, |count| count.get());
    let room = free_memory().map_or(MOST, |free| free / CHECK_MEMORY);
    processors.min(room).min(MOST)
}

/// The memory that programs can still have, in KiB, where the system tells.
fn free_memory() -> Option<usize> {
    let text = fs::read_to_string("/proc/meminfo").ok()?;
    let line = text
        .lines()
        .find_map(|line| line.strip_prefix("MemAvailable:"))?;
    line.split_whitespace().next()?.parse().ok()
}
