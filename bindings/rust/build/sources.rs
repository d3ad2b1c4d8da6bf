//! The files that a library is made of: whether one has changed since.
use std::fs;
use std::path::{Path, PathBuf};
use std::time::SystemTime;

/// Whether a library is there and no source has changed since its build began.
pub fn up_to_date(library: &Path, sources: &[PathBuf]) -> bool {
    let built = fs::metadata(library).and_then(|data| data.modified());
    built.is_ok_and(|built| sources.iter().all(|source| unchanged(source, built)))
}

/// Whether a file, or a folder with all that is in it, is as it was then.
fn unchanged(path: &Path, then: SystemTime) -> bool {
    let Ok(data) = fs::metadata(path) else {
        return false;
    };
    let older = data.modified().is_ok_and(|modified| modified < then);
    older
        && (data.is_file()
            || entries(path).is_some_and(|paths| paths.iter().all(|path| unchanged(path, then))))
}

/// What a folder has; none where it is no folder that can be read.
fn entries(folder: &Path) -> Option<Vec<PathBuf>> {
    let read = fs::read_dir(folder).ok()?;
    read.map(|entry| entry.ok().map(|entry| entry.path()))
        .collect()
}
