//! Where the files of the run go.

use std::error::Error;
use std::ffi::OsString;
use std::path::PathBuf;
use std::{env, fs};

/// The folder that the command names, else `clinic` in cargo's target folder; it is made where it is
/// not there yet.
pub fn folder() -> Result<PathBuf, Box<dyn Error>> {
    let named: Vec<OsString> = env::args_os().skip(1).collect();
    let folder = match named.as_slice() {
        [] => target_folder().unwrap_or_default().join("clinic"),
        [name] if !name.to_string_lossy().starts_with('-') => PathBuf::from(name),
        _ => return Err("usage: clinic [FOLDER]".into()),
    };
    fs::create_dir_all(&folder).map_err(|error| format!("{}: {error}", folder.display()))?;
    Ok(std::path::absolute(folder)?)
}

/// Cargo's target folder, which has the program in `release/examples` or `debug/examples`; nothing
/// where it stands elsewhere.
fn target_folder() -> Option<PathBuf> {
    let program = env::current_exe().ok()?;
    let examples = program.parent()?;
    let target = examples.parent()?.parent()?;
    examples.ends_with("examples").then(|| target.to_path_buf())
}
