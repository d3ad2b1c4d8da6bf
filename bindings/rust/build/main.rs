//! Finds or builds libinterflect.a and links it.
//!
//! Where the environment variable SOKITAHE_LIB_DIR names a folder, the library is taken from there.
//! Otherwise it is the one in crates/interflect/out of the repository two folders above this one, which
//! is built with `rt` where it is missing or older than a file of a crate beneath it.
mod jobs;
mod listed;
mod rt;
mod sources;

use rt::Rt;
use std::env;
use std::fs::{self, File};
use std::io;
use std::path::{Path, PathBuf};
use std::process;
use std::time::SystemTime;

const LIBRARY: &str = "libinterflect.a";
/// The crate whose exports the library has.
const EXPORTS: &str = "interflect";
/// What a crate is made of.
const PARTS: [&str; 3] = ["src", "specs", "proofs"];
const LIB_DIR: &str = "SOKITAHE_LIB_DIR";

fn main() {
    println!("cargo:rerun-if-changed=build");
    println!("cargo:rerun-if-env-changed={LIB_DIR}");
    let folder = target_fits().and_then(|()| match env::var_os(LIB_DIR) {
        Some(folder) => lib_dir(PathBuf::from(folder)),
        None => built_by_rt(),
    });
    match folder {
        Ok(folder) => {
            println!("cargo:rustc-link-search=native={}", folder.display());
            println!("cargo:rustc-link-lib=static=interflect");
        }
        Err(error) => {
            eprintln!("error: {error}");
            process::exit(1);
        }
    }
}

/// The library is made for x86-64 Linux alone.
fn target_fits() -> Result<(), String> {
    let part = |name: &str| env::var(name).unwrap_or_default();
    let target = (part("CARGO_CFG_TARGET_ARCH"), part("CARGO_CFG_TARGET_OS"));
    match (target.0.as_str(), target.1.as_str()) {
        ("x86_64", "linux") => Ok(()),
        (arch, os) => Err(format!(
            "{LIBRARY} is for x86-64 Linux, not {arch} {os}: build for an x86_64 linux target"
        )),
    }
}

/// The folder that SOKITAHE_LIB_DIR names, where it has the library.
fn lib_dir(folder: PathBuf) -> Result<PathBuf, String> {
    let library = folder.join(LIBRARY);
    println!("cargo:rerun-if-changed={}", library.display());
    if library.is_file() {
        return Ok(folder);
    }
    Err(format!(
        "{LIB_DIR} names {}, which has no {LIBRARY}: name the folder that has it, or unset {LIB_DIR} to build it with rt",
        folder.display()
    ))
}

/// The folder of the library that rt builds in the repository.
fn built_by_rt() -> Result<PathBuf, String> {
    let root = repository()?;
    let exports = root.join("crates").join(EXPORTS);
    let folder = exports.join("out");
    let library = folder.join(LIBRARY);
    let files = sources_of(&root)?;
    for path in files.iter().chain([&library]) {
        println!("cargo:rerun-if-changed={}", path.display());
    }
    if !sources::up_to_date(&library, &files) {
        build(&exports, &library)?;
    }
    Ok(folder)
}

/// The list of crates, and the parts of those that the library is made of.
fn sources_of(root: &Path) -> Result<Vec<PathBuf>, String> {
    let list = root.join("crates.txt");
    let text = fs::read_to_string(&list)
        .map_err(|error| format!("{} can't be read: {error}", list.display()))?;
    let crates = listed::beneath(EXPORTS, &text).into_iter();
    let parts = crates.flat_map(|name| PARTS.map(|part| root.join("crates").join(name).join(part)));
    Ok(parts.filter(|path| path.exists()).chain([list]).collect())
}

/// Proves the crates that the library is made of, several at a time, and builds it.
fn build(exports: &Path, library: &Path) -> Result<(), String> {
    let begun = SystemTime::now();
    let rt = Rt::found(&format!("or set {LIB_DIR} to a folder with {LIBRARY}"))?;
    let work = PathBuf::from(env::var_os("OUT_DIR").unwrap_or_default());
    let jobs = jobs::words();
    let prove: Vec<&str> = ["all", "check"]
        .into_iter()
        .chain(jobs.iter().map(String::as_str))
        .collect();
    rt.run(exports, &prove, &work.join("check.log"))?;
    rt.run(exports, &["lib"], &work.join("lib.log"))?;
    date(library, begun).map_err(|error| {
        format!(
            "rt wrote no {} that can be used ({error}): see whether this rt is the repository's",
            library.display()
        )
    })
}

/// The repository's root, two folders above the manifest.
fn repository() -> Result<PathBuf, String> {
    let manifest = PathBuf::from(env::var_os("CARGO_MANIFEST_DIR").unwrap_or_default());
    match manifest.ancestors().nth(2) {
        Some(root) if root.join("crates.txt").is_file() => Ok(root.to_path_buf()),
        _ => Err(format!(
            "no crates.txt two folders above {}: build this crate where it stands in its repository, or set {LIB_DIR} to a folder with {LIBRARY}",
            manifest.display()
        )),
    }
}

/// Dates a library to when its build began, so that a source that changes meanwhile is newer.
fn date(library: &Path, begun: SystemTime) -> io::Result<()> {
    let file = File::options().append(true).open(library)?;
    file.set_modified(begun)
}
