//! The toolchain's command `rt`.
use std::env;
use std::fs::{self, File};
use std::path::{Path, PathBuf};
use std::process::Command;

const TOOLCHAIN: &str = "/opt/rattle/bin/rt";
/// How many of rt's last lines an error shows.
const LINES_SHOWN: usize = 20;

pub struct Rt(PathBuf);

impl Rt {
    /// The rt on the PATH, or the one at its usual place; `else_do` says what else helps where there is none.
    pub fn found(else_do: &str) -> Result<Rt, String> {
        let path = env::var_os("PATH").unwrap_or_default();
        let mut places: Vec<PathBuf> = env::split_paths(&path)
            .map(|folder| folder.join("rt"))
            .collect();
        places.push(PathBuf::from(TOOLCHAIN));
        let place = places.into_iter().find(|place| place.is_file());
        place.map(Rt).ok_or_else(|| {
            format!("no rt on the PATH and none at {TOOLCHAIN}: install Rattle, {else_do}")
        })
    }

    /// Runs rt with these words in a folder, with what it prints in a log.
    pub fn run(&self, folder: &Path, words: &[&str], log: &Path) -> Result<(), String> {
        let in_log = |error| format!("{} can't be written: {error}", log.display());
        let file = File::create(log).map_err(in_log)?;
        let status = Command::new(&self.0)
            .args(words)
            .current_dir(folder)
            .stdout(file.try_clone().map_err(in_log)?)
            .stderr(file)
            .status()
            .map_err(|error| format!("{} can't be run: {error}", self.0.display()))?;
        if status.success() {
            return Ok(());
        }
        let text = fs::read(log).unwrap_or_default();
        Err(format!(
            "rt {} failed ({status}); mend what its last lines name, all of them are in {}:\n{}",
            words.join(" "),
            log.display(),
            last_lines(&String::from_utf8_lossy(&text))
        ))
    }
}

/// The last lines of a text.
fn last_lines(text: &str) -> String {
    let lines: Vec<&str> = text.lines().collect();
    lines[lines.len().saturating_sub(LINES_SHOWN)..].join("\n")
}
