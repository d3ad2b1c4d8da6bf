//! The crates that crates.txt lists.
use std::collections::BTreeSet;

/// A crate and all beneath it, by lines of `NAME: what it depends on  # comment`, where a static
/// library has the word staticlib after its name, leaves first: in the order of the list, so that the crate
/// itself is the last.
pub fn beneath<'a>(name: &'a str, text: &'a str) -> Vec<&'a str> {
    let mut wanted = BTreeSet::from([name]);
    let mut crates = Vec::new();
    for line in text.lines().rev() {
        let line = line.split('#').next().unwrap_or_default();
        let Some((name, needs)) = line.split_once(':') else {
            continue;
        };
        let name = name.split_whitespace().next().unwrap_or_default();
        if wanted.contains(name) {
            wanted.extend(needs.split_whitespace());
            crates.push(name);
        }
    }
    crates.reverse();
    crates
}
