//! Several refusals at once: the lowest number is returned. 4 comes after 3, and before 5 and 7.

use super::*;

pub(super) fn write(script: &mut Script) {
    let words = uneven().words();
    sets(script, &words);
    for column in 0..COLUMNS {
        // Each column with 3 and with 5, and with one of the others.
        for number in [3, 5, [1, 2, 7][column % 3]] {
            let edit = broken(&words, number, column / 3 % 3);
            script.read(&edited(&words, &[edit]), short(column), number.min(4));
        }
    }
    for number in [1, 2, 3, 5, 7] {
        let edit = broken(&words, number, 0);
        script.read(&edited(&words, &[edit]), [0; COLUMNS], number.min(4));
    }
}

/// The need but for one place of a column.
fn short(column: usize) -> Lent {
    let mut lent = needs(&uneven());
    lent[column] -= 1;
    lent
}

/// Every set of numbers but none.
fn sets(script: &mut Script, words: &[u32]) {
    let numbers = [1, 2, 3, 4, 5, 7];
    for set in 1usize..64 {
        let chosen = (0..6).filter(|k| set >> k & 1 > 0).map(|k| numbers[k]);
        let chosen: Vec<u32> = chosen.collect();
        let of_words = chosen.iter().filter(|&&number| number != 4);
        let edits: Vec<_> = of_words.map(|&k| broken(words, k, set % 3)).collect();
        let lent = match chosen.contains(&4) {
            true => short(set % COLUMNS),
            false => needs(&uneven()),
        };
        script.read(&edited(words, &edits), lent, chosen[0]);
    }
}

/// A word by which a room is refused with this number. No two change the same word.
fn broken(words: &[u32], number: u32, variant: usize) -> (usize, u32) {
    let at = |block, k| place(words, block, k);
    let nan = NAN.to_bits();
    match number {
        1 => [(0, 2), (PROBES, words[PROBES] + 4), (15, 1)][variant],
        2 => (6, 4_097 + variant as u32),
        3 => [
            (at(PROBES, 0), nan),
            (at(PROBES, 7), nan),
            (at(PROBES, 6), 0),
        ][variant],
        5 => [
            (at(SURFELS, 6), nan),
            (at(PROBES, 8 + 11), nan),
            (at(LINKS, 1), nan),
        ][variant],
        7 => [
            (at(STARTS, 4), 7),
            (at(MEMBERS, 0), 4),
            (at(CLUSTERS, 4), 0),
        ][variant],
        _ => panic!("no word of number {number}"),
    }
}
