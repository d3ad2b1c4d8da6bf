//! Refusal 4: "a lent slice shorter than its need". "Places past the need are not written."

use super::*;

pub(super) fn write(script: &mut Script) {
    each(script);
    all_at_once(script);
    sets(script);
    of_nothing(script);
}

/// The need with another length for one column.
fn but(need: Lent, column: usize, length: usize) -> Lent {
    let mut lent = need;
    lent[column] = length;
    lent
}

/// Each column one place short, none of it, one place more, and all of it; the others exactly.
fn each(script: &mut Script) {
    let (words, need) = (uneven().words(), needs(&uneven()));
    for column in 0..COLUMNS {
        script.read(&words, but(need, column, need[column] - 1), 4);
        script.read(&words, but(need, column, 0), 4);
        script.read(&words, but(need, column, need[column] + 1), 0);
        // It is the only one that is short.
        script.read(&words, but(ALL, column, need[column] - 1), 4);
    }
}

/// All columns short, none, one place more, and more than there are.
fn all_at_once(script: &mut Script) {
    let (words, need) = (uneven().words(), needs(&uneven()));
    script.read(&words, need, 0);
    script.read(&words, need.map(|need| need - 1), 4);
    script.read(&words, [0; COLUMNS], 4);
    script.read(&words, need.map(|need| need + 1), 0);
    script.read(&words, [PLACES - 1; COLUMNS], 0);
    script.read(&words, [PLACES + 1; COLUMNS], 0);
    script.read(&words, [u32::MAX as usize; COLUMNS], 0);
}

/// Random columns that are short, or none, and others of any length that is enough.
fn sets(script: &mut Script) {
    let mut random = Random::new(0x6C65_6E74);
    let (words, need) = (uneven().words(), needs(&uneven()));
    for k in 0..20 {
        let mut is_short = false;
        let lent = need.map(|need| {
            let short = random.below(8) == 0;
            is_short |= short;
            match short {
                true => random.below(need as u32) as usize,
                false => need + random.below(if k % 2 > 0 { 2 } else { 40 }) as usize,
            }
        });
        script.read(&words, lent, if is_short { 4 } else { 0 });
    }
}

/// Columns of which nothing is needed: they may be empty. The starts have one place even then.
fn of_nothing(script: &mut Script) {
    let room = RoomFile::empty(Vec3::ZERO, Vec3::ONE, 1.0, 1.0);
    let need = needs(&room);
    assert_eq!(need, but([0; COLUMNS], 9, 1));
    script.read(&room.words(), need, 0);
    script.read(&room.words(), [0; COLUMNS], 4);
    script.read(&room.words(), but(ALL, 9, 0), 4);
    let mut room = uneven();
    room.set_clusters(&[]);
    room.set_rows(&vec![Vec::new(); 4]);
    script.read(&room.words(), needs(&room), 0);
    script.read(&room.words(), but(needs(&room), 9, 4), 4);
    room.surfels.clear();
    room.set_rows(&[]);
    room.set_clusters(&[(2.5, Vec::new())]);
    script.read(&room.words(), needs(&room), 0);
    script.read(&room.words(), but(needs(&room), 6, 0), 4);
    room.probes.clear();
    script.read(&room.words(), needs(&room), 0);
}
