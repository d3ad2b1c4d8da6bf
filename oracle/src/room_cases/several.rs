//! Several refusals at once: the lowest number is returned.

use super::*;

pub(super) fn write(script: &mut Script) {
    let words = several_of_each().words();
    for variant in 0..3 {
        let breaks = breaks(&words, variant);
        for set in 1u32..64 {
            let chosen: Vec<_> = (0..6)
                .filter(|k| set >> k & 1 > 0)
                .map(|k| &breaks[k])
                .collect();
            let edits: Vec<_> = chosen.iter().flat_map(|b| b.edits.clone()).collect();
            script.tried(&edited(&words, &edits), chosen[0].number);
        }
    }
    shorter(script, &words);
    along_the_file(script, &words);
}

/// A change of words by which a room is refused with a number.
struct Break {
    number: u32,
    edits: Vec<(usize, u32)>,
}

/// One change for each number, in the order of the numbers. No two change the same word.
fn breaks(words: &[u32], variant: usize) -> [Break; 6] {
    let at = |block, k| place(words, block, k);
    let nan = NAN.to_bits();
    let x = |x: f32| x.to_bits();
    // lo above hi, the radius, hi; 4 has its cells by another size of the cells or another hi.
    let header = [(0, 2), (PROBES, words[PROBES] + 4), (15, 1)][variant];
    let bound = [
        (at(PROBES, 0), x(4.5)),
        (at(PROBES, 7), nan),
        (at(PROBES, 1), x(-INF)),
    ][variant];
    let large = [
        (at(PROBES, 6), x(0.01)),
        (at(PROBES, 6), x(0.0001)),
        (at(PROBES, 6), x(0.06)),
    ];
    let float = [
        (at(SURFELS, 6), nan),
        (at(PROBES, 8 + 11), x(INF)),
        (at(LINKS, 1), x(-1.0)),
    ];
    let fit = [
        (at(STARTS, 3), 6),
        (at(MEMBERS, 0), 3),
        (at(CLUSTERS, 4), 0),
    ][variant];
    let of = |number, edit| Break {
        number,
        edits: vec![edit],
    };
    [
        of(1, header),
        of(2, (6, 4_097 + variant as u32)),
        of(3, bound),
        of(4, large[variant]),
        of(5, float[variant]),
        of(7, fit),
    ]
}

/// A file cut short, or longer, is refused with 1 whatever else is wrong in it.
fn shorter(script: &mut Script, words: &[u32]) {
    let wrong: Vec<_> = breaks(words, 0)[1..]
        .iter()
        .flat_map(|b| b.edits.clone())
        .collect();
    let wrong = edited(words, &wrong);
    let all = 4 * words.len();
    for length in [0, 63, 64, 65, all - 4, all - 1, all + 1, all + 4] {
        script.cut(&wrong, length, 1);
    }
    script.cut(&wrong, all, 2);
}

/// A wrong float in the last block comes before a wrong number in an earlier one, and a wrong box,
/// which stands near the end, before both.
fn along_the_file(script: &mut Script, words: &[u32]) {
    let member = (place(words, MEMBERS, 1), 9);
    let first = (place(words, CLUSTERS, 1), 1);
    let probe = (place(words, PROBES, 8 + 6 + 2), NAN.to_bits());
    let surfel = (place(words, SURFELS, 0), INF.to_bits());
    let cell = (place(words, PROBES, 6), 0);
    for (edits, number) in [
        (vec![member, probe], 5),
        (vec![first, probe], 5),
        (vec![surfel, member], 5),
        (vec![surfel, probe], 5),
        (vec![member, first], 7),
        (vec![surfel, probe, member, cell], 3),
        (vec![surfel, cell, (6, u32::MAX)], 2),
    ] {
        script.tried(&edited(words, &edits), number);
    }
}
