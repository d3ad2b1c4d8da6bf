//! What a host gets wrong comes back as a refusal, by the entry's number and with a sentence, and no
//! writable place has changed.
mod common;

use common::rows::BuildCall;
use common::{files, grids, placing, rows, scenes, solves, Call, Mistake, Role, KEPT};
use std::collections::BTreeSet;

/// The bits of all that a call may write.
fn writable<C: Call>(call: &mut C) -> Vec<Vec<u32>> {
    let slots = call.slots().into_iter();
    slots
        .filter(|slot| slot.role != Role::Read)
        .map(|slot| slot.lent.bits())
        .collect()
}

/// A sound call that these mistakes are made in is refused with this number and has written nothing.
fn refused_with<C: Call>(number: u32, mistakes: &[&Mistake<C>]) {
    let names: Vec<&str> = mistakes.iter().map(|m| m.name.as_str()).collect();
    let mut call = C::sound();
    mistakes.iter().for_each(|m| (m.make)(&mut call));
    let before = writable(&mut call);
    let refused = match call.call() {
        Ok(_) => panic!("{} accepts {names:?}", C::ENTRY),
        Err(refused) => refused,
    };
    assert_eq!(
        (refused.entry(), refused.number()),
        (C::ENTRY, number),
        "{names:?}"
    );
    assert_eq!(refused.row(), None, "{names:?}");
    let begins = format!("{} refused with {number}: mend ", C::ENTRY);
    assert!(
        refused.sentence().starts_with(&begins),
        "{}",
        refused.sentence()
    );
    assert!(
        writable(&mut call) == before,
        "{} wrote where {names:?}",
        C::ENTRY
    );
}

/// Each slice a place shorter than its need, where that is refused before anything is written.
fn short_slices<C: Call>() -> Vec<Mistake<C>> {
    let mut sound = C::sound();
    let slots = sound.slots().into_iter().enumerate();
    let mut mistakes = Vec::new();
    for (place, slot) in slots {
        if let Some(number @ 1..=7) = slot.short {
            let name = format!("{} a place short", slot.name);
            let make = move |c: &mut C| c.slots()[place].lent.shorten();
            mistakes.push(common::mistake(number, &name, make));
        }
    }
    mistakes
}

/// Each mistake by itself, and each together with one that a lower number refuses: the lowest is told.
/// The entry's numbers all occur, but for 8, which writes.
fn refuses_mistakes<C: Call>() {
    C::sound().call().expect("the sound call is accepted");
    let mut mistakes = C::mistakes();
    mistakes.extend(short_slices());
    let numbers: BTreeSet<u32> = mistakes.iter().map(|m| m.number).collect();
    let expected: BTreeSet<u32> = C::NUMBERS
        .iter()
        .copied()
        .filter(|number| *number != 8)
        .collect();
    assert_eq!(numbers, expected, "{}", C::ENTRY);
    let lowest = |number: u32| mistakes.iter().find(|m| m.number == number);
    for wrong in &mistakes {
        refused_with(wrong.number, &[wrong]);
        for lower in numbers
            .range(..wrong.number)
            .filter_map(|number| lowest(*number))
        {
            refused_with(lower.number, &[wrong, lower]);
        }
    }
}

#[test]
fn dist_mat() {
    refuses_mistakes::<scenes::SceneCall<scenes::DistMat>>();
}

#[test]
fn normal() {
    refuses_mistakes::<scenes::SceneCall<scenes::Normal>>();
}

#[test]
fn trace() {
    refuses_mistakes::<scenes::SceneCall<scenes::Trace>>();
}

#[test]
fn soft_shadow() {
    refuses_mistakes::<scenes::SceneCall<scenes::SoftShadow>>();
}

#[test]
fn hemisphere_closure() {
    refuses_mistakes::<scenes::SceneCall<scenes::HemisphereClosure>>();
}

#[test]
fn generate() {
    refuses_mistakes::<placing::GenerateCall>();
}

#[test]
fn grid_build() {
    refuses_mistakes::<grids::GridBuildCall>();
}

#[test]
fn near() {
    refuses_mistakes::<grids::NearCall>();
}

#[test]
fn gather() {
    refuses_mistakes::<grids::GatherCall>();
}

#[test]
fn gather_all() {
    refuses_mistakes::<grids::GatherAllCall>();
}

#[test]
fn build_clusters() {
    refuses_mistakes::<rows::BuildClustersCall>();
}

#[test]
fn build() {
    refuses_mistakes::<BuildCall>();
}

#[test]
fn solve() {
    refuses_mistakes::<solves::SolveCall>();
}

#[test]
fn reset() {
    refuses_mistakes::<solves::ResetCall>();
}

#[test]
fn reset_records() {
    refuses_mistakes::<solves::ResetRecordsCall>();
}

#[test]
fn room_read() {
    refuses_mistakes::<files::RoomReadCall>();
}

#[test]
fn room_report() {
    refuses_mistakes::<files::RoomReportCall>();
}

/// A list that is too short is told after tables that are wrong, though its number is lower.
#[test]
fn a_near_list_comes_last() {
    let mut call = grids::NearCall::sound();
    call.list.pop();
    call.grid.items[0] = 4;
    assert_eq!(call.call().unwrap_err().number(), 7);
    assert_eq!(call.list, [KEPT; 2]);
}

/// With any fewer places for links than there are, the first row that does not fit is told, the rows
/// before it and the starts up to it are written, and nothing else.
#[test]
fn rows_that_do_not_fit() {
    let mut whole = BuildCall::sound();
    let links = whole.build().expect("all links fit").links;
    let starts: Vec<usize> = whole.starts.iter().map(|start| *start as usize).collect();
    let rows_with_links = starts.windows(2).filter(|row| row[0] < row[1]).count();
    assert!(rows_with_links >= 2, "rows to fill one after the other");
    for room in 0..links {
        let row = starts
            .iter()
            .position(|start| *start > room)
            .expect("a row that ends later")
            - 1;
        for shorter in [(room, room), (room, links), (links, room)] {
            let mut call = BuildCall::with_links(links);
            call.link_cluster.truncate(shorter.0);
            call.link_weight.truncate(shorter.1);
            let refused = call.build().unwrap_err();
            assert_eq!((refused.number(), refused.row()), (8, Some(row)));
            let begins = format!("build refused with 8, row {row}: mend the room for links");
            assert!(
                refused.sentence().starts_with(&begins),
                "{}",
                refused.sentence()
            );
            written_before(&call, &whole, row);
        }
    }
}

/// The rows before this one are as in the whole, and the rest is as it was before the call.
fn written_before(call: &BuildCall, whole: &BuildCall, row: usize) {
    let end = whole.starts[row] as usize;
    assert_eq!(call.starts[..=row], whole.starts[..=row]);
    assert_eq!(call.link_cluster[..end], whole.link_cluster[..end]);
    assert_eq!(
        common::bits(&call.link_weight[..end]),
        common::bits(&whole.link_weight[..end])
    );
    let rest = [&call.starts[row + 1..], &call.link_cluster[end..]].concat();
    assert!(rest.iter().all(|number| *number == KEPT));
    assert!(call.link_weight[end..]
        .iter()
        .all(|weight| weight.to_bits() == KEPT));
}

/// A sentence names the entry and the number, and says what to mend by name and range.
#[test]
fn a_sentence_says_what_to_mend() {
    let mut call = solves::SolveCall::sound();
    call.albedo[4] = 1.5;
    let refused: Box<dyn std::error::Error> = call.call().unwrap_err().into();
    let sentence = "solve refused with 5: mend a number that is NaN, infinite or out of range: \
                    albedo is 0..1, area and direct 0..1,000,000, a cluster's area 0..1e12, a weight 0..2";
    assert_eq!(refused.to_string(), sentence);
}
