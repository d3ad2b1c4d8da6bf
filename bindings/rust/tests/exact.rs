//! Each entry with slices of exactly their need, each in a place of the heap of its own, so that a tool
//! which watches the heap sees any access past them; and with longer ones, which change nothing.
mod common;

use common::{files, grids, placing, rows, scenes, solves, Call, Lent, Role, Slot, KEPT};

/// What stands in the places past the need of a slice that is only read: a NaN, or a number that is
/// over every table.
const SPOILT: u32 = 0xFFFF_FFFF;
/// How many places past the need.
const MORE: usize = 5;

/// A call with every slice exactly as long as its need, and the same with longer slices: the same answer,
/// the same in each written place of the need, and every place past it untouched.
fn exactly_its_need<C: Call>() {
    let mut exact = C::sound();
    for slot in &mut exact.slots() {
        on_the_heap(&mut slot.lent);
    }
    let before: Vec<Vec<u32>> = exact.slots().iter().map(|slot| slot.lent.bits()).collect();
    let answer = exact.call().expect("the sound call is accepted");
    let mut longer = C::sound();
    for slot in longer.slots().iter_mut().filter(|slot| slot.longer) {
        slot.lent.lengthen(MORE, past_need(slot.role));
    }
    assert_eq!(longer.call(), Ok(answer), "longer slices of {}", C::ENTRY);
    for ((exact, longer), before) in exact.slots().iter().zip(longer.slots()).zip(&before) {
        agree(C::ENTRY, exact, &longer, before);
    }
    let changed = exact
        .slots()
        .iter()
        .zip(&before)
        .any(|(slot, before)| slot.lent.bits() != *before);
    let writes = exact.slots().iter().any(|slot| slot.role != Role::Read);
    assert_eq!(changed, writes, "{}", C::ENTRY);
}

/// What stands past the need of a slice.
fn past_need(role: Role) -> u32 {
    match role {
        Role::Read => SPOILT,
        Role::Write | Role::Scratch => KEPT,
    }
}

/// A slice of exactly its need and a longer one hold the same after the call, but for scratch, and what
/// is only read holds what it held.
fn agree(entry: &str, exact: &Slot<'_>, longer: &Slot<'_>, before: &[u32]) {
    let name = exact.name;
    let (now, then) = (exact.lent.bits(), longer.lent.bits());
    let (need, past) = then.split_at(now.len());
    if exact.role == Role::Read {
        assert!(now == before, "{entry} writes {name}");
    }
    if exact.role != Role::Scratch {
        assert!(
            need == now,
            "{entry} leaves another {name} where slices are longer"
        );
    }
    let kept = past_need(exact.role);
    let kept = if matches!(exact.lent, Lent::Bytes(_)) {
        kept & 0xFF
    } else {
        kept
    };
    assert!(
        past.iter().all(|bits| *bits == kept),
        "{entry} writes {name} past the need"
    );
}

/// Moves a slice to a place of the heap that holds no more than the slice.
fn on_the_heap(lent: &mut Lent<'_>) {
    fn boxed<T>(column: &mut Vec<T>) {
        *column = std::mem::take(column).into_boxed_slice().into_vec();
        assert_eq!(column.capacity(), column.len());
    }
    match lent {
        Lent::Floats(column) => boxed(column),
        Lent::Numbers(column) => boxed(column),
        Lent::Bytes(column) => boxed(column),
        Lent::Lights(column) => boxed(column),
    }
}

#[test]
fn scenes() {
    exactly_its_need::<scenes::SceneCall<scenes::DistMat>>();
    exactly_its_need::<scenes::SceneCall<scenes::Normal>>();
    exactly_its_need::<scenes::SceneCall<scenes::Trace>>();
    exactly_its_need::<scenes::SceneCall<scenes::SoftShadow>>();
    exactly_its_need::<scenes::SceneCall<scenes::HemisphereClosure>>();
}

#[test]
fn generate() {
    exactly_its_need::<placing::GenerateCall>();
}

#[test]
fn grids() {
    exactly_its_need::<grids::GridBuildCall>();
    exactly_its_need::<grids::NearCall>();
    exactly_its_need::<grids::GatherCall>();
    exactly_its_need::<grids::GatherAllCall>();
}

#[test]
fn clusters_and_rows() {
    exactly_its_need::<rows::BuildClustersCall>();
    exactly_its_need::<rows::BuildCall>();
}

#[test]
fn solve_and_resets() {
    exactly_its_need::<solves::SolveCall>();
    exactly_its_need::<solves::ResetCall>();
    exactly_its_need::<solves::ResetRecordsCall>();
}

#[test]
fn files() {
    exactly_its_need::<files::RoomReadCall>();
    exactly_its_need::<files::RoomReportCall>();
}

/// No slice at all, where nothing is counted: the entries take empty slices.
#[test]
fn nothing_at_all() {
    use sokitahe::lent::{self, RoomTables};
    let solved = lent::solve(
        RoomTables {
            starts: &[0],
            ..RoomTables::default()
        },
        3,
        &mut [],
        &mut [],
        &mut [],
    );
    assert_eq!(solved.map(|solved| solved.bounces), Ok(0));
    assert_eq!(lent::reset(&[], &mut [], &mut [], &mut []), Ok(()));
    assert_eq!(lent::reset_records(&[], &mut []), Ok(()));
    let mut starts = [KEPT; 2];
    assert_eq!(
        lent::grid_build(0, &[], grids::BOX, 4.0, &mut starts, &mut []),
        Ok([1; 3])
    );
    assert_eq!(starts, [0, 0]);
}
