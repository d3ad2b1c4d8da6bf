//! The one module that calls the library. Each function here is an entry of [`crate::lent`].
//!
//! Every slice goes through `call!`, which hands its pointer on together with its own length, so that
//! no call can be made with a length that is not the slice's.
use crate::ffi;
use crate::refused::Refused;

/// Calls an export. An argument is a word and a place: `value` is handed on as it is, `vector` as
/// three floats, `bounds` as six, `read` and `write` lend a slice as its pointer and its length, `out`
/// lends a place for a number or an array of them and `outs` three places for a vector; `scene` and `grid` stand for the
/// arguments of those tables.
macro_rules! call {
    (@ $export:ident [$($given:tt)*]) => {
        // SAFETY: each pointer of a slice comes from a Rust slice beside that slice's own length, and
        // each out from a local variable. All of them are borrowed until the call returns, what is
        // written uniquely, so that nothing overlaps. The library asks for no more: its functions have
        // no precondition, write nothing outside of what they are lent, and keep no pointer.
        unsafe { ffi::$export($($given)*) }
    };
    (@ $export:ident [$($given:tt)*] value $v:expr, $($rest:tt)*) => {
        call!(@ $export [$($given)* $v,] $($rest)*)
    };
    (@ $export:ident [$($given:tt)*] vector $v:expr, $($rest:tt)*) => {
        call!(@ $export [$($given)* $v[0], $v[1], $v[2],] $($rest)*)
    };
    (@ $export:ident [$($given:tt)*] bounds $b:expr, $($rest:tt)*) => {
        call!(@ $export [$($given)*] vector $b.lo, vector $b.hi, $($rest)*)
    };
    (@ $export:ident [$($given:tt)*] read $s:expr, $($rest:tt)*) => {
        call!(@ $export [$($given)* $s.as_ptr(), $s.len(),] $($rest)*)
    };
    (@ $export:ident [$($given:tt)*] write $s:expr, $($rest:tt)*) => {
        call!(@ $export [$($given)* $s.as_mut_ptr(), $s.len(),] $($rest)*)
    };
    (@ $export:ident [$($given:tt)*] out $o:expr, $($rest:tt)*) => {
        call!(@ $export [$($given)* &raw mut $o,] $($rest)*)
    };
    (@ $export:ident [$($given:tt)*] outs $o:expr, $($rest:tt)*) => {
        call!(@ $export [$($given)* &raw mut $o[0], &raw mut $o[1], &raw mut $o[2],] $($rest)*)
    };
    (@ $export:ident [$($given:tt)*] scene $s:expr, $($rest:tt)*) => {
        call!(@ $export [$($given)*] value $s.prims, value $s.planes, value $s.objects, read $s.kinds,
            read $s.lengths, read $s.plane_parts, read $s.object_parts, $($rest)*)
    };
    (@ $export:ident [$($given:tt)*] grid $g:expr, $($rest:tt)*) => {
        call!(@ $export [$($given)*] value $g.n, read $g.starts, read $g.items, bounds $g.bounds,
            value $g.cell, $($rest)*)
    };
    ($export:ident: $($arguments:tt)*) => {
        call!(@ $export [] $($arguments)*)
    };
}

mod files;
mod grids;
mod placing;
mod rows;
mod scenes;
mod solves;

pub use files::{room_read, room_report};
pub use grids::{gather, gather_all, grid_build, near};
pub use placing::generate;
pub use rows::{build, build_clusters};
pub use scenes::{dist_mat, hemisphere_closure, normal, soft_shadow, trace};
pub use solves::{reset, reset_records, solve};

/// The square root: the float nearest to the exact root, ties to even; −0 gives −0, negatives NaN.
pub fn sqrt(x: f32) -> f32 {
    call!(interflect_sqrt: value x,)
}

/// The number of the cell, from 0 to `dim` − 1, that holds the coordinate `x`, counted in cells: the
/// fraction is dropped, outside counts for the nearest cell, NaN for cell 0. With a `dim` of 0 it is 0.
pub fn cell(x: f32, dim: usize) -> usize {
    call!(interflect_cell: value x, value dim,)
}

/// How many cells an extent of `x` cells takes: `x` rounded up, from 1 to 512; 1 for NaN.
pub fn cell_count(x: f32) -> usize {
    call!(interflect_cell_count: value x,)
}

/// The answer of an entry, or its refusal where the result is not 0.
fn answered<T>(entry: &'static str, result: u32, answer: T) -> Result<T, Refused> {
    match result {
        0 => Ok(answer),
        number => Err(Refused::new(entry, number)),
    }
}
