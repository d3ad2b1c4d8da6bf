//! What bounds the memory that is allocated for a call. What is over a limit the entry refuses, not this
//! crate.
use crate::refused::Refused;

/// The most links of all rows together.
pub(crate) const MAX_LINKS: usize = 16_777_216;
/// The bytes of text that a report is written into.
pub(crate) const REPORT_TEXT: usize = 131_072;

/// Of a call that was lent no place, whether its counts and sizes refuse it: an entry looks at them
/// before it looks at any slice, so that no place need be made for a count or a size without end.
pub(crate) fn sized<T>(asked: Result<T, Refused>) -> Result<(), Refused> {
    match asked {
        Err(refused) if refused.number() < 4 => Err(refused),
        _ => Ok(()),
    }
}
