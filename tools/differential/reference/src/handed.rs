//! The sheet that the reference is handed in place of a sheet: where a wanted rule is the source's rule on a
//! changed sheet. Every user of the reference goes through it.

use std::borrow::Cow;

/// The same sheet: no rule asks for another so far. Constraints keep their places, which findings name.
pub fn handed(rows: &[i64]) -> Cow<'_, [i64]> {
    Cow::Borrowed(rows)
}
