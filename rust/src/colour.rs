//! Panel floats to codes, and back.

use crate::raw;
use crate::refusal::{unless_refused, Refusal};

/// The codes of a panel colour: red, green, blue, by the [rule for codes](crate::numbers#codes-and-panel-floats).
///
/// # Errors
/// [`Refusal::OutOfRange`] (9) if a channel is out of range.
///
/// ```
/// use hubeltxa::{numbers::MOST_CODE, Refusal};
///
/// assert_eq!(hubeltxa::codes([0.0, 0.5, 0.999_999]), Ok([0, 32_768, MOST_CODE]));
/// assert_eq!(hubeltxa::codes([0.0, 0.5, 1.5]), Err(Refusal::OutOfRange));
/// ```
pub fn codes(panel: [f32; 3]) -> Result<[u32; 3], Refusal> {
    let [mut red, mut green, mut blue] = [0; 3];
    // SAFETY: the pointers are to three locals.
    let number = unsafe { raw::hbx_codes(panel[0], panel[1], panel[2], &mut red, &mut green, &mut blue) };
    unless_refused(number, [red, green, blue])
}

/// A colour as panel floats: each code divided by [`SCALE`](crate::numbers::SCALE). [`codes`] gives the same codes
/// back.
///
/// # Errors
/// [`Refusal::Code`] (4) if a code is over [`MOST_CODE`](crate::numbers::MOST_CODE).
///
/// ```
/// use hubeltxa::{numbers::{MOST_CODE, SCALE}, Refusal};
///
/// assert_eq!(hubeltxa::floats([0, 1, MOST_CODE]), Ok([0.0, 1.0 / SCALE, MOST_CODE as f32 / SCALE]));
/// assert_eq!(hubeltxa::floats([0, 1, MOST_CODE + 1]), Err(Refusal::Code));
/// ```
pub fn floats(codes: [u32; 3]) -> Result<[f32; 3], Refusal> {
    let [mut red, mut green, mut blue] = [0.0; 3];
    // SAFETY: the pointers are to three locals.
    let number = unsafe { raw::hbx_floats(codes[0], codes[1], codes[2], &mut red, &mut green, &mut blue) };
    unless_refused(number, [red, green, blue])
}
