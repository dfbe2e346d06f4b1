//! Lines of a sheet written, and names looked up.

use crate::raw;
use crate::refusal::{unless_refused, Refusal};

/// Writes one line of a sheet, from tag, codes and reel name, over the first [`LINE_LENGTH`](crate::LINE_LENGTH) bytes
/// of `line`. The bytes after them stay as they were.
///
/// # Errors
/// The first of these that is so; nothing is written then:
/// - [`Refusal::Code`] (4) if a code is over [`MOST_CODE`](crate::numbers::MOST_CODE);
/// - [`Refusal::Name`] (10) if the name is not [good](crate::numbers#sheets);
/// - [`Refusal::NoRoom`] (13) if `line` is shorter than a line.
///
/// ```
/// use hubeltxa::{numbers::MOST_CODE, write_line, Refusal, LINE_LENGTH};
///
/// let mut line = [b'.'; LINE_LENGTH + 2];
/// write_line(7, [0, 32_768, MOST_CODE], b"A001", &mut line)?;
/// assert!(line.ends_with(b" \n.."));
/// assert!(String::from_utf8_lossy(&line).split_whitespace().eq(["7", "0", "32768", "65535", "A001", ".."]));
///
/// assert_eq!(write_line(7, [0, 0, MOST_CODE + 1], b"", &mut []), Err(Refusal::Code));
/// assert_eq!(write_line(7, [0, 0, MOST_CODE], b"", &mut []), Err(Refusal::Name));
/// assert_eq!(write_line(7, [0, 0, MOST_CODE], b"A001", &mut []), Err(Refusal::NoRoom));
/// # Ok::<(), Refusal>(())
/// ```
pub fn write_line(tag: u32, codes: [u32; 3], name: &[u8], line: &mut [u8]) -> Result<(), Refusal> {
    let [red, green, blue] = codes;
    // SAFETY: each pointer and length is a slice's; the one that is written is borrowed alone.
    let number =
        unsafe { raw::hbx_line(tag, red, green, blue, name.as_ptr(), name.len(), line.as_mut_ptr(), line.len()) };
    unless_refused(number, ())
}

/// The reel name in the first line of a sheet with this tag: a part of the sheet itself. Empty if no line has the tag,
/// and if the header or any line is not [good](crate::numbers#sheets).
///
/// ```
/// use hubeltxa::numbers::{COUNT_COLUMNS, LINE_LENGTH, TITLE};
/// use hubeltxa::{name, write_line};
///
/// let mut lines = [[0; LINE_LENGTH]; 2];
/// write_line(7, [0; 3], b"A001", &mut lines[0])?;
/// write_line(8, [65_535; 3], b"A002", &mut lines[1])?;
/// let mut sheet = [format!("{TITLE}{:>COUNT_COLUMNS$}\n", 2).as_bytes(), &lines.concat()].concat();
/// assert_eq!(name(&sheet, 8), b"A002");
/// assert_eq!(name(&sheet, 9), b"");
///
/// let after_the_name = sheet.len() - LINE_LENGTH - 2; // the last blank of line 0
/// sheet[after_the_name] = b'!';
/// assert_eq!(name(&sheet, 8), b"");
/// # Ok::<(), hubeltxa::Refusal>(())
/// ```
pub fn name(sheet: &[u8], tag: u32) -> &[u8] {
    let [mut start, mut length] = [0; 2];
    // SAFETY: the first pointer and length are a slice's; the other pointers are to two locals.
    unsafe { raw::hbx_name(sheet.as_ptr(), sheet.len(), tag, &mut start, &mut length) };
    &sheet[start..start + length]
}
