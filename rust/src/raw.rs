//! The C functions as they are; `include/hubeltxa.h` says what each needs and answers.
//!
//! ```
//! let [mut red, mut green, mut blue] = [0; 3];
//! // SAFETY: the pointers are to three locals.
//! let number = unsafe { hubeltxa::raw::hbx_codes(0.0, 0.25, 0.5, &mut red, &mut green, &mut blue) };
//! assert_eq!((number, [red, green, blue]), (0, [0, 16_384, 32_768]));
//! ```

extern "C" {
    /// The codes of a panel colour; see [`codes`](crate::codes).
    ///
    /// # Safety
    /// The pointers must be aligned and good for writes, and no two may be the same.
    pub fn hbx_codes(
        red: f32,
        green: f32,
        blue: f32,
        red_code: *mut u32,
        green_code: *mut u32,
        blue_code: *mut u32,
    ) -> u32;

    /// A colour as panel floats; see [`floats`](crate::floats).
    ///
    /// # Safety
    /// The pointers must be aligned and good for writes, and no two may be the same.
    pub fn hbx_floats(
        red: u32,
        green: u32,
        blue: u32,
        red_out: *mut f32,
        green_out: *mut f32,
        blue_out: *mut f32,
    ) -> u32;

    /// Writes a line of a sheet; see [`write_line`](crate::write_line).
    ///
    /// # Safety
    /// `name` must be good for reads of `name_len` bytes and `line` for writes of `line_len`; the
    /// two may not overlap, and neither may be null, not even if its length is 0.
    pub fn hbx_line(
        tag: u32,
        red: u32,
        green: u32,
        blue: u32,
        name: *const u8,
        name_len: usize,
        line: *mut u8,
        line_len: usize,
    ) -> u32;

    /// Looks up a reel name: where in the sheet it starts, and its length, both 0 if there is
    /// none; see [`name`](crate::name).
    ///
    /// # Safety
    /// `sheet` must be good for reads of `sheet_len` bytes, and not null, not even if that is
    /// 0. The other pointers must be aligned and good for writes. No two of the three may overlap.
    pub fn hbx_name(sheet: *const u8, sheet_len: usize, tag: u32, start: *mut usize, length: *mut usize);

    /// Writes the tables of the empty set; see [`clear`](crate::lent::clear). A length is in words.
    ///
    /// # Safety
    /// `samples` must be good for reads and writes of `samples_len` words and `octants` of
    /// `octants_len`; the two may not overlap. Each must be aligned and not null, even if its
    /// length is 0.
    pub fn hbx_clear(samples: *mut u32, samples_len: usize, octants: *mut u32, octants_len: usize, bucket: u32) -> u32;

    /// 1 if the tables are sound, 0 if not; see [`check`](crate::lent::check). A length is in words.
    ///
    /// # Safety
    /// `samples` must be good for reads of `samples_len` words and `octants` of `octants_len`. Each
    /// must be aligned and not null, even if its length is 0.
    pub fn hbx_check(samples: *const u32, samples_len: usize, octants: *const u32, octants_len: usize) -> u32;

    /// Adds a sample; see [`add`](crate::lent::add). A length is in words.
    ///
    /// # Safety
    /// As of [`hbx_clear`].
    pub fn hbx_add(
        samples: *mut u32,
        samples_len: usize,
        octants: *mut u32,
        octants_len: usize,
        tag: u32,
        red: u32,
        green: u32,
        blue: u32,
    ) -> u32;

    /// Removes the sample with a tag; see [`remove`](crate::lent::remove). A length is in words.
    ///
    /// # Safety
    /// As of [`hbx_clear`].
    pub fn hbx_remove(samples: *mut u32, samples_len: usize, octants: *mut u32, octants_len: usize, tag: u32) -> u32;

    /// Adds a sheet's samples, and says how many lines were taken; see [`load`](crate::lent::load). The
    /// length of a table is in words.
    ///
    /// # Safety
    /// As of [`hbx_clear`]. `sheet` must be good for reads of `sheet_len` bytes, and not null, not
    /// even if that is 0; `taken` must be aligned and good for writes. No two of the four may
    /// overlap.
    pub fn hbx_load(
        samples: *mut u32,
        samples_len: usize,
        octants: *mut u32,
        octants_len: usize,
        sheet: *const u8,
        sheet_len: usize,
        taken: *mut u32,
    ) -> u32;

    /// Lists the samples in a ball; see [`ball`](crate::lent::ball). A length is in words.
    ///
    /// # Safety
    /// `samples` must be good for reads of `samples_len` words, `octants` of `octants_len`, and
    /// `listing` for reads and writes of `listing_len`; each must be aligned and not null, even if
    /// its length is 0. The last three pointers must be aligned and good for writes. What is written
    /// may not overlap anything else.
    pub fn hbx_ball(
        samples: *const u32,
        samples_len: usize,
        octants: *const u32,
        octants_len: usize,
        red: f32,
        green: f32,
        blue: f32,
        radius: f32,
        listing: *mut u32,
        listing_len: usize,
        listed: *mut u32,
        entered: *mut u32,
        measured: *mut u32,
    ) -> u32;

    /// Lists the samples in a box; see [`box_`](crate::lent::box_). A length is in words.
    ///
    /// # Safety
    /// As of [`hbx_ball`].
    pub fn hbx_box(
        samples: *const u32,
        samples_len: usize,
        octants: *const u32,
        octants_len: usize,
        low_red: f32,
        low_green: f32,
        low_blue: f32,
        high_red: f32,
        high_green: f32,
        high_blue: f32,
        listing: *mut u32,
        listing_len: usize,
        listed: *mut u32,
        entered: *mut u32,
        measured: *mut u32,
    ) -> u32;

    /// Finds the nearest sample; see [`nearest`](crate::lent::nearest). A length is in words.
    ///
    /// # Safety
    /// `samples` must be good for reads of `samples_len` words and `octants` of `octants_len`; each
    /// must be aligned and not null, even if its length is 0. The last three pointers must be
    /// aligned and good for writes. What is written may not overlap anything else.
    pub fn hbx_near(
        samples: *const u32,
        samples_len: usize,
        octants: *const u32,
        octants_len: usize,
        red: f32,
        green: f32,
        blue: f32,
        radius: f32,
        found: *mut u32,
        tag: *mut u32,
        distance: *mut u64,
    ) -> u32;
}
