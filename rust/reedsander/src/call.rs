//! The two calls to C.

extern "C" {
    fn reedsander_check(
        sheet: *const u32,
        sheet_words: usize,
        text: *const u8,
        text_bytes: usize,
        report: *mut u32,
        report_words: usize,
    ) -> u64;

    fn reedsander_set(
        sheet: *const u32,
        sheet_words: usize,
        text: *const u8,
        text_bytes: usize,
        marks: *mut u32,
        marks_words: usize,
    ) -> u64;
}

/// The C function's own answer, as `include/reedsander.h` describes it; see
/// [`Answer::from_raw`](crate::Answer::from_raw). [`check`](crate::check()) is more
/// convenient.
#[must_use]
pub fn check_raw(sheet: &[u32], text: &[u8], report: &mut [u32]) -> u64 {
    // SAFETY: the pointers and lengths are those of three slices, so they are
    // not null (an empty slice's pointer is not), aligned, and good for
    // reading, and the report's for writing; the report is borrowed alone, so
    // it overlaps neither of the others. The function keeps none of them.
    unsafe {
        reedsander_check(
            sheet.as_ptr(),
            sheet.len(),
            text.as_ptr(),
            text.len(),
            report.as_mut_ptr(),
            report.len(),
        )
    }
}

/// The C function's own answer, as `include/reedsander.h` describes it; see
/// [`Setting::from_raw`](crate::Setting::from_raw). [`set`](crate::set()) is more
/// convenient.
#[must_use]
pub fn set_raw(sheet: &[u32], text: &[u8], marks: &mut [u32]) -> u64 {
    // SAFETY: as in `check_raw`, with the marks in place of the report.
    unsafe {
        reedsander_set(
            sheet.as_ptr(),
            sheet.len(),
            text.as_ptr(),
            text.len(),
            marks.as_mut_ptr(),
            marks.len(),
        )
    }
}
