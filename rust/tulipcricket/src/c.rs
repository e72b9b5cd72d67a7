//! The C functions over slices.

mod raw {
    extern "C" {
        pub fn tulipcricket_lower(
            sheet: *const u8,
            sheet_len: usize,
            listing: *mut u8,
            listing_len: usize,
            constants: *mut u8,
            constants_len: usize,
            origins: *mut u8,
            origins_len: usize,
            answer: *mut u8,
            answer_len: usize,
        ) -> u32;

        pub fn tulipcricket_play(
            listing: *const u8,
            listing_len: usize,
            constants: *const u8,
            constants_len: usize,
            store: *mut u8,
            store_len: usize,
            start: u64,
            answer: *mut u8,
            answer_len: usize,
        ) -> u32;

        pub fn tulipcricket_peak(run: *const u8, run_len: usize, window: u64, out: *mut u8, out_len: usize) -> u32;

        pub fn tulipcricket_nearest(
            re: u64,
            im: u64,
            points: *const u8,
            points_len: usize,
            answer: *mut u8,
            answer_len: usize,
        ) -> u32;

        pub fn tulipcricket_shelf(sheet: *const u8, sheet_len: usize, answer: *mut u8, answer_len: usize) -> u32;

        pub fn tulipcricket_look(
            listing: *const u8,
            listing_len: usize,
            constants: *const u8,
            constants_len: usize,
            store: *const u8,
            store_len: usize,
            record: u64,
            answer: *mut u8,
            answer_len: usize,
        ) -> u32;

        pub fn tulipcricket_pages(
            listing: *const u8,
            listing_len: usize,
            constants: *const u8,
            constants_len: usize,
            pages: *mut u8,
            pages_len: usize,
            answer: *mut u8,
            answer_len: usize,
        ) -> u32;
    }
}

/// `tulipcricket_lower`; the number it returns.
pub fn lower(
    sheet: &[u8],
    listing: &mut [u8],
    constants: &mut [u8; 2048],
    origins: &mut [u8; 512],
    answer: &mut [u8; 260],
) -> u32 {
    // SAFETY: each pointer comes with the length of the slice it was taken from, and the function keeps none.
    unsafe {
        raw::tulipcricket_lower(
            sheet.as_ptr(),
            sheet.len(),
            listing.as_mut_ptr(),
            listing.len(),
            constants.as_mut_ptr(),
            constants.len(),
            origins.as_mut_ptr(),
            origins.len(),
            answer.as_mut_ptr(),
            answer.len(),
        )
    }
}

/// `tulipcricket_play`; the number it returns.
pub fn play(listing: &[u8], constants: &[u8], store: &mut [u8], start: u64, answer: &mut [u8; 24]) -> u32 {
    // SAFETY: each pointer comes with the length of the slice it was taken from, and the function keeps none.
    unsafe {
        raw::tulipcricket_play(
            listing.as_ptr(),
            listing.len(),
            constants.as_ptr(),
            constants.len(),
            store.as_mut_ptr(),
            store.len(),
            start,
            answer.as_mut_ptr(),
            answer.len(),
        )
    }
}

/// `tulipcricket_peak`; the number it returns.
pub fn peak(run: &[u8], window: u64, out: &mut [u8]) -> u32 {
    // SAFETY: each pointer comes with the length of the slice it was taken from, and the function keeps none.
    unsafe { raw::tulipcricket_peak(run.as_ptr(), run.len(), window, out.as_mut_ptr(), out.len()) }
}

/// `tulipcricket_nearest`; the number it returns.
pub fn nearest(re: u64, im: u64, points: &[u8], answer: &mut [u8; 24]) -> u32 {
    // SAFETY: each pointer comes with the length of the slice it was taken from, and the function keeps none.
    unsafe { raw::tulipcricket_nearest(re, im, points.as_ptr(), points.len(), answer.as_mut_ptr(), answer.len()) }
}

/// `tulipcricket_shelf`; the number it returns.
pub fn shelf(sheet: &[u8], answer: &mut [u8; 40]) -> u32 {
    // SAFETY: each pointer comes with the length of the slice it was taken from, and the function keeps none.
    unsafe { raw::tulipcricket_shelf(sheet.as_ptr(), sheet.len(), answer.as_mut_ptr(), answer.len()) }
}

/// `tulipcricket_look`; the number it returns.
pub fn look(listing: &[u8], constants: &[u8], store: &[u8], record: u64, answer: &mut [u8; 64]) -> u32 {
    // SAFETY: each pointer comes with the length of the slice it was taken from, and the function keeps none.
    unsafe {
        raw::tulipcricket_look(
            listing.as_ptr(),
            listing.len(),
            constants.as_ptr(),
            constants.len(),
            store.as_ptr(),
            store.len(),
            record,
            answer.as_mut_ptr(),
            answer.len(),
        )
    }
}

/// `tulipcricket_pages`; the number it returns.
pub fn pages(listing: &[u8], constants: &[u8], pages: &mut [u8], answer: &mut [u8; 24]) -> u32 {
    // SAFETY: each pointer comes with the length of the slice it was taken from, and the function keeps none.
    unsafe {
        raw::tulipcricket_pages(
            listing.as_ptr(),
            listing.len(),
            constants.as_ptr(),
            constants.len(),
            pages.as_mut_ptr(),
            pages.len(),
            answer.as_mut_ptr(),
            answer.len(),
        )
    }
}
