//! The proved stepper, as the static library exports it.

extern "C" {
    fn zibdalk_words(
        words: *mut u32,
        words_len: usize,
        text: *const u8,
        text_len: usize,
        out: *mut u8,
        out_len: usize,
    ) -> usize;
    fn zibdalk_image(
        bytes: *mut u8,
        bytes_len: usize,
        text: *const u8,
        text_len: usize,
        out: *mut u8,
        out_len: usize,
    ) -> usize;
}

/// Replies to the lines of a text over words, into `out`; how many bytes were written.
pub fn words(words: &mut [u32], text: &[u8], out: &mut [u8]) -> usize {
    // SAFETY: three slices that do not overlap; the library writes within two of them.
    unsafe {
        zibdalk_words(
            words.as_mut_ptr(),
            words.len(),
            text.as_ptr(),
            text.len(),
            out.as_mut_ptr(),
            out.len(),
        )
    }
}

/// The same over a byte image.
pub fn image(bytes: &mut [u8], text: &[u8], out: &mut [u8]) -> usize {
    // SAFETY: three slices that do not overlap; the library writes within two of them.
    unsafe {
        zibdalk_image(
            bytes.as_mut_ptr(),
            bytes.len(),
            text.as_ptr(),
            text.len(),
            out.as_mut_ptr(),
            out.len(),
        )
    }
}
