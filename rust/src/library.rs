//! The safe face of the library.
//!
//! Every function takes slices of any length with any words in them; what can't be done is refused with its reason.

use crate::terms::{refusal_of, Operation, Part, Refusal, Reply, Settings, Step};

mod c {
    use crate::terms::{Part, Reply};

    extern "C" {
        pub fn ernuvald_words(threads: u32, slots: u32, cells: u32, records: u32, threshold: u32, start: u32) -> u32;
        pub fn ernuvald_set_up(
            image: *mut u32,
            words: usize,
            threads: u32,
            slots: u32,
            cells: u32,
            records: u32,
            threshold: u32,
            start: u32,
        ) -> u32;
        pub fn ernuvald_step(image: *mut u32, words: usize, thread: u32, op: u32, a: u32, b: u32, c: u32) -> Reply;
        pub fn ernuvald_retired(image: *const u32, words: usize, thread: u32) -> Part;
        pub fn ernuvald_damaged(image: *const u32, words: usize) -> u32;
    }
}

/// How many words an image with these settings has; none if a setting is beyond its limit.
pub fn words(settings: &Settings) -> Option<usize> {
    let [t, h, cells, r, f, s] = settings.to_words();
    // SAFETY: the function reads and writes no memory of the caller.
    let length = unsafe { c::ernuvald_words(t, h, cells, r, f, s) };
    (length != 0).then_some(length as usize)
}

/// Set-up with the number as the library gives it.
pub fn set_up_raw(image: &mut [u32], settings: &Settings) -> u32 {
    let [t, h, cells, r, f, s] = settings.to_words();
    // SAFETY: pointer and length are those of a slice that this call alone holds.
    unsafe { c::ernuvald_set_up(image.as_mut_ptr(), image.len(), t, h, cells, r, f, s) }
}

/// Writes the first image into a buffer that is exactly as long as the settings need; [`words`] has the length.
pub fn set_up(image: &mut [u32], settings: &Settings) -> Result<(), Refusal> {
    refusal_of(set_up_raw(image, settings)).map_or(Ok(()), Err)
}

/// A step of five raw words, with the reply as the library gives it.
pub fn step_raw(image: &mut [u32], step: Step) -> Reply {
    let [thread, op, a, b, c] = step.to_words();
    // SAFETY: pointer and length are those of a slice that this call alone holds.
    unsafe { c::ernuvald_step(image.as_mut_ptr(), image.len(), thread, op, a, b, c) }
}

/// Lets a thread do an operation and gives its value. A step that is refused changes no word.
pub fn step(image: &mut [u32], thread: u32, operation: Operation) -> Result<u32, Refusal> {
    step_raw(image, Step::of(thread, operation)).to_result()
}

/// The question for a retire list, with the part as the library gives it.
pub fn retired_raw(image: &[u32], thread: u32) -> Part {
    // SAFETY: pointer and length are those of a slice that is lent for the call, and the library only reads it.
    unsafe { c::ernuvald_retired(image.as_ptr(), image.len(), thread) }
}

/// The entries of a thread's retire list: a part of the image itself.
pub fn retired(image: &[u32], thread: u32) -> Result<&[u32], Refusal> {
    let part = retired_raw(image, thread);
    let (from, length) = (part.from as usize, part.length as usize);
    refusal_of(part.number).map_or_else(|| Ok(&image[from..from + length]), Err)
}

/// Whether an image is damaged.
pub fn damaged(image: &[u32]) -> bool {
    // SAFETY: pointer and length are those of a slice that is lent for the call, and the library only reads it.
    unsafe { c::ernuvald_damaged(image.as_ptr(), image.len()) != 0 }
}
