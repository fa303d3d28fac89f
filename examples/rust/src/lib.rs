//! Safe Rust over Zirbonnu's static library: a job's text is run to its replies.
//!
//! A slice of Rust meets what include/zirbonnu.h asks of a pointer and its length.
//! Nothing compares the declarations below with those of the library: they are written by hand to fit.

unsafe extern "C" {
    fn zirbonnu_measure(text: *const u8, text_length: usize, count: *mut usize) -> u32;

    fn zirbonnu_run(
        text: *const u8,
        text_length: usize,
        places: *mut u8,
        places_length: usize,
        count: *mut usize,
    ) -> u32;
}

/// Why the replies to a text are not written.
#[derive(Clone, Copy, PartialEq, Eq, Debug)]
pub enum Failure {
    /// They have more bytes than there are places; this is how many they have.
    TooSmall(usize),
    /// There is no memory for the session or for the replies.
    NoMemory,
}

/// How many bytes the replies to the text have.
pub fn measure(text: &[u8]) -> Result<usize, Failure> {
    let mut count = 0;
    // SAFETY: the pointers are to the slice and to a local, which are borrowed for the call and apart.
    let status = unsafe { zirbonnu_measure(text.as_ptr(), text.len(), &mut count) };
    told(status, count)
}

/// Writes the replies to the text into the first places, and answers how many bytes they have.
/// Places that are not written keep what they held; after a failure that is all of them.
pub fn run(text: &[u8], places: &mut [u8]) -> Result<usize, Failure> {
    let mut count = 0;
    // SAFETY: the pointers are to two slices and a local, which are borrowed for the call and apart.
    let status = unsafe {
        zirbonnu_run(
            text.as_ptr(),
            text.len(),
            places.as_mut_ptr(),
            places.len(),
            &mut count,
        )
    };
    told(status, count)
}

/// The answer that the library's status and count say.
fn told(status: u32, count: usize) -> Result<usize, Failure> {
    match status {
        0 => Ok(count),
        1 => Err(Failure::TooSmall(count)),
        _ => Err(Failure::NoMemory),
    }
}
