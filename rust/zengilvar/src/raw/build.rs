/// What `build` answers: number (0 if answered), line (0 except with refusals 3 to 8), length of the plate (0 if
/// refused).
#[repr(C)]
#[derive(Debug, Clone, Copy, PartialEq, Eq)]
pub struct Built {
    pub number: u64,
    pub line: u64,
    pub length: u64,
}

extern "C" {
    fn dm_build(text: *const u8, text_len: usize, folding: bool, plate: *mut u8, plate_len: usize) -> Built;
}

/// Rule text and folding flag to a plate, at the front of `plate`. Refused, no byte of it is changed.
pub fn build(text: &[u8], folding: bool, plate: &mut [u8]) -> Built {
    // SAFETY: both slices are valid for their lengths, and `plate` is borrowed alone, so it is apart from `text`.
    unsafe { dm_build(text.as_ptr(), text.len(), folding, plate.as_mut_ptr(), plate.len()) }
}
