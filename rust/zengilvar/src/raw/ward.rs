/// What `ward` and `index_find` answer: number (0 if answered), and how many bytes were written (0 if refused).
#[repr(C)]
#[derive(Debug, Clone, Copy, PartialEq, Eq)]
pub struct Written {
    pub number: u64,
    pub length: u64,
}

extern "C" {
    fn dm_ward(
        plate: *const u8,
        plate_len: usize,
        names: *const u8,
        names_len: usize,
        out: *mut u8,
        out_len: usize,
    ) -> Written;
}

/// A line for each name, at the front of `out`: its list, or `!` and its refusal in two digits. Names are closed by
/// newlines, and so are the lines. Refused, no byte of it is changed.
pub fn ward(plate: &[u8], names: &[u8], out: &mut [u8]) -> Written {
    // SAFETY: the slices are valid for their lengths, and `out` is borrowed alone, so it is apart from the others.
    unsafe { dm_ward(plate.as_ptr(), plate.len(), names.as_ptr(), names.len(), out.as_mut_ptr(), out.len()) }
}
