/// What `encode` and `list` answer: number (0 if answered), count of codes (0 if refused), and the byte of the name at
/// which its fault begins (with 2 and 11; else 0).
#[repr(C)]
#[derive(Debug, Clone, Copy, PartialEq, Eq)]
pub struct Coded {
    pub number: u64,
    pub count: u64,
    pub place: u64,
}

extern "C" {
    fn dm_encode(
        plate: *const u8,
        plate_len: usize,
        name: *const u8,
        name_len: usize,
        out: *mut u8,
        out_len: usize,
    ) -> Coded;

    fn dm_list(
        plate: *const u8,
        plate_len: usize,
        name: *const u8,
        name_len: usize,
        out: *mut u8,
        out_len: usize,
    ) -> Coded;
}

/// The first code of the name, at the front of `out`. Refused, no byte of it is changed.
pub fn encode(plate: &[u8], name: &[u8], out: &mut [u8]) -> Coded {
    // SAFETY: the slices are valid for their lengths, and `out` is borrowed alone, so it is apart from the others.
    unsafe { dm_encode(plate.as_ptr(), plate.len(), name.as_ptr(), name.len(), out.as_mut_ptr(), out.len()) }
}

/// All codes of the name, at the front of `out`, a bar between two. Refused, no byte of it is changed.
pub fn list(plate: &[u8], name: &[u8], out: &mut [u8]) -> Coded {
    // SAFETY: the slices are valid for their lengths, and `out` is borrowed alone, so it is apart from the others.
    unsafe { dm_list(plate.as_ptr(), plate.len(), name.as_ptr(), name.len(), out.as_mut_ptr(), out.len()) }
}
