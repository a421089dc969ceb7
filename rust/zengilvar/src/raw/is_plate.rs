extern "C" {
    fn dm_is_plate(plate: *const u8, plate_len: usize) -> bool;
}

/// Whether these bytes are a plate: `encode` and `list` do not refuse them with 10.
pub fn is_plate(plate: &[u8]) -> bool {
    // SAFETY: the slice is valid for its length.
    unsafe { dm_is_plate(plate.as_ptr(), plate.len()) }
}
