use super::Written;

/// What `index_make` and `index_add` answer: number (0 if answered), and how many bytes of the index and of the report
/// are now in use (both 0 if refused).
#[repr(C)]
#[derive(Debug, Clone, Copy, PartialEq, Eq)]
pub struct Indexed {
    pub number: u64,
    pub index_length: u64,
    pub report_length: u64,
}

extern "C" {
    fn dm_index_make(
        plate: *const u8,
        plate_len: usize,
        names: *const u8,
        names_len: usize,
        index: *mut u8,
        index_len: usize,
        report: *mut u8,
        report_len: usize,
    ) -> Indexed;

    fn dm_index_add(
        plate: *const u8,
        plate_len: usize,
        name: *const u8,
        name_len: usize,
        index: *mut u8,
        index_len: usize,
        index_used: usize,
        report: *mut u8,
        report_len: usize,
        report_used: usize,
    ) -> Indexed;

    fn dm_index_find(
        plate: *const u8,
        plate_len: usize,
        index: *const u8,
        index_len: usize,
        name: *const u8,
        name_len: usize,
        out: *mut u8,
        out_len: usize,
    ) -> Written;
}

/// Index and report of the names, each at the front of its buffer. Names are closed by newlines. Refused, no byte of
/// either is changed.
pub fn index_make(plate: &[u8], names: &[u8], index: &mut [u8], report: &mut [u8]) -> Indexed {
    let (into, note) = (index.as_mut_ptr(), report.as_mut_ptr());
    // SAFETY: the slices are valid for their lengths; `index` and `report` are borrowed alone, so they are apart from
    // each other and from the others.
    unsafe {
        dm_index_make(plate.as_ptr(), plate.len(), names.as_ptr(), names.len(), into, index.len(), note, report.len())
    }
}

/// One name more, in place: `index_used` and `report_used` bytes of the two buffers are in use. Refused, no byte of
/// either is changed.
pub fn index_add(
    plate: &[u8],
    name: &[u8],
    index: &mut [u8],
    index_used: usize,
    report: &mut [u8],
    report_used: usize,
) -> Indexed {
    let (into, note) = (index.as_mut_ptr(), report.as_mut_ptr());
    // SAFETY: as for index_make; what is said to be in use is checked by the call.
    unsafe {
        dm_index_add(
            plate.as_ptr(),
            plate.len(),
            name.as_ptr(),
            name.len(),
            into,
            index.len(),
            index_used,
            note,
            report.len(),
            report_used,
        )
    }
}

/// The records that share a code with the name, two bytes each, at the front of `out`. Refused, no byte of it is
/// changed.
pub fn index_find(plate: &[u8], index: &[u8], name: &[u8], out: &mut [u8]) -> Written {
    // SAFETY: the slices are valid for their lengths, and `out` is borrowed alone, so it is apart from the others.
    unsafe {
        dm_index_find(
            plate.as_ptr(),
            plate.len(),
            index.as_ptr(),
            index.len(),
            name.as_ptr(),
            name.len(),
            out.as_mut_ptr(),
            out.len(),
        )
    }
}
