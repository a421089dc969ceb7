//! An index of names: which of them share a code with another.

use crate::ward::count;
use crate::{raw, Cause, DaitchMokotoffSoundex, PhoneticError, Refusal, LONGEST_FOUND, MOST_RECORDS};

/// The bytes of an entry, and those of a name's entries at most: 64 codes.
const ENTRY: usize = 4;
const NAME_ROOM: usize = 64 * ENTRY;

/// An index of up to `MOST_RECORDS` names, its records, numbered from 0 in their order. It holds its coder: an index
/// answers rightly only by the plate that it was made with.
///
/// ```
/// # fn main() -> Result<(), zengilvar::PhoneticError> {
/// use zengilvar::{DaitchMokotoffSoundex, Index};
///
/// let mut index = Index::make(DaitchMokotoffSoundex::default(), "Moskowitz\nPeters\n".as_bytes())?;
/// assert_eq!(index.add("Moskovitz".as_bytes())?, 2);
/// assert_eq!(index.find("Мошкович".as_bytes())?, [0, 2]);
/// # Ok(())
/// # }
/// ```
#[derive(Clone, Debug, PartialEq, Eq)]
pub struct Index {
    coder: DaitchMokotoffSoundex,
    entries: Vec<u8>,
    report: Vec<u8>,
}

impl Index {
    /// From names, each closed by a newline; a last one without newline counts if it is not empty. A name that is
    /// refused keeps its number and is never found; `refusal` tells why. Over `MOST_RECORDS` names nothing is made.
    pub fn make(coder: DaitchMokotoffSoundex, names: &[u8]) -> Result<Self, PhoneticError> {
        let records = count(names).min(MOST_RECORDS);
        let mut entries = vec![0; records * NAME_ROOM];
        let mut report = vec![0; records];
        let made = answered(raw::index_make(coder.plate(), names, &mut entries, &mut report))?;
        let mut index = Self { coder, entries, report };
        index.cut(made);
        index.entries.shrink_to_fit();
        Ok(index)
    }

    /// An index that was kept: its entries and its report, and the coder that it was made with. Bytes that are no index,
    /// or that name a record which the report does not have, are refused. Another coder's index is not told apart.
    pub fn with_kept(coder: DaitchMokotoffSoundex, entries: Vec<u8>, report: Vec<u8>) -> Result<Self, PhoneticError> {
        let mut records =
            entries.chunks_exact(ENTRY).map(|entry| usize::from(entry[2] & 15) << 8 | usize::from(entry[3]));
        let known = report.len() <= MOST_RECORDS && records.all(|record| record < report.len());
        let looked = raw::index_find(coder.plate(), &entries, b"", &mut [0; LONGEST_FOUND]);
        match (known, looked.number) {
            (true, 0) => Ok(Self { coder, entries, report }),
            (false, 0) => Err(refused(Cause::NotAnIndex)),
            (_, number) => Err(refused(Cause::of(number))),
        }
    }

    /// One name more; its record's number. The index is then the one that is made from all names. A name that is refused
    /// is added, keeps its number and is never found; `refusal` tells why. Beyond `MOST_RECORDS` nothing is added.
    pub fn add(&mut self, name: &[u8]) -> Result<usize, PhoneticError> {
        let (used, record) = (self.entries.len(), self.report.len());
        self.entries.resize(used + NAME_ROOM, 0);
        self.report.push(0);
        let plate = self.coder.plate();
        let added = answered(raw::index_add(plate, name, &mut self.entries, used, &mut self.report, record));
        self.cut(added.clone().unwrap_or((used, record)));
        added.map(|_| record)
    }

    /// The records that share a code with the name, rising.
    pub fn find(&self, name: &[u8]) -> Result<Vec<usize>, PhoneticError> {
        let mut out = [0; LONGEST_FOUND];
        let found = raw::index_find(self.coder.plate(), &self.entries, name, &mut out);
        match found.number {
            0 => Ok(out[..found.length as usize]
                .chunks(2)
                .map(|two| usize::from(two[0]) << 8 | usize::from(two[1]))
                .collect()),
            number => Err(refused(Cause::of(number))),
        }
    }

    /// Why a record has no codes, if it was refused.
    pub fn refusal(&self, record: usize) -> Option<Cause> {
        self.report.get(record).filter(|number| **number != 0).map(|number| Cause::of(u64::from(*number)))
    }

    /// How many records there are.
    pub fn len(&self) -> usize {
        self.report.len()
    }

    pub fn is_empty(&self) -> bool {
        self.report.is_empty()
    }

    /// The coder that it was made with.
    pub fn coder(&self) -> &DaitchMokotoffSoundex {
        &self.coder
    }

    /// The entries, to keep them.
    pub fn entries(&self) -> &[u8] {
        &self.entries
    }

    /// The report, to keep it.
    pub fn report(&self) -> &[u8] {
        &self.report
    }

    fn cut(&mut self, (entries, records): (usize, usize)) {
        self.entries.truncate(entries);
        self.report.truncate(records);
    }
}

/// The two lengths, or the refusal.
fn answered(indexed: raw::Indexed) -> Result<(usize, usize), PhoneticError> {
    match indexed.number {
        0 => Ok((indexed.index_length as usize, indexed.report_length as usize)),
        number => Err(refused(Cause::of(number))),
    }
}

fn refused(cause: Cause) -> PhoneticError {
    PhoneticError::Refused(Refusal::without_place(cause))
}
