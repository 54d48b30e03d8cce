//! A sheet edited where it stands in a lent buffer, its length stated beside it.
//! No byte is moved: the sheet is read into a plain map from ids to records, the
//! map is changed, and the sheet is written again from the map.

use crate::check::read_all;
use crate::form::{RECORD_BYTES, RECORD_NUMBERS};
use crate::refusal::Refusal;
use crate::sheet::{record_of_numbers, Header, Record};
use std::collections::BTreeMap;

#[derive(Clone, Debug, PartialEq, Eq)]
pub enum Edit {
    /// A record as its numbers in layout order: it replaces the one of its id,
    /// or goes in at its place.
    Put([u32; RECORD_NUMBERS]),
    /// The record of this id is taken out.
    Remove(u32),
}

/// The sheet in the first `length` bytes of the buffer, by the table without 5:
/// there is no output that could be too short.
pub fn read_sheet(buffer: &[u8], length: usize) -> Result<(Header, Vec<Record>), Refusal> {
    let Some(sheet) = buffer.get(..length) else {
        return Err(Refusal::new(1, 0));
    };
    read_all(sheet, usize::MAX)
}

/// A sheet of the map's records; of the header all but the count is kept.
fn write_sheet(header: &Header, records: &BTreeMap<i128, Record>) -> Vec<u8> {
    let n = records.len() as i128;
    let mut bytes = Header { n, ..*header }.form().pack();
    for record in records.values() {
        bytes.extend(record.form().pack());
    }
    bytes
}

/// Does one edit and gives the sheet's new length. Nothing is written before
/// every refusal is past, so a refused edit leaves the buffer as it was.
pub fn edit(buffer: &mut [u8], length: usize, edit: &Edit) -> Result<usize, Refusal> {
    let (header, records) = read_sheet(buffer, length)?;
    let n = records.len();
    let by_id = records.into_iter().map(|record| (record.id(), record));
    let mut map: BTreeMap<i128, Record> = by_id.collect();
    match edit {
        Edit::Put(numbers) => {
            let record = record_of_numbers(numbers, n)?;
            let full = header.n == header.version().n_highest;
            let no_room = length + RECORD_BYTES > buffer.len() || full;
            if no_room && !map.contains_key(&record.id()) {
                return Err(Refusal::new(11, 0));
            }
            map.insert(record.id(), record);
        }
        Edit::Remove(id) => {
            if map.remove(&i128::from(*id)).is_none() {
                return Err(Refusal::new(10, 0));
            }
        }
    }
    let sheet = write_sheet(&header, &map);
    // The old sheet is wiped, so that what a removal frees is zero.
    buffer[..length].fill(0);
    buffer[..sheet.len()].copy_from_slice(&sheet);
    Ok(sheet.len())
}
