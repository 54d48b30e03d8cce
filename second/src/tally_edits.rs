//! A count of what came up in a stream of edits: each effect, and each refusal
//! by what it was given for.

use crate::edit::{read_sheet, Edit};
use crate::edit_stream::{parts, Lent, Part};
use crate::form::RECORD_BYTES;
use crate::refusal::Refusal;
use crate::rows::{line, Rows, ANY};
use crate::version::{SHORTEST_HEADER, VERSIONS};

/// A row that must come up does so at least so often.
pub const ENOUGH: usize = 30;

/// A row that must come up in each version has its share there.
const SHARE: usize = ENOUGH / VERSIONS.len();

/// The rows that must come up in each version, in the order of the table.
pub const BY_VERSION: [&str; 14] = [
    "replaced",
    "inserted",
    "removed",
    "3 on the sheet",
    "9 on the sheet",
    "4 on the sheet",
    "6 on the sheet",
    "7 on the sheet",
    "8 on the sheet",
    "6 on the new record",
    "7 on the new record",
    "10 id not there",
    "11 for the buffer",
    "11 for the count",
];

/// The rows that must come up whatever the version: it is not looked at, not known, or
/// has a longer header than the others.
pub const IN_ANY_VERSION: [&str; 4] = [
    "1 past the buffer",
    "1 under twelve bytes",
    "1 under its header",
    "2 on the sheet",
];

/// Neither the buffer nor the count has room: 11 says nothing of either alone.
pub const BOTH: &str = "11 for both";

#[derive(Default)]
pub struct EditTally {
    pub cases: usize,
    pub edits: usize,
    pub rows: Rows,
    pub broken: bool,
}

impl EditTally {
    pub fn of(stream: &[u8]) -> EditTally {
        let mut tally = EditTally::default();
        let mut lent = Lent::default();
        for part in parts(stream) {
            match part {
                Part::Case(case) => {
                    tally.cases += 1;
                    lent = case;
                }
                Part::Edit(edit) => tally.count(&mut lent, &edit),
                Part::Broken => tally.broken = true,
            }
        }
        tally
    }

    fn count(&mut self, lent: &mut Lent, edit: &Edit) {
        self.edits += 1;
        let (name, version) = outcome(lent, edit);
        self.rows.add(&name, version);
    }

    pub fn table(&self) -> String {
        let mut lines = vec![line("cases", &[self.cases]), line("edits", &[self.edits])];
        lines.extend(self.rows.lines(&IN_ANY_VERSION));
        let by_version = [&BY_VERSION[..], &[BOTH]].concat();
        lines.extend(self.rows.lines_by_version(&by_version));
        lines.join("\n") + "\n"
    }

    /// The rows that do not come up often enough, and those that come up and must not.
    pub fn complaints(&self) -> Vec<String> {
        let mut complaints = self.rows.complaints(&IN_ANY_VERSION, ENOUGH);
        complaints.extend(self.rows.complaints_by_version(&BY_VERSION, SHARE));
        complaints
    }
}

/// Does the edit and names the row it belongs to, with its version.
fn outcome(lent: &mut Lent, edit: &Edit) -> (String, i128) {
    let before = lent.clone();
    let done = lent.edit(edit);
    let header = match read_sheet(&before.buffer, before.length) {
        Ok((header, _)) => header,
        Err(refusal) => return of_the_sheet(&before, refusal),
    };
    let buffer_is_full = before.length + RECORD_BYTES > before.buffer.len();
    let count_is_full = header.n == header.version().n_highest;
    let name = match (done.map_err(|refusal| refusal.number), edit) {
        (Ok(_), Edit::Remove(_)) => "removed",
        (Ok(length), Edit::Put(_)) if length == before.length => "replaced",
        (Ok(_), Edit::Put(_)) => "inserted",
        (Err(10), _) => "10 id not there",
        (Err(11), _) => match (buffer_is_full, count_is_full) {
            (true, false) => "11 for the buffer",
            (false, true) => "11 for the count",
            _ => BOTH,
        },
        (Err(6), _) => "6 on the new record",
        (Err(_), _) => "7 on the new record",
    };
    (name.to_string(), header.version().number)
}

/// The row of a sheet that is turned away before anything is edited.
fn of_the_sheet(lent: &Lent, refusal: Refusal) -> (String, i128) {
    let Lent { buffer, length } = lent;
    let name = match refusal.number {
        1 if *length > buffer.len() => "1 past the buffer",
        1 if *length < SHORTEST_HEADER => "1 under twelve bytes",
        1 => "1 under its header",
        2 => "2 on the sheet",
        number => {
            let version = i128::from(buffer[0] >> 4);
            return (format!("{number} on the sheet"), version);
        }
    };
    (name.to_string(), ANY)
}
