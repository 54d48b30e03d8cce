//! What a sheet says once its fields are known to be allowed: the header, and
//! records that carry plate data or member data, never both.

use crate::form::{record_layout, Form, MEMBER, PLATE, RECORD_NUMBERS};
use crate::limits::{first_fault, in_header, in_record};
use crate::refusal::Refusal;
use crate::version::{Version, SHORTEST_HEADER, VERSION_1, VERSION_2};

#[derive(Clone, Copy, Debug, PartialEq, Eq)]
pub struct Header {
    pub L: i128,
    pub D0: i128,
    pub H: i128,
    pub two_runs: bool,
    pub M: i128,
    pub ZB: i128,
    pub n: i128,
    pub own: Own,
}

/// What a header has beyond the fields that all versions share: the fields of its
/// own version, and no others.
#[derive(Clone, Copy, Debug, PartialEq, Eq)]
pub enum Own {
    Version1,
    Version2 { ZDB: i128, depth: i128 },
}

#[derive(Clone, Copy, Debug, PartialEq, Eq)]
pub struct Plate {
    pub kind: i128,
    pub id: i128,
    pub K: i128,
    pub z: i128,
    pub S: i128,
    pub T: i128,
    pub b1: i128,
    pub b2: i128,
    pub ballast: bool,
    pub zL: i128,
    pub cargo: i128,
}

#[derive(Clone, Copy, Debug, PartialEq, Eq)]
pub struct Member {
    pub kind: i128,
    pub id: i128,
    pub z: i128,
    pub S: i128,
    pub l: i128,
    pub T: i128,
    pub beta_b: i128,
    pub beta_s: i128,
    pub eta: i128,
    pub sigma1: i128,
    pub W: i128,
    pub A: i128,
    pub K: i128,
}

#[derive(Clone, Copy, Debug, PartialEq, Eq)]
pub enum Record {
    Plate(Plate),
    Member(Member),
}

impl Header {
    pub fn of(form: &Form) -> Header {
        Header {
            L: form.get("L"),
            D0: form.get("D0"),
            H: form.get("H"),
            two_runs: form.get("runs") == 1,
            M: form.get("M"),
            ZB: form.get("ZB"),
            n: form.get("n"),
            own: Own::of(form),
        }
    }

    pub fn version(&self) -> &'static Version {
        match self.own {
            Own::Version1 => &VERSION_1,
            Own::Version2 { .. } => &VERSION_2,
        }
    }

    /// The modulus at the inner bottom: that at the bottom, in a version without it.
    pub fn ZDB(&self) -> i128 {
        match self.own {
            Own::Version1 => self.ZB,
            Own::Version2 { ZDB, .. } => ZDB,
        }
    }

    /// None in a version without it.
    pub fn depth(&self) -> Option<i128> {
        match self.own {
            Own::Version1 => None,
            Own::Version2 { depth, .. } => Some(depth),
        }
    }

    /// The form it was taken from.
    pub fn form(&self) -> Form {
        let version = self.version();
        let fields = [
            ("version", version.number),
            ("L", self.L),
            ("D0", self.D0),
            ("H", self.H),
            ("runs", i128::from(self.two_runs)),
            ("M", self.M),
            ("ZB", self.ZB),
            ("n", self.n),
        ];
        let mut form = Form::filled(version.layout, &fields);
        match self.own {
            Own::Version1 => {}
            Own::Version2 { ZDB, depth } => form.fill(&[("ZDB", ZDB), ("depth", depth)]),
        }
        form
    }
}

impl Own {
    fn of(form: &Form) -> Own {
        match *Version::of(form) {
            VERSION_1 => Own::Version1,
            VERSION_2 => Own::Version2 {
                ZDB: form.get("ZDB"),
                depth: form.get("depth"),
            },
            Version { number, .. } => panic!("no header of version {number}"),
        }
    }
}

impl Record {
    /// Takes a form of one of the eight kinds.
    pub fn of(form: &Form) -> Record {
        if form.get("kind") <= 4 {
            Record::Plate(Plate {
                kind: form.get("kind"),
                id: form.get("id"),
                K: form.get("K"),
                z: form.get("z"),
                S: form.get("S"),
                T: form.get("T"),
                b1: form.get("b1"),
                b2: form.get("b2"),
                ballast: form.get("ballast") == 1,
                zL: form.get("zL"),
                cargo: form.get("cargo"),
            })
        } else {
            Record::Member(Member {
                kind: form.get("kind"),
                id: form.get("id"),
                z: form.get("z"),
                S: form.get("S"),
                l: form.get("l"),
                T: form.get("T"),
                beta_b: form.get("beta_b"),
                beta_s: form.get("beta_s"),
                eta: form.get("eta"),
                sigma1: form.get("sigma1"),
                W: form.get("W"),
                A: form.get("A"),
                K: form.get("K"),
            })
        }
    }

    pub fn id(&self) -> i128 {
        match self {
            Record::Plate(plate) => plate.id,
            Record::Member(member) => member.id,
        }
    }

    /// The form it was taken from.
    pub fn form(&self) -> Form {
        match self {
            Record::Plate(plate) => Form::filled(
                PLATE,
                &[
                    ("kind", plate.kind),
                    ("id", plate.id),
                    ("K", plate.K),
                    ("z", plate.z),
                    ("S", plate.S),
                    ("T", plate.T),
                    ("b1", plate.b1),
                    ("b2", plate.b2),
                    ("ballast", i128::from(plate.ballast)),
                    ("zL", plate.zL),
                    ("cargo", plate.cargo),
                ],
            ),
            Record::Member(member) => Form::filled(
                MEMBER,
                &[
                    ("kind", member.kind),
                    ("id", member.id),
                    ("z", member.z),
                    ("S", member.S),
                    ("l", member.l),
                    ("T", member.T),
                    ("beta_b", member.beta_b),
                    ("beta_s", member.beta_s),
                    ("eta", member.eta),
                    ("sigma1", member.sigma1),
                    ("W", member.W),
                    ("A", member.A),
                    ("K", member.K),
                ],
            ),
        }
    }
}

/// The version of the header at the start of `sheet`, if the whole of it is there:
/// refusals 1 and 2, and 1 again where the version has a longer header.
fn version_of(sheet: &[u8]) -> Result<&'static Version, Refusal> {
    let too_short = Err(Refusal::new(1, 0));
    if sheet.len() < SHORTEST_HEADER {
        return too_short;
    }
    let Some(version) = Version::numbered(i128::from(sheet[0] >> 4)) else {
        return Err(Refusal::new(2, 0));
    };
    if sheet.len() < version.bytes {
        return too_short;
    }
    Ok(version)
}

/// Reads the header at the start of `sheet`: refusals 1, 2 and 3.
pub fn read_header(sheet: &[u8]) -> Result<Header, Refusal> {
    let form = Form::unpack(version_of(sheet)?.layout, sheet);
    match first_fault(&form, |name| in_header(&form, name)) {
        Some(field) => Err(Refusal::new(3, field)),
        None => Ok(Header::of(&form)),
    }
}

/// A form of one of the eight kinds as record number `index` (from 0): refusal 7.
fn allowed_record(form: &Form, index: usize) -> Result<Record, Refusal> {
    match first_fault(form, |name| in_record(form, name)) {
        Some(field) => Err(Refusal::new(7, 32 * index + field)),
        None => Ok(Record::of(form)),
    }
}

/// Reads record number `index` (from 0) out of its 16 bytes: refusals 6 and 7.
pub fn read_record(bytes: &[u8], index: usize) -> Result<Record, Refusal> {
    // The kind comes first because it says which layout the rest has.
    let kind = i128::from(bytes[0] >> 4);
    let Some(layout) = record_layout(kind) else {
        return Err(Refusal::new(6, index));
    };
    allowed_record(&Form::unpack(layout, bytes), index)
}

/// The record that numbers in layout order are, wider than their fields at times,
/// as record number `index` (from 0): refusals 6 and 7.
pub fn record_of_numbers(numbers: &[u32; RECORD_NUMBERS], index: usize) -> Result<Record, Refusal> {
    let mut values = numbers.map(i128::from).to_vec();
    let Some(layout) = record_layout(values[0]) else {
        return Err(Refusal::new(6, index));
    };
    // What is left over past the last field counts to it: a plate's last two
    // numbers stand for its zero bits, and their sum is 0 only if both are.
    let left_over: i128 = values.drain(layout.len()..).sum();
    values[layout.len() - 1] += left_over;
    allowed_record(&Form { layout, values }, index)
}
