//! A whole sheet: turned away for the first reason of the table, or judged
//! record by record.

use crate::form::{Form, RECORD_BYTES, VERDICT, VERDICT_BYTES};
use crate::loads::pressure;
use crate::refusal::Refusal;
use crate::rules::demands;
use crate::sheet::{read_header, read_record, Header, Record};
use crate::slender::is_too_slender;

/// What a check that isn't refused gives.
#[derive(Clone, Copy, Debug, PartialEq, Eq)]
pub struct Outcome {
    pub n: usize,
    pub failures: usize,
}

/// Rule 0 is a pass; required is 0 on a pass and where nothing in the gauge will do.
/// The source is what the record's pressure comes from, whichever rule is named.
#[derive(Clone, Copy, Debug, PartialEq, Eq)]
pub struct Verdict {
    pub id: i128,
    pub rule: i128,
    pub required: i128,
    pub source: i128,
}

impl Verdict {
    pub fn pack(&self) -> Vec<u8> {
        let fields = [
            ("id", self.id),
            ("rule", self.rule),
            ("required", self.required),
            ("source", self.source),
        ];
        Form::filled(VERDICT, &fields).pack()
    }

    pub fn unpack(bytes: &[u8]) -> Verdict {
        let form = Form::unpack(VERDICT, bytes);
        Verdict {
            id: form.get("id"),
            rule: form.get("rule"),
            required: form.get("required"),
            source: form.get("source"),
        }
    }
}

/// Names the first rule, in their order, that the record fails.
pub fn judge(header: &Header, record: &Record) -> Verdict {
    let mut verdict = Verdict {
        id: record.id(),
        rule: 0,
        required: 0,
        source: pressure(header, record).source,
    };
    let demands = demands(header, record);
    if let Some(failed) = demands.iter().find(|demand| !demand.is_met()) {
        verdict.rule = failed.rule;
        verdict.required = failed.least().unwrap_or(0);
    }
    verdict
}

/// Reads the whole sheet or refuses it; the steps stand in the order of the table.
pub fn read_all(sheet: &[u8], output_bytes: usize) -> Result<(Header, Vec<Record>), Refusal> {
    let header = read_header(sheet)?;
    if is_too_slender(&header) {
        return Err(Refusal::new(9, 0));
    }
    let version = header.version();
    if sheet.len() != version.sheet_bytes(header.n) {
        return Err(Refusal::new(4, 0));
    }
    if output_bytes < VERDICT_BYTES * header.n as usize {
        return Err(Refusal::new(5, 0));
    }
    let records = read_records(&sheet[version.bytes..])?;
    Ok((header, records))
}

/// Reads the records that are there whole: refusals 6, 7 and 8.
pub fn read_records(bytes: &[u8]) -> Result<Vec<Record>, Refusal> {
    let mut records: Vec<Record> = Vec::new();
    for (index, bytes) in bytes.chunks_exact(RECORD_BYTES).enumerate() {
        let record = read_record(bytes, index)?;
        if let Some(before) = records.last() {
            if record.id() <= before.id() {
                return Err(Refusal::new(8, index));
            }
        }
        records.push(record);
    }
    Ok(records)
}

/// Checks a sheet and writes one verdict per record into `output`. All records
/// are read before the first verdict is written, so a refused sheet leaves the
/// output as it was.
pub fn check(sheet: &[u8], output: &mut [u8]) -> Result<Outcome, Refusal> {
    let (header, records) = read_all(sheet, output.len())?;
    let mut failures = 0;
    for (record, place) in records.iter().zip(output.chunks_mut(VERDICT_BYTES)) {
        let verdict = judge(&header, record);
        place.copy_from_slice(&verdict.pack());
        if verdict.rule != 0 {
            failures += 1;
        }
    }
    Ok(Outcome {
        n: records.len(),
        failures,
    })
}
