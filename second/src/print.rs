//! The lines that are printed: of a sheet that is checked, of an edit, of a text.

use crate::check::{check, Outcome, Verdict};
use crate::fields::Line;
use crate::form::{RECORD_BYTES, VERDICT_BYTES};
use crate::refusal::Refusal;

/// Checks a sheet with room for a verdict for each sixteen bytes of it, so refusal 5
/// cannot arise.
pub fn verdicts(sheet: &[u8]) -> Result<(Vec<Verdict>, Outcome), Refusal> {
    let mut output = vec![0; sheet.len() / RECORD_BYTES * VERDICT_BYTES];
    let outcome = check(sheet, &mut output)?;
    let written = output.chunks(VERDICT_BYTES).take(outcome.n);
    Ok((written.map(Verdict::unpack).collect(), outcome))
}

fn line(verdict: &Verdict) -> String {
    let Verdict {
        id,
        rule,
        required,
        source,
    } = verdict;
    format!("{id} {rule} {required} {source}\n")
}

/// `id rule required source` for each record and then `n failures`, or `refused number place`.
pub fn answer(sheet: &[u8]) -> String {
    match verdicts(sheet) {
        Err(refusal) => format!("{refusal}\n"),
        Ok((verdicts, Outcome { n, failures })) => {
            let mut text = String::new();
            for verdict in verdicts {
                text += &line(&verdict);
            }
            text + &format!("{n} {failures}\n")
        }
    }
}

/// What an edit, a text read or a sheet written gives: a length or a refusal.
pub fn length(outcome: Result<usize, Refusal>) -> String {
    match outcome {
        Ok(length) => format!("{length}\n"),
        Err(refusal) => format!("{refusal}\n"),
    }
}

/// The fields of a text in a line: each in hexadecimal, a comma between two of them and
/// a semicolon between two lines; `quotes` where a quote is at fault.
pub fn fields(lines: &[Line]) -> String {
    let hexadecimal = |field: &String| {
        let digits = field.chars().map(|byte| format!("{:02x}", u32::from(byte)));
        digits.collect::<String>()
    };
    let joined = |fields: &Vec<String>| {
        let fields: Vec<String> = fields.iter().map(hexadecimal).collect();
        fields.join(",")
    };
    let lines: Option<Vec<String>> = lines
        .iter()
        .map(|line| line.as_ref().ok().map(joined))
        .collect();
    lines.map_or("quotes".to_string(), |lines| lines.join(";")) + "\n"
}
