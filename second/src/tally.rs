//! A count of what came up in a stream, so that a comparison can be shown to
//! have visited every rule, every source, every version and every refusal, not only
//! many sheets.

mod moduli;

use crate::check::{read_all, Verdict};
use crate::header_case::HeaderCase::{self, Hull};
use crate::header_case::{all, found};
use crate::loads::{plate_loads, CARGO, SEA};
use crate::print::verdicts;
use crate::refusal::Refusal;
use crate::rows::too_few;
use crate::sheet::{Header, Plate, Record};
use crate::stream::{pieces, Piece};
use crate::version::{Version, VERSIONS};
use moduli::Moduli;
use std::collections::BTreeMap;

/// A row that must come up "hundreds of times" comes up at least so often.
pub const HUNDREDS: usize = 200;

/// A row that must do so in each version has its share there.
const SHARE: usize = HUNDREDS / VERSIONS.len();

/// Each case of a header, or of a plate at an edge, comes up at least so often.
pub const EACH: usize = 5;

/// The refusals that sheets of each version must meet with, in the order of the table.
/// 1 and 2 come up by their cases: of a short or unknown header there is no version.
const BY_VERSION: [usize; 6] = [3, TOO_SLENDER, 4, 6, 7, 8];

/// This one only in versions with a depth, and in others never.
const TOO_SLENDER: usize = 9;

#[derive(Default)]
pub struct Tally {
    pub sheets: usize,
    pub judged: usize,
    pub records: usize,
    pub passes: usize,
    /// By rule (row 0 unused): failures with a required number, and without.
    pub with_number: [usize; 7],
    pub without: [usize; 7],
    /// By source: on passes, and on failures.
    pub on_passes: [usize; 4],
    pub on_failures: [usize; 4],
    /// By the source of the load that ballast is as great as.
    pub ties: [usize; 4],
    /// By refusal number (row 0 unused).
    pub refusals: [usize; 10],
    /// By version and refusal number; those with number 0 are judged.
    pub by_version: BTreeMap<(i128, usize), usize>,
    pub moduli: Moduli,
    pub headers: BTreeMap<HeaderCase, usize>,
    pub broken: bool,
}

impl Tally {
    pub fn of(stream: &[u8]) -> Tally {
        let mut tally = Tally::default();
        for piece in pieces(stream) {
            match piece {
                Piece::Sheet(sheet) => tally.count(sheet),
                Piece::Broken => tally.broken = true,
            }
        }
        tally
    }

    fn count(&mut self, sheet: &[u8]) {
        self.sheets += 1;
        let answer = verdicts(sheet);
        self.header(sheet, answer.as_ref().err().copied());
        match answer {
            Err(refusal) => self.refusals[refusal.number] += 1,
            Ok((verdicts, outcome)) => {
                self.judged += 1;
                self.records += outcome.n;
                verdicts.iter().for_each(|verdict| self.judgement(verdict));
                self.plates(sheet);
            }
        }
    }

    fn header(&mut self, sheet: &[u8], refusal: Option<Refusal>) {
        for case in found(sheet, refusal) {
            *self.headers.entry(case).or_default() += 1;
        }
        if let Some(first) = sheet.first() {
            let number = refusal.map_or(0, |refusal| refusal.number);
            let row = (i128::from(first >> 4), number);
            *self.by_version.entry(row).or_default() += 1;
        }
    }

    fn judgement(&mut self, verdict: &Verdict) {
        let rule = verdict.rule as usize;
        match (rule, verdict.required) {
            (0, _) => self.passes += 1,
            (_, 0) => self.without[rule] += 1,
            _ => self.with_number[rule] += 1,
        }
        let sources = match rule {
            0 => &mut self.on_passes,
            _ => &mut self.on_failures,
        };
        sources[verdict.source as usize] += 1;
    }

    fn plates(&mut self, sheet: &[u8]) {
        let (header, records) = read_all(sheet, usize::MAX).expect("a sheet that was judged");
        for record in &records {
            if let Record::Plate(plate) = record {
                self.even_loads(&header, plate);
                self.moduli.count(&header, plate);
            }
        }
    }

    fn even_loads(&mut self, header: &Header, plate: &Plate) {
        if let [other, ballast] = plate_loads(header, plate)[..] {
            if other.P == ballast.P {
                self.ties[other.source as usize] += 1;
            }
        }
    }

    fn of_version(&self, version: i128, number: usize) -> usize {
        self.by_version
            .get(&(version, number))
            .copied()
            .unwrap_or(0)
    }

    fn of_case(&self, case: &HeaderCase) -> usize {
        self.headers.get(case).copied().unwrap_or(0)
    }

    pub fn table(&self) -> String {
        let mut lines = self.record_lines();
        lines.extend(self.load_lines());
        lines.extend(self.refusal_lines());
        lines.extend(VERSIONS.iter().map(|version| self.version_line(version)));
        lines.extend(self.moduli.lines());
        lines.push(self.case_line());
        lines.join("\n") + "\n"
    }

    fn record_lines(&self) -> Vec<String> {
        let mut lines = vec![
            format!("sheets           {:>8}", self.sheets),
            format!("  judged         {:>8}", self.judged),
            format!("records judged   {:>8}", self.records),
            format!("  pass           {:>8}", self.passes),
            "                   number   none".to_string(),
        ];
        for rule in 1..=6 {
            let (with, without) = (self.with_number[rule], self.without[rule]);
            lines.push(format!("  rule {rule}         {with:>8} {without:>6}"));
        }
        lines
    }

    fn load_lines(&self) -> [String; 2] {
        let sources = [0, 1, 2, 3].map(|source| {
            let (passes, failures) = (self.on_passes[source], self.on_failures[source]);
            format!("{source}: {} ({passes})", passes + failures)
        });
        let (sea, cargo) = (self.ties[SEA as usize], self.ties[CARGO as usize]);
        [
            format!("sources (on passes) {}", sources.join(", ")),
            format!("ballast as great as the sea {sea}, as the cargo {cargo}"),
        ]
    }

    fn refusal_lines(&self) -> impl Iterator<Item = String> + '_ {
        (1..=9).map(|number| format!("refusal {number}        {:>8}", self.refusals[number]))
    }

    fn version_line(&self, version: &Version) -> String {
        let of = |number| self.of_version(version.number, number);
        let refused = BY_VERSION.map(|number| format!("{number}: {}", of(number)));
        format!(
            "version {}: judged {}, refused by {}",
            version.number,
            of(0),
            refused.join(", ")
        )
    }

    fn case_line(&self) -> String {
        let cases = all();
        let hulls = cases.iter().filter(|case| matches!(case, Hull { .. }));
        let least = cases.iter().map(|case| self.of_case(case)).min();
        format!(
            "cases of a header {}, {} of them of length over depth, each at least {} times",
            cases.len(),
            hulls.count(),
            least.unwrap_or(0)
        )
    }

    /// The rows that must come up hundreds of times. Rules 1 and 4 always have a number
    /// in the gauge, ballast is never just as great as the sea above the draught, and
    /// refusal 5 needs a short output, which the commands never lend.
    fn rows(&self) -> Vec<(String, usize)> {
        let mut rows = vec![("pass".to_string(), self.passes)];
        for rule in 1..=6 {
            rows.push((format!("rule {rule} with a number"), self.with_number[rule]));
        }
        for rule in [2, 3, 5, 6] {
            rows.push((format!("rule {rule} without a number"), self.without[rule]));
        }
        for source in 0..4 {
            rows.push((format!("source {source} on a pass"), self.on_passes[source]));
            rows.push((
                format!("source {source} on a failure"),
                self.on_failures[source],
            ));
        }
        for source in [SEA, CARGO] {
            let name = format!("ballast as great as source {source}");
            rows.push((name, self.ties[source as usize]));
        }
        for number in [1, 2, 3, 4, 6, 7, 8, TOO_SLENDER] {
            rows.push((format!("refusal {number}"), self.refusals[number]));
        }
        for kind in 1..=4 {
            let name = |does: &str| format!("kind {kind} {does} by its own modulus alone");
            rows.push((name("passes"), self.moduli.passes_by_own[kind]));
            rows.push((name("fails"), self.moduli.fails_by_own[kind]));
        }
        rows
    }

    /// The rows that must come up in each version.
    fn rows_by_version(&self) -> Vec<(String, usize)> {
        let mut rows = Vec::new();
        for version in VERSIONS {
            let judged = self.of_version(version.number, 0);
            rows.push((format!("version {} judged", version.number), judged));
            let refusals = BY_VERSION.into_iter();
            let arising = refusals.filter(|number| *number != TOO_SLENDER || version.has_depth());
            rows.extend(arising.map(|number| self.refused_row(version, number)));
        }
        rows
    }

    fn refused_row(&self, version: &Version, refusal: usize) -> (String, usize) {
        let name = format!("version {} refused by {refusal}", version.number);
        (name, self.of_version(version.number, refusal))
    }

    /// The rows that must not come up at all.
    fn rows_to_stay_empty(&self) -> Vec<(String, usize)> {
        let versions = VERSIONS.iter().filter(|version| !version.has_depth());
        let rows = versions.map(|version| self.refused_row(version, TOO_SLENDER));
        rows.collect()
    }

    /// The cases that come up one by one: a header's, and plates at the edge of rule 3
    /// by the one of two moduli that is theirs.
    fn cases(&self) -> Vec<(String, usize)> {
        let headers = all().into_iter();
        let headers = headers.map(|case| (format!("{case:?}"), self.of_case(&case)));
        let plates = (1..=4).flat_map(|kind| {
            let name = |does: &str| format!("kind {kind} just {does} by its own modulus");
            [
                (name("passes"), self.moduli.just_passes[kind]),
                (name("fails"), self.moduli.just_fails[kind]),
            ]
        });
        headers.chain(plates).collect()
    }

    /// The rows that do not come up often enough, and those that come up and must not.
    pub fn complaints(&self) -> Vec<String> {
        let under = |rows: Vec<(String, usize)>, least| {
            let scarce = rows.into_iter().filter(move |row| row.1 < least);
            scarce.map(|(name, count)| too_few(&name, count))
        };
        let to_stay_empty = self.rows_to_stay_empty().into_iter();
        let there = to_stay_empty.filter(|row| row.1 > 0);
        under(self.rows(), HUNDREDS)
            .chain(under(self.rows_by_version(), SHARE))
            .chain(under(self.cases(), EACH))
            .chain(there.map(|(name, count)| format!("{name}: {count} and not none")))
            .collect()
    }
}
