//! Counts of what came up in a stream, by a name and by the version of the sheet, and
//! which of them are too few.

use crate::version::{Version, VERSIONS};
use std::collections::BTreeMap;

/// In place of a version, where it is not looked at, not known, or does not matter.
pub const ANY: i128 = 0;

/// Rows of this refusal come up in versions with a depth alone.
const TOO_SLENDER: &str = "9 ";

/// Columns for the longest name and what it is indented by.
const WIDTH: usize = 34;

#[derive(Default)]
pub struct Rows {
    counts: BTreeMap<(String, i128), usize>,
}

/// A line of a table.
pub fn line(name: &str, counts: &[usize]) -> String {
    let columns = counts.iter().map(|count| format!("{count:>8}"));
    format!("{name:<WIDTH$}{}", columns.collect::<String>())
}

/// The complaint of a row that came up less often than it should.
pub fn too_few(name: &str, count: usize) -> String {
    format!("{name}: only {count}")
}

/// Whether a complaint is one of those, and not of a row that must not come up.
pub fn says_too_few(complaint: &str) -> bool {
    let count = complaint.rsplit_once(": only ");
    count.is_some_and(|(_, count)| count.parse::<usize>().is_ok())
}

impl Rows {
    pub fn add(&mut self, name: &str, version: i128) {
        let row = (name.to_string(), version);
        *self.counts.entry(row).or_default() += 1;
    }

    pub fn of(&self, name: &str, version: i128) -> usize {
        let row = (name.to_string(), version);
        self.counts.get(&row).copied().unwrap_or(0)
    }

    /// A line for each of the rows, whatever the version.
    pub fn lines(&self, names: &[&str]) -> Vec<String> {
        let counts = names.iter().map(|name| (name, [self.of(name, ANY)]));
        counts
            .map(|(name, count)| line(&format!("  {name}"), &count))
            .collect()
    }

    /// The versions in a line, then a line for each of the rows.
    pub fn lines_by_version(&self, names: &[&str]) -> Vec<String> {
        let versions: Vec<i128> = VERSIONS.iter().map(|version| version.number).collect();
        let numbers: Vec<usize> = versions.iter().map(|version| *version as usize).collect();
        let mut lines = vec![line("  in version", &numbers)];
        for name in names {
            let counts = versions.iter().map(|version| self.of(name, *version));
            let counts: Vec<usize> = counts.collect();
            lines.push(line(&format!("  {name}"), &counts));
        }
        lines
    }

    /// The rows that come up less often than this.
    pub fn complaints(&self, names: &[&str], least: usize) -> Vec<String> {
        let counts = names.iter().map(|name| (name, self.of(name, ANY)));
        let scarce = counts.filter(|(_, count)| *count < least);
        scarce.map(|(name, count)| too_few(name, count)).collect()
    }

    /// The rows that do so in a version, and those that come up where they must not.
    pub fn complaints_by_version(&self, names: &[&str], least: usize) -> Vec<String> {
        let mut complaints = Vec::new();
        for version in VERSIONS {
            let rows = names.iter();
            complaints.extend(rows.filter_map(|name| self.complaint(name, version, least)));
        }
        complaints
    }

    fn complaint(&self, name: &str, version: &Version, least: usize) -> Option<String> {
        let count = self.of(name, version.number);
        let row = format!("{name} in version {}", version.number);
        if name.starts_with(TOO_SLENDER) && !version.has_depth() {
            (count > 0).then(|| format!("{row}: {count} and not none"))
        } else {
            (count < least).then(|| too_few(&row, count))
        }
    }
}
