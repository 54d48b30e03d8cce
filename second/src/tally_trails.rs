//! A count of what came up in trails: each line that a trail can have, by its fixed words
//! and by the part of the trail that it stands in.

mod lines;

use crate::pencil::blanks::fits;
use crate::rows::too_few;
pub use lines::{all, Line, Part};

/// Each line comes up at least so often.
pub const ENOUGH: usize = 10;

pub struct TrailTally {
    /// Every line that must come up, and how often it did.
    pub counts: Vec<(Line, usize)>,
    /// Texts that are no line of the part that they stand in.
    pub strangers: Vec<String>,
}

impl TrailTally {
    pub fn of(trails: &str) -> TrailTally {
        let mut tally = TrailTally {
            counts: all().into_iter().map(|line| (line, 0)).collect(),
            strangers: Vec::new(),
        };
        let mut part = None;
        for text in trails.lines().filter(|text| !text.is_empty()) {
            part = Part::begun_by(text).or(part);
            tally.count(part, text);
        }
        tally
    }

    fn count(&mut self, part: Option<Part>, text: &str) {
        let mut lines = self.counts.iter_mut();
        let found =
            lines.find(|(line, _)| Some(line.part) == part && fits(&line.words, line.rule, text));
        match found {
            Some((_, count)) => *count += 1,
            None => self.strangers.push(text.to_string()),
        }
    }

    pub fn table(&self) -> String {
        let mut table = Vec::new();
        let mut part = None;
        for (line, count) in &self.counts {
            if part != Some(line.part) {
                part = Some(line.part);
                table.push(line.part.to_string());
            }
            table.push(format!("{count:>8}  {}", line.words));
        }
        table.join("\n") + "\n"
    }

    /// The lines that do not come up often enough, and what is no line of a trail.
    pub fn complaints(&self) -> Vec<String> {
        let scarce = self.counts.iter().filter(|(_, count)| *count < ENOUGH);
        let mut complaints: Vec<String> = scarce
            .map(|(line, count)| too_few(&format!("{}, {}", line.part, line.words.trim()), *count))
            .collect();
        if let Some(first) = self.strangers.first() {
            let count = self.strangers.len();
            complaints.push(format!("no line of a trail: {count}, first {first:?}"));
        }
        complaints
    }
}
