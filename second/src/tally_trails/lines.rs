//! Every line that a trail can have, in the order of a trail.

use crate::pencil::words::{head, loads as l, members as m, plates as p, steps};
use std::fmt;

/// A part of a trail.
#[derive(Clone, Copy, Debug, PartialEq, Eq)]
pub enum Part {
    Letters,
    Heading,
    Loads,
    Rule(i128),
    Verdict,
}

impl Part {
    /// The part that a text begins; none if it goes on with the one before.
    pub fn begun_by(text: &str) -> Option<Part> {
        let rules = (1..=6).map(Part::Rule);
        let mut parts = [Part::Letters, Part::Heading, Part::Loads, Part::Verdict]
            .into_iter()
            .chain(rules);
        parts.find(|part| text.starts_with(&part.first_words()))
    }

    fn first_words(self) -> String {
        match self {
            Part::Letters => "letters here".to_string(),
            Part::Heading => "member ".to_string(),
            Part::Loads => "loads on it".to_string(),
            part => format!("{part}: "),
        }
    }
}

impl fmt::Display for Part {
    fn fmt(&self, f: &mut fmt::Formatter) -> fmt::Result {
        match self {
            Part::Letters => write!(f, "letters"),
            Part::Heading => write!(f, "heading"),
            Part::Loads => write!(f, "loads"),
            Part::Rule(rule) => write!(f, "rule {rule}"),
            Part::Verdict => write!(f, "verdict"),
        }
    }
}

#[derive(Clone, Debug, PartialEq, Eq)]
pub struct Line {
    pub part: Part,
    /// The rule whose scantlings stand in its blanks, if there are any.
    pub rule: i128,
    pub words: String,
}

impl Line {
    fn of(part: Part, words: &str) -> Line {
        let rule = match part {
            Part::Rule(rule) => rule,
            _ => 0,
        };
        let words = words.to_string();
        Line { part, rule, words }
    }

    fn of_verdict(words: &str, rule: i128) -> Line {
        let words = words.replacen('#', &rule.to_string(), 1);
        let part = Part::Verdict;
        Line { part, rule, words }
    }
}

/// Every line that must come up.
pub fn all() -> Vec<Line> {
    let in_part = |part, words: Vec<&str>| {
        let lines = words.into_iter();
        lines.map(|words| Line::of(part, words)).collect::<Vec<_>>()
    };
    let mut lines = in_part(Part::Letters, head::LETTERS.lines().collect());
    lines.extend(in_part(Part::Heading, head::HEADINGS.to_vec()));
    lines.extend(in_part(Part::Loads, loads()));
    for rule in 1..=6 {
        lines.extend(in_part(Part::Rule(rule), working(rule)));
        lines.extend(in_part(Part::Rule(rule), last_step(rule)));
        lines.extend(in_part(Part::Rule(rule), result(rule)));
    }
    lines.extend(verdicts());
    lines
}

fn loads() -> Vec<&'static str> {
    [
        &[l::LOADS][..],
        &l::SEA,
        &l::SEA_ABOVE,
        &[l::LITTLE_WIND, l::WIND],
        &l::BALLAST_ON_BOTTOM,
        &[l::RELIEF, l::NO_RELIEF, l::LESS_RELIEF, l::ALL_RELIEVED],
        &l::CARGO,
        &l::BALLAST,
        &[l::WHOLE_DRAUGHT],
        &l::ONE_RUN,
        &l::TWO_RUNS,
        &[l::DECIDES],
    ]
    .concat()
}

fn working(rule: i128) -> Vec<&'static str> {
    match rule {
        1 => {
            let lines = [&p::T1.concat()[..], &[p::LENGTH_STEEL_SPACING]].concat();
            [&once(lines)[..], &[steps::X_ROOT, steps::T_ROUNDED]].concat()
        }
        2 => [
            &p::T2.concat()[..],
            &[p::SPACING_STEEL_PRESSURE, steps::T_ROOT],
        ]
        .concat(),
        3 => stress(),
        4 => {
            let lines = m::WEB.concat();
            [&lines[..], &[steps::X_ROOT, steps::T_ROUNDED]].concat()
        }
        5 => {
            let load = [m::PRESSURE_SPACING, m::LINE_LOAD];
            let right = [&[m::W_ROUNDED][..], &m::NO_STRESS_LEFT].concat();
            [&load[..], &m::MODULUS.concat(), &right].concat()
        }
        _ => [&m::SHEAR.concat()[..], &[m::A_ROUNDED]].concat(),
    }
}

/// Without those that stand there a second time: two kinds of rule 1 have one right side.
fn once(lines: Vec<&'static str>) -> Vec<&'static str> {
    let mut found = Vec::new();
    for line in lines {
        if !found.contains(&line) {
            found.push(line);
        }
    }
    found
}

fn stress() -> Vec<&'static str> {
    [
        &p::T3_BOTTOM.concat()[..],
        &p::T3_INNER,
        &[p::INNER, p::NO_ZDB],
        &p::R.concat(),
        &[p::PANEL, p::K2, p::K2_CAPPED],
        &p::FORK.concat(),
        &p::FIRST_FORM.concat(),
        &[p::R_PAST_THE_GAUGE],
        &p::SECOND_FORM.concat(),
        &[p::R_TOO_HIGH, steps::T_ROOT],
    ]
    .concat()
}

/// Rules 1 and 4 always have a number in the gauge and never its first. Rules 5 and 6 are
/// worked out without a root, to the number itself.
fn last_step(rule: i128) -> Vec<&'static str> {
    let tested = |place| [steps::MEETS[place], steps::SHORT[place]].concat();
    let ends = |scantling| vec![steps::BEGINS[scantling], steps::PAST[scantling]];
    match rule {
        1 | 4 => tested(0),
        2 | 3 => [tested(1), vec![steps::NO_MORE], ends(0)].concat(),
        5 => ends(1),
        _ => ends(2),
    }
}

fn result(rule: i128) -> Vec<&'static str> {
    let number = [steps::RESULT_MET, steps::RESULT_SHORT];
    match rule {
        1 | 4 => number.to_vec(),
        _ => [&number[..], &[steps::RESULT_NONE]].concat(),
    }
}

fn verdicts() -> Vec<Line> {
    let mut lines = vec![Line::of(Part::Verdict, steps::VERDICT_PASSES)];
    lines.extend((1..=6).map(|rule| Line::of_verdict(steps::VERDICT_REQUIRED, rule)));
    let without = [2, 3, 5, 6].into_iter();
    lines.extend(without.map(|rule| Line::of_verdict(steps::VERDICT_NOTHING, rule)));
    lines
}
