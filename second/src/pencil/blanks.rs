//! Blanks in the lines of a trail, filled in and found again: `#` is a number in plain
//! decimal, `@` a scantling of the rule at hand with its unit.

/// A scantling of this rule, as the sheet has it and in the unit of the drawing.
pub fn scantling(rule: i128, number: i128) -> String {
    let (tenths, hundredths) = (number % 10, number % 100);
    match rule {
        5 => format!("{number} ({}.{tenths} cm³)", number / 10),
        6 => format!("{number} ({}.{hundredths:02} cm²)", number / 100),
        _ => format!("{number} ({}.{hundredths:02} mm)", number / 100),
    }
}

/// The line with these numbers in its blanks, in their order, and its end.
pub fn filled(line: &str, rule: i128, numbers: &[i128]) -> String {
    let mut numbers = numbers.iter();
    let mut number = || *numbers.next().expect("a number for each blank");
    let mut text = String::new();
    for letter in line.chars() {
        match letter {
            '#' => text += &number().to_string(),
            '@' => text += &scantling(rule, number()),
            _ => text.push(letter),
        }
    }
    assert!(numbers.next().is_none(), "a blank for each number: {line}");
    text + "\n"
}

/// A line and the numbers for its blanks, none of them a scantling.
pub type Line<'a> = (&'a str, &'a [i128]);

pub fn written(lines: &[Line]) -> String {
    let lines = lines.iter();
    lines
        .map(|(line, numbers)| filled(line, 0, numbers))
        .collect()
}

/// Whether a text, without its end, is the line with some numbers in its blanks.
pub fn fits(line: &str, rule: i128, text: &str) -> bool {
    let mut rest = text;
    for letter in line.chars() {
        let behind = match letter {
            '#' => number(rest).map(|(_, behind)| behind),
            '@' => number(rest).and_then(|(number, _)| {
                let text = scantling(rule, number);
                rest.strip_prefix(text.as_str())
            }),
            _ => rest.strip_prefix(letter),
        };
        let Some(behind) = behind else {
            return false;
        };
        rest = behind;
    }
    rest.is_empty()
}

/// The number that a text begins with, in plain decimal, and what stands behind it.
fn number(text: &str) -> Option<(i128, &str)> {
    let end = text.find(|letter: char| !letter.is_ascii_digit());
    let (digits, behind) = text.split_at(end.unwrap_or(text.len()));
    let number: i128 = digits.parse().ok()?;
    (number.to_string() == digits).then_some((number, behind))
}

#[cfg(test)]
mod tests {
    use super::*;

    #[test]
    fn scantlings_have_their_units() {
        for (rule, number, text) in [
            (1, 600, "600 (6.00 mm)"),
            (2, 5, "5 (0.05 mm)"),
            (3, 0, "0 (0.00 mm)"),
            (4, 4000, "4000 (40.00 mm)"),
            (5, 567, "567 (56.7 cm³)"),
            (5, 9, "9 (0.9 cm³)"),
            (5, 100_000, "100000 (10000.0 cm³)"),
            (6, 168, "168 (1.68 cm²)"),
            (6, 7, "7 (0.07 cm²)"),
            (6, 16_000, "16000 (160.00 cm²)"),
        ] {
            assert_eq!(scantling(rule, number), text);
            assert!(fits("@", rule, text));
        }
    }

    #[test]
    fn a_line_fits_what_it_was_filled_with() {
        let line = "a #, 12# of @";
        let text = filled(line, 5, &[0, 34, 567]);
        assert_eq!(text, "a 0, 1234 of 567 (56.7 cm³)\n");
        assert!(fits(line, 5, text.trim_end()));
        for other in [
            "a 0, 1234 of 567 (56.7 cm³) ",
            "a 0, 1234 of 567 (56.7 cm²)",
            "a 0, 1234 of 567 (56.8 cm³)",
            "a 00, 1234 of 567 (56.7 cm³)",
            "a , 1234 of 567 (56.7 cm³)",
            "a 0, 12 of 567 (56.7 cm³)",
            "a 0, 1334 of 567 (56.7 cm³)",
            "",
        ] {
            assert!(!fits(line, 5, other), "{other}");
        }
    }
}
