//! A text cut into lines and fields.

use second::fields::QuoteFault::{self, NotFollowed, OutOfPlace, Unclosed};
use second::fields::{lines, Line};
use second::print::fields;

/// The lines of a text whose quotes are sound.
fn cut(text: &str) -> Vec<Vec<String>> {
    let lines: Result<Vec<Vec<String>>, QuoteFault> = lines(text.as_bytes()).into_iter().collect();
    lines.expect("sound quotes")
}

#[test]
fn commas_and_line_ends_cut() {
    assert_eq!(cut("1,22\r\n3"), [vec!["1", "22"], vec!["3"]]);
    assert_eq!(cut("1,22\n3\n"), [vec!["1", "22"], vec!["3"]]);
    assert_eq!(cut(",\n,,"), [vec!["", ""], vec!["", "", ""]]);
}

/// The last line end starts no new line; the empty text is a line.
#[test]
fn how_many_lines() {
    for text in ["", "\n", "\r\n"] {
        assert_eq!(cut(text), [[""]]);
    }
    for text in ["\n\n", "\r\n\n", "\n\r\n"] {
        assert_eq!(cut(text), [[""], [""]]);
    }
}

#[test]
fn a_cr_alone_is_a_byte_of_its_field() {
    assert_eq!(cut("\r"), [["\r"]]);
    assert_eq!(cut("1\r2,3\r"), [["1\r2", "3\r"]]);
    assert_eq!(cut("1\r\r\n2\r"), [["1\r"], ["2\r"]]);
    assert_eq!(cut("\n\r\n\r"), [[""], [""], ["\r"]]);
}

#[test]
fn quotes_around_a_field() {
    assert_eq!(cut("\"1\",\"\"\r\n\"2\""), [vec!["1", ""], vec!["2"]]);
    assert_eq!(cut("\"1,2\",3"), [["1,2", "3"]]);
    assert_eq!(cut("\"1\n2\r\n3\r\"\n4"), [["1\n2\r\n3\r"], ["4"]]);
    assert_eq!(cut("\"\"\"\""), [["\""]]);
    assert_eq!(cut("\"1\"\"2\",\"\"\"\"\"\"\n"), [["1\"2", "\"\""]]);
}

#[test]
fn faulty_quotes() {
    for (text, fault) in [
        ("1\"", OutOfPlace),
        (" \"1\"", OutOfPlace),
        ("1\"2\"", OutOfPlace),
        ("\r\"1\"", OutOfPlace),
        ("\"", Unclosed),
        ("\"\"\"", Unclosed),
        ("\"1,2\n", Unclosed),
        ("\"1\"2", NotFollowed),
        ("\"1\" ", NotFollowed),
        ("\"1\"\r", NotFollowed),
        ("\"1\"\r2\n", NotFollowed),
        ("\"\"1\"\"", NotFollowed),
        ("\"\"\"1\"2\"", NotFollowed),
    ] {
        assert_eq!(lines(text.as_bytes()), [Err(fault)], "{text}");
        let second = [b"7\n", text.as_bytes()].concat();
        assert_eq!(lines(&second)[1], Err(fault), "{text}");
    }
    // Each line has its own.
    assert_eq!(lines(b"1\"\n2\"\n")[0], Err(OutOfPlace));
    assert_eq!(
        lines(b"1\n\"2\"3\n\"4\"\n")[..2],
        [Ok(vec!["1".to_string()]), Err(NotFollowed)]
    );
}

/// Whether a comma, a line end or the text's end comes next.
fn ends_field(rest: &[u8]) -> bool {
    matches!(rest, [] | [b',' | b'\n', ..] | [b'\r', b'\n', ..])
}

/// The field at the front of a text, read byte by byte, and what is left behind it.
fn first_field(mut rest: &[u8]) -> Result<(String, &[u8]), QuoteFault> {
    let quoted = rest.first() == Some(&b'"');
    rest = &rest[usize::from(quoted)..];
    let mut field = String::new();
    loop {
        match (quoted, rest) {
            (true, []) => return Err(Unclosed),
            (true, [b'"', b'"', ..]) => rest = &rest[1..],
            (true, [b'"', behind @ ..]) if ends_field(behind) => return Ok((field, behind)),
            (true, [b'"', ..]) => return Err(NotFollowed),
            (false, [b'"', ..]) => return Err(OutOfPlace),
            (false, _) if ends_field(rest) => return Ok((field, rest)),
            _ => {}
        }
        field.push(char::from(rest[0]));
        rest = &rest[1..];
    }
}

/// What a reader says that goes byte by byte and ends at the first fault.
fn byte_by_byte(mut rest: &[u8]) -> Vec<Line> {
    let (mut lines, mut line) = (Vec::new(), Vec::new());
    loop {
        match first_field(rest) {
            Ok((field, behind)) => {
                line.push(field);
                rest = behind;
            }
            Err(fault) => {
                lines.push(Err(fault));
                return lines;
            }
        }
        if let [b',', behind @ ..] = rest {
            rest = behind;
            continue;
        }
        lines.push(Ok(std::mem::take(&mut line)));
        match rest {
            [] | [b'\n'] | [b'\r', b'\n'] => return lines,
            [b'\r', ..] => rest = &rest[2..],
            _ => rest = &rest[1..],
        }
    }
}

/// Of every text of up to eight of the bytes that matter, as far as its first fault.
#[test]
fn short_texts_byte_by_byte() {
    const BYTES: [u8; 5] = *b"\",\r\n7";
    let mut texts = vec![Vec::new()];
    for _ in 0..=8 {
        for text in &texts {
            let expected = byte_by_byte(text);
            let mut found = lines(text);
            if expected.last().is_some_and(Result::is_err) {
                found.truncate(expected.len());
            }
            assert_eq!(found, expected, "{text:?}");
        }
        let longer = texts
            .iter()
            .flat_map(|text| BYTES.map(|byte| [&text[..], &[byte]].concat()));
        texts = longer.collect();
    }
}

/// As the comparison with another reader takes them.
#[test]
fn fields_are_printed_in_a_line() {
    let printed = |text: &[u8]| fields(&lines(text));
    assert_eq!(printed(b"12,\"\"\"\"\n,\xff\r\n"), "3132,22;,ff\n");
    assert_eq!(printed(b""), "\n");
    assert_eq!(printed(b"1\n2\"\n"), "quotes\n");
}
