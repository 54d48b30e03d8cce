//! Tables that a spreadsheet program has filled up.

use second::fields::{lines, unfilled};
use second::refusal::Refusal;
use second::text::{read_table, read_text};

/// A header of one record, and its plate.
const HEAD: &str = "1,8000,250,60,0,20000,200000,1";
const PLATE: &str = "2,7,1000,0,500,600,0,0,0,0,0";

fn table(text: &str) -> Result<Vec<u8>, Refusal> {
    let mut output = vec![0; 100];
    let length = read_table(text.as_bytes(), &mut output)?;
    output.truncate(length);
    Ok(output)
}

fn refused(text: &str) -> (usize, usize) {
    let refusal = table(text).expect_err("a table that is turned away");
    (refusal.number, refusal.place)
}

#[test]
fn a_filled_table_is_its_sheet() {
    let mut output = vec![0; 100];
    let text = format!("{HEAD}\r\n{PLATE}\r\n");
    let length = read_text(text.as_bytes(), &mut output).expect("a sound text");
    let sheet = &output[..length];
    for end in ["\n", "\r\n"] {
        for behind in ["", end, &format!("{end},,,"), &format!("{end},,{end}{end}")] {
            let text = format!("{HEAD},,,{end}{PLATE}{behind}");
            assert_eq!(table(&text).as_deref(), Ok(sheet), "{text:?}");
            let text = format!("{HEAD},,,,{end}{PLATE},{behind}");
            assert_eq!(table(&text).as_deref(), Ok(sheet), "{text:?}");
        }
    }
}

#[test]
fn what_only_looks_like_filling() {
    let quoted = format!("{}\"0\"", &PLATE[..PLATE.len() - 1]);
    for (text, answer) in [
        (format!("{HEAD}\n{PLATE}\r,,\n"), (14, 2)),
        (format!("{HEAD},,,\n{quoted}\r,,\n"), (14, 2)),
        (format!("{HEAD},,,\n{PLATE},\r,\n"), (15, 2)),
        (format!("{HEAD},,,\n{PLATE},\"\"\n"), (15, 2)),
        (format!("{HEAD},,,\n,,\n{PLATE}\n"), (14, 2)),
        (format!("{HEAD},,,\n{PLATE}\n\"\"\n"), (14, 3)),
        (format!("{HEAD},,,\n2,7,,0,500,600,0,0,0,0,0\n"), (14, 2)),
        (",,\n,,\n".to_string(), (14, 1)),
    ] {
        assert_eq!(refused(&text), answer, "{text:?}");
    }
}

#[test]
fn the_second_look_is_answered_but_for_a_14_that_stands() {
    let short = "2,7,1000,0,500,600,0,0,0";
    for (text, answer) in [
        (format!("{HEAD}\n{short},,\n"), (14, 2)),
        (format!("{HEAD},,,\n{short},,\n"), (15, 2)),
        (format!("{HEAD}x,,,\n{PLATE}\n"), (14, 1)),
        (format!("{HEAD},,,\n{PLATE}\n{PLATE}\n"), (4, 0)),
        (format!("{HEAD}\n{PLATE}\n,,\nx\n"), (14, 3)),
    ] {
        assert_eq!(refused(&text), answer, "{text:?}");
    }
}

#[test]
fn a_line_and_a_text_keep_their_first() {
    for text in [",,", ",\n,", "\n\n", ",,\r\n"] {
        assert_eq!(unfilled(text.as_bytes()), lines(b""), "{text:?}");
    }
    assert_eq!(
        unfilled(b"1,,2,\n,\n\n3,\"\"\n,"),
        lines(b"1,,2\n\n\n3,\"\"")
    );
}

#[test]
fn without_room_nothing_is_written() {
    let text = format!("{HEAD},,,\n{PLATE}\n");
    let mut output = vec![7; 27];
    let refusal = read_table(text.as_bytes(), &mut output);
    assert_eq!(refusal, Err(Refusal::new(5, 0)));
    assert_eq!(output, [7; 27]);
}
