//! "Sheets in and out as comma-separated text", sentence by sentence.

mod common;

use common::{hull, member, plate, sheet, vessel_v, vessel_v2, vessels, with};
use second::form::{entered, Form};
use second::make::{sheets, text_cases};
use second::refusal::Refusal;
use second::text::{fields, read_text, write_text};
use second::text_stream::What;
use second::version::VERSIONS;

/// What the output holds before it is used.
const LENT: u8 = 0xee;

const EXAMPLE: &[u8] = include_bytes!("../../examples/two-members.sheet");
const EXAMPLE_TEXT: &str = "1,8000,250,60,0,20000,200000,2\r\n\
    2,7,1000,0,500,600,0,0,0,0,0\r\n\
    5,12,0,500,300,420,100,100,90,50,560,168,1000\r\n";

type Doing = fn(&[u8], &mut [u8]) -> Result<usize, Refusal>;

/// What is written into an output of this size, the rest of which must stay as lent; a
/// refusal must leave all of it so.
fn into(size: usize, doing: Doing, input: &[u8]) -> Result<Vec<u8>, (usize, usize)> {
    let mut output = vec![LENT; size];
    let outcome = doing(input, &mut output);
    let length = *outcome.as_ref().unwrap_or(&0);
    assert!(output[length..].iter().all(|byte| *byte == LENT));
    output.truncate(length);
    let refusal = |Refusal { number, place }| (number, place);
    outcome.map(|_| output).map_err(refusal)
}

fn read(text: &str) -> Result<Vec<u8>, (usize, usize)> {
    into(7000, read_text, text.as_bytes())
}

fn written(sheet: &[u8]) -> Result<Vec<u8>, (usize, usize)> {
    into(40_000, write_text, sheet)
}

/// The number and place that a text is turned away with.
fn refused(text: &str) -> (usize, usize) {
    read(text).expect_err("a refusal")
}

/// A form as a line without its end.
fn line(form: &Form) -> String {
    fields(form).join(",")
}

/// A vessel's line that counts so many records.
fn counting(vessel: &Form, n: i128) -> String {
    line(&with(vessel, &[("n", n)]))
}

/// Vessel V with this in place of a single record's line.
fn v_with(record: &str) -> String {
    counting(&vessel_v(), 1) + "\r\n" + record + "\r\n"
}

#[test]
fn the_documents_sheet() {
    assert_eq!(read(EXAMPLE_TEXT), Ok(EXAMPLE.to_vec()));
    assert_eq!(written(EXAMPLE), Ok(EXAMPLE_TEXT.into()));
}

#[test]
fn version_2_has_two_numbers_more() {
    let text = "2,8000,250,60,0,20000,200000,1,800000,300\r\n\
        3,1,1000,0,500,1,250,50,0,0,0\r\n";
    let expected = sheet(&vessel_v2(), &[plate(3)]);
    assert_eq!(read(text), Ok(expected.clone()));
    assert_eq!(written(&expected), Ok(text.into()));
}

#[test]
fn quotes_and_line_ends_change_nothing() {
    let quoted = |line: &str| format!("\"{}\"", line.replace(',', "\",\""));
    let lines: Vec<&str> = EXAMPLE_TEXT.lines().collect();
    let all_quoted: Vec<String> = lines.iter().map(|line| quoted(line)).collect();
    let lf = lines.join("\n");
    for text in [
        lines.join("\r\n"),
        all_quoted.join("\n"),
        all_quoted.join("\r\n"),
        lf.replace("1000,", "\"1000\","),
        lf.replacen('\n', "\r\n", 1),
        lf,
    ] {
        for end in ["", "\n", "\r\n"] {
            let text = text.clone() + end;
            assert_eq!(read(&text), Ok(EXAMPLE.to_vec()), "{text}");
        }
    }
}

/// 14 in the line in which the quote stands; for an unclosed one where its field starts.
#[test]
fn number_14_quotes() {
    for field in [
        "2\"", "\"2\"2", "\"2\" ", " \"2\"", "\"\"2", "\"2", "\"", "\"2\"\r",
    ] {
        for (lines, place) in [(0, 1), (1, 2), (2, 3)] {
            let before: String = EXAMPLE_TEXT.split_inclusive('\n').take(lines).collect();
            let end = ",1\r\n\r\n";
            assert_eq!(refused(&(before + field + end)), (14, place), "{field}");
        }
    }
}

/// A line end within quotes ends no line, so that the line behind it is the next one.
#[test]
fn lines_count_as_they_are_read() {
    assert_eq!(refused("3,\"\n\r\n\"\n2\"\n"), (14, 2));
    assert_eq!(refused("3\n9,\"\n\",\"\n\"\n\n"), (14, 3));
}

/// The layouts with what comes before a line of theirs.
fn layouts() -> Vec<(Form, String, usize)> {
    let headers = vessels().map(|vessel| (vessel, String::new(), 1));
    let before = counting(&vessel_v(), 1) + "\n";
    let records = [plate(2), member(5)].map(|record| (record, before.clone(), 2));
    headers.into_iter().chain(records).collect()
}

/// The line of a form with this in one of its fields.
fn with_field(form: &Form, index: usize, field: &str) -> String {
    let mut fields = fields(form);
    fields[index] = field.to_string();
    fields.join(",")
}

#[test]
fn number_14_fields_that_are_no_numbers() {
    let signs = [
        "", "+1", "-1", "-0", " 1", "1 ", "1.0", "1e1", "0x1", "a", "\0", "/", ":",
    ];
    let zeros = ["00", "01", "000"];
    let others = ["1\r", "\r1", "\u{feff}1", "\u{661}"];
    let quoted = [
        "\"\"",
        "\"1\n\"",
        "\"1,1\"",
        "\"1\"\"\"",
        "\" 1\"",
        "\"1\r\"",
    ];
    for wrong in [&signs[..], &zeros, &others, &quoted].concat() {
        for (form, before, place) in layouts() {
            for index in 0..entered(form.layout).count() {
                let text = before.clone() + &with_field(&form, index, wrong);
                assert_eq!(refused(&text), (14, place), "{text}");
            }
        }
    }
}

/// 2^bits is too wide; one less fits, and then it is for the table to say.
#[test]
fn number_14_too_wide() {
    for (form, before, place) in layouts() {
        for (index, (name, bits)) in entered(form.layout).enumerate() {
            let text = |value: u128| before.clone() + &with_field(&form, index, &value.to_string());
            for above in [*bits, 16.max(*bits), 32, 64, 127] {
                for low in [0, form.get(name) as u128, (1 << bits) - 1] {
                    let text = text((1 << above) + low);
                    assert_eq!(refused(&text), (14, place), "{name} {above}");
                }
            }
            let fits = read(&text((1 << bits) - 1)).err();
            assert!(fits.is_none_or(|refusal| refusal.0 < 14), "{name}");
        }
    }
    for past_128_bits in ["340282366920938463463374607431768211457", &"9".repeat(500)] {
        assert_eq!(refused(past_128_bits), (14, 1));
        let text = EXAMPLE_TEXT.replace("8000", past_128_bits);
        assert_eq!(refused(&text), (14, 1));
    }
}

/// Version 1: 8, version 2: 10, plate 11, member 13; the zero bits are not entered.
#[test]
fn number_15_count_of_fields() {
    for (form, before, place) in layouts() {
        let right = fields(&form);
        for count in (1..20).filter(|count| *count != right.len()) {
            let mut fields = right.clone();
            fields.resize(count, "0".to_string());
            let text = before.clone() + &fields.join(",") + "\n";
            assert_eq!(refused(&text), (15, place), "{text}");
        }
        let comma_behind = before.clone() + &right.join(",") + ",\r\n";
        assert_eq!(refused(&comma_behind), (15, place));
    }
    for (first, count) in [("1", 8), ("2", 10)] {
        let header = first.to_string() + &",0".repeat(count - 1);
        assert_eq!(refused(&header), (3, 2));
    }
    for (first, count) in [("1", 11), ("4", 11), ("5", 13), ("8", 13)] {
        let record = first.to_string() + &",0".repeat(count - 1);
        assert_eq!(refused(&v_with(&record)), (7, 2));
    }
}

/// Never 15, however many fields there are.
#[test]
fn number_14_first_field() {
    for first in [
        "", "x", "01", "16", "17", "18", "65537", " 1", "1 ", "\"\"", "1\r2",
    ] {
        for rest in ["", ",", ",7,1000", "\"", ",8000,250,60,0,20000,200000,0"] {
            assert_eq!(refused(&format!("{first}{rest}\n")), (14, 1));
            assert_eq!(refused(&v_with(&format!("{first}{rest}"))), (14, 2));
        }
    }
    assert_eq!(refused(&format!("\u{feff}{EXAMPLE_TEXT}")), (14, 1));
}

/// An empty line is a line with one empty field, also at the end.
#[test]
fn number_14_empty_lines() {
    for text in ["", "\n", "\r\n", "\n\n"] {
        assert_eq!(refused(text), (14, 1), "{text:?}");
    }
    assert_eq!(refused(&format!("{EXAMPLE_TEXT}\n")), (14, 4));
    assert_eq!(refused(&format!("{EXAMPLE_TEXT}\r\n")), (14, 4));
    assert_eq!(refused(&format!("\n{EXAMPLE_TEXT}")), (14, 1));
    assert_eq!(refused(&EXAMPLE_TEXT.replacen('\n', "\n\n", 1)), (14, 2));
}

/// Of a version or kind that is not known only the first field is judged.
#[test]
fn unknown_versions_and_kinds() {
    for version in ["0", "15", "\"15\""] {
        for rest in ["", ",", ",x,,\"\"\"\"", ",1,1,1,1,1,1,1,1,1,1,1,1,1,1"] {
            let header = format!("{version}{rest}\r\n");
            assert_eq!(refused(&header), (2, 0));
            // The lines behind it are judged all the same, by version 1's layouts.
            let plate = line(&plate(2));
            assert_eq!(refused(&format!("{header}{plate}")), (2, 0));
            assert_eq!(refused(&format!("{header}{plate},0")), (15, 2));
            assert_eq!(refused(&format!("{header}{plate}0000000")), (14, 2));
            assert_eq!(refused(&format!("{header}16")), (14, 2));
        }
    }
    for kind in ["0", "9", "15", "\"9\""] {
        for rest in ["", ",", ",x,,\"\"\"\"", ",1,1,1,1,1,1,1,1,1,1,1,1,1,1"] {
            assert_eq!(refused(&v_with(&format!("{kind}{rest}"))), (6, 0));
            assert_eq!(refused(&v_with(&format!("{kind}{rest}\""))), (14, 2));
        }
    }
}

/// In a line: the quotes, the first field, the count, the other numbers.
#[test]
fn order_within_a_line() {
    assert_eq!(refused("1,2,\"3\n"), (14, 1));
    assert_eq!(refused("x,2,3\n"), (14, 1));
    assert_eq!(refused("1,x,9999999999\n"), (15, 1));
    assert_eq!(refused("1,x,250,60,0,20000,200000,0\n"), (14, 1));
    assert_eq!(refused(&v_with("2,x,\"3\"4")), (14, 2));
    assert_eq!(refused(&v_with("2,x,99999")), (15, 2));
}

/// The first faulty line decides, whatever it is turned away for.
#[test]
fn order_of_lines() {
    let faulty = [
        "1\"",
        "\"1\" ",
        "x",
        "",
        "16",
        "2,7",
        "2,7,x,0,500,600,0,0,0,0,0",
    ];
    for first in faulty {
        let number = if first == "2,7" { 15 } else { 14 };
        for second in faulty.iter().chain(&["\"1"]) {
            let text = v_with(&format!("{first}\r\n{second}"));
            assert_eq!(refused(&text), (number, 2), "{text}");
        }
    }
}

/// All lines come before anything that the table says.
#[test]
fn lines_before_the_table() {
    let headers = [
        ("7", (2, 0)),
        ("1,3999,250,60,0,20000,200000,1", (3, 2)),
        ("2,8000,250,60,0,20000,200000,1,800000,99", (3, 11)),
        ("2,8000,250,60,0,20000,200000,1,800000,100", (9, 0)),
        ("1,8000,250,60,0,20000,200000,2", (4, 0)),
        ("1,8000,250,60,0,20000,200000,1", (7, 3)),
    ];
    let record = line(&with(&plate(2), &[("K", 499)]));
    for (header, expected) in headers {
        assert_eq!(refused(&format!("{header}\n{record}")), expected);
        assert_eq!(refused(&format!("{header}\n{record}\n")), expected);
        assert_eq!(refused(&format!("{header}\n{record}\n\n")), (14, 3));
        assert_eq!(refused(&format!("{header}\n{record},0\n")), (15, 2));
    }
}

/// The places are those of the sheet: ZDB is its field 10, behind the zero bits.
#[test]
fn the_tables_own_refusals() {
    let v2 = |changed| counting(&with(&vessel_v2(), changed), 0);
    assert_eq!(refused(&v2(&[("ZDB", 0)])), (3, 10));
    assert_eq!(refused(&v2(&[("depth", 1001)])), (3, 11));
    assert_eq!(refused(&line(&hull(8000, 60, 228))), (9, 0));
    assert!(read(&line(&hull(8000, 60, 229))).is_ok());
    let records = [plate(1), member(8), plate(4)];
    let text = |n, forms: &[Form]| {
        let lines = forms.iter().map(|form| "\n".to_string() + &line(form));
        counting(&vessel_v(), n) + &lines.collect::<String>()
    };
    let numbered = |ids: [i128; 3]| {
        let pairs = records.iter().zip(ids);
        let forms = pairs.map(|(form, id)| with(form, &[("id", id)]));
        forms.collect::<Vec<Form>>()
    };
    let sound = numbered([1, 2, 3]);
    for n in [0, 2, 4, 400] {
        assert_eq!(refused(&text(n, &sound)), (4, 0));
    }
    assert_eq!(read(&text(3, &sound)), Ok(sheet(&vessel_v(), &sound)));
    assert_eq!(refused(&text(3, &numbered([1, 3, 3]))), (8, 2));
    let mut two = numbered([1, 0, 0]);
    assert_eq!(refused(&text(3, &two)), (7, 34));
    two[1].set("kind", 9);
    assert_eq!(refused(&text(3, &two)), (6, 1));
}

/// 5 comes after all others, for one byte too.
#[test]
fn number_5_in_reading() {
    for size in [0, 1, 12, EXAMPLE.len() - 1] {
        assert_eq!(into(size, read_text, EXAMPLE_TEXT.as_bytes()), Err((5, 0)));
        let later = EXAMPLE_TEXT.replace("5,12,", "5,7,");
        assert_eq!(into(size, read_text, later.as_bytes()), Err((8, 1)));
        assert_eq!(into(size, read_text, b""), Err((14, 1)));
    }
    let whole = into(EXAMPLE.len(), read_text, EXAMPLE_TEXT.as_bytes());
    assert_eq!(whole, Ok(EXAMPLE.to_vec()));
}

#[test]
fn writing_is_refused_by_the_table_and_then_by_5() {
    for size in [0, 1, EXAMPLE_TEXT.len() - 1] {
        assert_eq!(into(size, write_text, EXAMPLE), Err((5, 0)));
    }
    let whole = into(EXAMPLE_TEXT.len(), write_text, EXAMPLE);
    assert_eq!(whole, Ok(EXAMPLE_TEXT.into()));
    let record = |changed| sheet(&vessel_v(), &[with(&plate(2), changed)]);
    let equal_ids = sheet(&vessel_v(), &[plate(2), member(5)]);
    let longer = [EXAMPLE, &[0; 16]].concat();
    for (sheet, expected) in [
        (&EXAMPLE[..11], (1, 0)),
        (&vessel_v2().pack()[..19], (1, 0)),
        (&with(&vessel_v2(), &[("version", 15)]).pack()[..12], (2, 0)),
        (&with(&vessel_v2(), &[("last_zero", 1)]).pack(), (3, 12)),
        (&hull(8000, 60, 228).pack(), (9, 0)),
        (&longer, (4, 0)),
        (&record(&[("kind", 9)]), (6, 0)),
        (&record(&[("zero", 1)]), (7, 12)),
        (&equal_ids, (8, 1)),
    ] {
        for size in [0, 500] {
            assert_eq!(into(size, write_text, sheet), Err(expected));
        }
    }
}

/// Sheet to text to sheet gives the same bytes; the text has a line for each record, each
/// ended by CR LF, and its fields are as many as the layouts have.
#[test]
fn written_and_read_again() {
    let sound = |sheet: &Vec<u8>| written(sheet).is_ok();
    for sheet in sheets(5).filter(sound).take(400) {
        let text = String::from_utf8(written(&sheet).expect("sound")).expect("plain");
        assert_eq!(read(&text), Ok(sheet.clone()));
        let lines: Vec<&str> = text.split_inclusive("\r\n").collect();
        assert!(lines.iter().all(|line| line.ends_with("\r\n")));
        let counts = lines.iter().map(|line| line.split(',').count());
        let version = &VERSIONS[usize::from(sheet[0] >> 4) - 1];
        assert_eq!(counts.clone().next(), Some(6 + 2 * version.number as usize));
        let records = sheet[version.bytes..].chunks(16);
        let expected = records.map(|record| if record[0] >> 4 <= 4 { 11 } else { 13 });
        assert!(counts.skip(1).eq(expected));
    }
}

/// Text to sheet to text gives the written form, which is read as the same sheet.
#[test]
fn read_and_written_again() {
    let texts = text_cases(5).filter(|case| case.what == What::Read);
    let mut others = 0;
    for case in texts.take(3000) {
        let Ok(sheet) = into(7000, read_text, &case.input) else {
            continue;
        };
        let text = written(&sheet).expect("a sheet that was read");
        others += usize::from(text != case.input);
        assert_eq!(into(7000, read_text, &text), Ok(sheet));
    }
    assert!(others > 200, "{others}");
}

/// As wide as may be: 400 records of the widest numbers.
#[test]
fn the_longest_text() {
    let widest = [
        ("z", 1000),
        ("S", 4000),
        ("l", 1000),
        ("T", 4000),
        ("W", 100_000),
        ("A", 16_000),
    ];
    let widest = with(&with(&member(5), &widest), &[("eta", 100), ("sigma1", 255)]);
    let ids = 601..=1000;
    let records: Vec<Form> = ids.map(|id| with(&widest, &[("id", id)])).collect();
    let sheet = sheet(&vessel_v2(), &records);
    let text = written(&sheet).expect("sound");
    assert!(text.len() > 24_000);
    assert_eq!(into(sheet.len(), read_text, &text), Ok(sheet));
}

/// A text, a line, a field and a quoted field of 65,536 bytes of each sort.
#[test]
fn long_texts() {
    let header = counting(&vessel_v(), 1) + "\n";
    for byte in ["7", "\"", ",", "\n", "\r"] {
        let many = byte.repeat(65_536);
        assert_eq!(refused(&many), (14, 1));
        assert_eq!(refused(&format!("{header}{many}")), (14, 2));
        assert_eq!(refused(&format!("{header}2,{many}")), (15, 2));
        assert_eq!(refused(&format!("{header}2,\"{many}")), (14, 2));
        assert_eq!(refused(&format!("{header}2,\"{many}\"")), (15, 2));
        let number = if byte == "," || byte == "\n" { 15 } else { 14 };
        assert_eq!(refused(&EXAMPLE_TEXT.replace("8000", &many)), (number, 1));
        let quoted = format!("\"{many}\"");
        assert_eq!(refused(&EXAMPLE_TEXT.replace("8000", &quoted)), (14, 1));
    }
}
