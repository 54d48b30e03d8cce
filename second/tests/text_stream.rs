//! The stream of texts, and the cases made for it.

mod common;

use common::{plate, sheet, vessel_v, vessel_v2};
use second::fields::lines;
use second::form::{entered, Layout, MEMBER, PLATE};
use second::make::text_cases;
use second::refusal::Refusal;
use second::rows::ANY;
use second::tally_texts::{TextTally, BY_VERSION, IN_ANY_VERSION, LOOKS, SHAPES};
use second::text::{layout_of, packed, LineFault, NumberFault};
use second::text_stream::{cases, framed, Broken, Case, What};
use second::version::VERSIONS;
use std::collections::BTreeSet;
use std::sync::LazyLock;

/// What a run of the comparison's length brings up, counted once for all tests.
static RUN: LazyLock<TextTally> = LazyLock::new(|| TextTally::of(&stream(7, 10_000)));

fn case(what: What, input: &[u8], output: &[u8]) -> Case {
    Case {
        what,
        input: input.to_vec(),
        output: output.to_vec(),
    }
}

/// Each case in a word: what, the lengths, or a break.
fn words(stream: &[u8]) -> Vec<String> {
    let word = |case| match case {
        Ok(Case {
            what,
            input,
            output,
        }) => format!("{what:?} {} {}", input.len(), output.len()),
        Err(Broken) => "broken".to_string(),
    };
    cases(stream).map(word).collect()
}

#[test]
fn a_case_byte_by_byte() {
    let read = case(What::Read, b"1,2", &[7, 8]);
    let write = case(What::Write, &[9], &[]);
    let expected = [
        &[0, 0, 0, 0, 0, 0, 0, 3, 0, 0, 0, 2, b'1', b',', b'2', 7, 8][..],
        &[0, 0, 0, 1, 0, 0, 0, 1, 0, 0, 0, 0, 9],
    ];
    assert_eq!([framed(&read), framed(&write)], expected);
    let both: Vec<Result<Case, Broken>> = cases(&expected.concat()).collect();
    assert_eq!(both, [Ok(read), Ok(write)]);
}

#[test]
fn a_stream_ends_well_only_between_cases() {
    let one = framed(&case(What::Write, b"abc", &[0; 5]));
    assert_eq!(words(&[]), Vec::<String>::new());
    assert_eq!(words(&one), ["Write 3 5"]);
    for end in 1..one.len() {
        assert_eq!(words(&one[..end]), ["broken"]);
        let two = [&one, &one[..end]].concat();
        assert_eq!(words(&two), ["Write 3 5", "broken"]);
    }
}

#[test]
fn a_long_input_or_output_or_nothing_to_do_breaks_a_stream() {
    let longest = vec![0; 65_536];
    let both = framed(&case(What::Read, &longest, &longest));
    assert_eq!(words(&both), ["Read 65536 65536"]);
    for number in 0..3 {
        let mut head = [0; 12];
        head[4 * number + 1] = 1;
        head[4 * number + 3] = 1;
        assert_eq!(words(&[&head[..], &vec![0; 70_000]].concat()), ["broken"]);
    }
    for what in [[0, 0, 0, 3], [0, 0, 1, 0], [0x80, 0, 0, 1]] {
        let stream = [&what[..], &[0; 8], &both].concat();
        assert_eq!(words(&stream), ["broken"]);
    }
}

#[test]
fn a_case_is_read_or_written_into_its_output() {
    let v = sheet(&vessel_v(), &[]);
    let text = b"1,8000,250,60,0,20000,200000,0\r\n";
    let mut read = case(What::Read, text, &[7; 14]);
    assert_eq!(read.run(), Ok(12));
    assert_eq!(read.output, [&v[..], &[7, 7]].concat());
    let mut write = case(What::Write, &v, &[7; 33]);
    assert_eq!(write.run(), Ok(32));
    assert_eq!(write.output, [&text[..], &[7]].concat());
    let mut short = case(What::Write, &v, &[7; 31]);
    assert_eq!(short.run(), Err(Refusal::new(5, 0)));
    assert_eq!(short.output, [7; 31]);
}

fn stream(seed: u64, count: usize) -> Vec<u8> {
    let cases = text_cases(seed).take(count);
    cases.flat_map(|case| framed(&case)).collect()
}

#[test]
fn the_seed_decides() {
    assert_eq!(stream(3, 40), stream(3, 40));
    assert_ne!(stream(3, 40), stream(4, 40));
}

/// Each case has one row, and of a short run the tally complains.
#[test]
fn ten_thousand_cases_bring_up_every_row() {
    assert_eq!(RUN.reads + RUN.writes + RUN.tables, 10_000);
    assert!(!RUN.broken);
    assert_eq!(RUN.complaints(), Vec::<String>::new());
    let in_any = IN_ANY_VERSION.iter().map(|row| RUN.rows.of(row, ANY));
    let by_version = BY_VERSION.iter();
    let by_version = by_version.flat_map(|row| [1, 2].map(|version| RUN.rows.of(row, version)));
    let looks = LOOKS.iter().map(|look| RUN.rows.of(look, ANY));
    let rows = in_any.chain(by_version).chain(looks);
    assert_eq!(rows.sum::<usize>(), 10_000);
    assert!(!TextTally::of(&stream(7, 600)).complaints().is_empty());
}

#[test]
fn the_versions_are_even() {
    for row in ["read", "written"] {
        let [one, two] = [1, 2].map(|version| RUN.rows.of(row, version));
        assert!(one.abs_diff(two) < (one + two) / 5, "{row}: {one} {two}");
    }
}

/// The rows that one case adds.
fn rows(case: Case) -> Vec<(&'static str, i128)> {
    let rows = TextTally::of(&framed(&case)).rows;
    let names = IN_ANY_VERSION.iter().chain(&BY_VERSION).chain(&SHAPES);
    let named = names.flat_map(|name| [ANY, 1, 2].map(|version| (*name, version)));
    named
        .filter(|(name, version)| rows.of(name, *version) > 0)
        .collect()
}

#[test]
fn texts_are_told_by_their_shape() {
    let text = "1,8000,250,60,0,20000,200000,1\r\n2,1,1000,0,500,1,0,0,0,0,0\r\n";
    let told = |text: &str, size| rows(case(What::Read, text.as_bytes(), &vec![0; size]));
    let whole = "output as long as needed";
    let as_written = "read as it would be written";
    assert_eq!(told(text, 28), [("read", 1), (as_written, 0), (whole, 0)]);
    let lf = ("read with LF alone", 0);
    assert_eq!(
        told(&text.replace("\r\n", "\n"), 28),
        [("read", 1), lf, (whole, 0)]
    );
    assert_eq!(
        told(text.trim_end(), 29),
        [
            ("read", 1),
            ("read without the last line end", 0),
            ("output longer", 0)
        ]
    );
    assert_eq!(
        told(
            &text.replace("250", "\"250\"").replacen("\r\n", "\n", 1),
            28
        ),
        [
            ("read", 1),
            ("read with some fields quoted", 0),
            ("read with both line ends", 0),
            (whole, 0)
        ]
    );
    assert_eq!(
        told(text, 27),
        [("5 in reading", 1), ("output a byte too short", 0)]
    );
}

#[test]
fn texts_are_told_by_their_faults() {
    let told = |text: &str| rows(case(What::Read, text.as_bytes(), &[]));
    assert_eq!(told(""), [("14 empty line", 0)]);
    assert_eq!(
        told("\u{1}\n\n"),
        [
            ("14 first field no number", 0),
            ("several lines at fault", 0)
        ]
    );
    assert_eq!(
        told("3,\"\"\"\"\n2,1"),
        [
            ("15 on a plate", 0),
            ("a quote in a field", 0),
            ("a line and the header at fault", 0),
            ("an unknown kind and no numbers", 0)
        ]
    );
    assert_eq!(told("2,1"), [("15 on the header", 2)]);
    assert_eq!(told("0"), [("2 in reading", 0)]);
    let slender = "2,8000,250,60,0,20000,200000,0,800000,100";
    assert_eq!(told(slender), [("9 in reading", 2)]);
}

#[test]
fn sheets_are_told() {
    let told = |sheet: &[u8]| rows(case(What::Write, sheet, &[0; 100]));
    let v2 = sheet(&vessel_v2(), &[plate(2)]);
    let longer = ("output longer", 0);
    assert_eq!(told(&v2), [("written", 2), longer]);
    assert_eq!(told(&v2[..11]), [("1 in writing, under twelve bytes", 0)]);
    assert_eq!(told(&v2[..19]), [("1 in writing, under its header", 0)]);
    assert_eq!(told(&v2[..20]), [("4 in writing", 2)]);
}

/// How the number of a field is at fault, or that it is the greatest its bits hold.
#[derive(Debug, PartialEq, Eq, PartialOrd, Ord)]
enum Telling {
    NoNumber,
    /// By one.
    TooWide,
    JustFits,
}

/// The later fields of a line of this layout that tell something.
fn telling(layout: Layout, fields: &[String]) -> Vec<(usize, Telling)> {
    let fields = fields.iter().zip(entered(layout)).enumerate().skip(1);
    let told = fields.filter_map(|(index, (field, (_, bits)))| {
        let told = match field.parse::<u128>() {
            Ok(value) if value == 1 << bits => Telling::TooWide,
            Ok(value) if value == (1 << bits) - 1 => Telling::JustFits,
            Ok(_) => return None,
            Err(_) => Telling::NoNumber,
        };
        Some((index, told))
    });
    told.collect()
}

/// In every layout, where nothing else is at fault before it.
#[test]
fn every_field_comes_up() {
    let mut seen: BTreeSet<(Layout, usize, Telling)> = BTreeSet::new();
    let texts = text_cases(20_210_301).take(10_000);
    for case in texts.filter(|case| case.what == What::Read) {
        for (index, line) in lines(&case.input).iter().enumerate() {
            let judged = packed(line, index);
            let Ok(fields) = line else { break };
            let layout = fields[0].parse().map(|first| layout_of(first, index));
            if let (Ok(_) | Err(LineFault::Field(_)), Ok(Some(layout))) = (&judged, layout) {
                let told = telling(layout, fields).into_iter();
                seen.extend(told.map(|(field, told)| (layout, field, told)));
            }
            if judged.is_err() {
                break;
            }
        }
    }
    let headers = VERSIONS.iter().map(|version| version.layout);
    for layout in headers.chain([PLATE, MEMBER]) {
        for field in 1..entered(layout).count() {
            for told in [Telling::NoNumber, Telling::TooWide, Telling::JustFits] {
                let row = (layout, field, told);
                assert!(seen.contains(&row), "{row:?}");
            }
        }
    }
}

/// Each way of being wrong stands before each other in some text, in a line before it
/// and in its own line: quotes, first field, count, number.
#[test]
fn faults_come_up_in_every_order() {
    let mut seen: BTreeSet<(u8, u8)> = BTreeSet::new();
    let sort = |fault: LineFault| match fault {
        LineFault::Quotes(_) => 0,
        LineFault::First(_) => 1,
        LineFault::Count => 2,
        LineFault::Field(NumberFault::NotWritten) => 3,
        LineFault::Field(NumberFault::TooWide) => 4,
    };
    let texts = text_cases(20_210_301).take(10_000);
    for case in texts.filter(|case| case.what == What::Read) {
        let lines = lines(&case.input);
        let faults = lines.iter().enumerate();
        let faults = faults.filter_map(|(index, line)| packed(line, index).err());
        let sorts: Vec<u8> = faults.map(sort).collect();
        seen.extend(sorts.windows(2).map(|pair| (pair[0], pair[1])));
    }
    assert_eq!(seen.len(), 25, "{seen:?}");
}
