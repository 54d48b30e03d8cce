//! Packing and unpacking of every layout, and the stream around sheets.

#![allow(non_snake_case)]

mod common;

use common::{member, plate, sheet, vessel_v, vessel_v2, with};
use second::check::{check, Outcome, Verdict};
use second::form::{field_number, Form, Layout, MEMBER, PLATE, VERDICT};
use second::sheet::{read_header, read_record, Header, Own, Record};
use second::stream::{framed, pieces, Piece};
use second::version::{Version, VERSIONS};

fn bits(layout: Layout) -> u32 {
    layout.iter().map(|field| field.1).sum()
}

fn header_layout(version: i128) -> Layout {
    Version::numbered(version).expect("a version").layout
}

#[test]
fn widths_fill_the_bytes() {
    for version in VERSIONS {
        assert_eq!(bits(version.layout) as usize, 8 * version.bytes);
    }
    assert_eq!(bits(header_layout(1)), 96);
    assert_eq!(bits(header_layout(2)), 96 + 64);
    assert_eq!(bits(PLATE), 128);
    assert_eq!(bits(MEMBER), 128);
    assert_eq!(bits(VERDICT), 32);
}

/// Each field in turn full of ones among zeros: exactly its own bits are set,
/// and unpacking finds them again.
#[test]
fn every_field_has_its_own_bits() {
    let headers = VERSIONS.iter().map(|version| version.layout);
    for layout in headers.chain([PLATE, MEMBER, VERDICT]) {
        let mut bits_before = 0;
        for (name, width) in layout {
            let all_ones = (1 << width) - 1;
            let form = Form::filled(layout, &[(name, all_ones)]);
            let packed = form.pack();
            let set = (0..8 * packed.len()).filter(|bit| packed[bit / 8] >> (7 - bit % 8) & 1 == 1);
            let own = bits_before..bits_before + *width as usize;
            assert!(set.eq(own), "{name}");
            assert_eq!(Form::unpack(layout, &packed), form);
            bits_before += *width as usize;
        }
    }
}

#[test]
fn a_header_by_hand() {
    // 0001 | 01111101000000 | 0011111010 | 00111100 | 0 |
    // 00000100111000100000 | 000000000110000110101000000 | 000000010 | 000
    let mut v = vessel_v();
    v.set("n", 2);
    let expected = [
        0x17, 0xd0, 0x0f, 0xa3, 0xc0, 0x27, 0x10, 0x00, 0x30, 0xd4, 0x00, 0x10,
    ];
    assert_eq!(v.pack(), expected);
    let header = read_header(&expected).expect("sound");
    assert_eq!(
        (header.L, header.D0, header.H, header.two_runs),
        (8000, 250, 60, false)
    );
    assert_eq!((header.M, header.ZB, header.n), (20_000, 200_000, 2));
}

/// The fields go on counting: those of the first 96 bits have the same numbers.
#[test]
fn the_fields_of_version_2_by_number() {
    let names = ["n", "zero", "ZDB", "depth", "last_zero"];
    let numbers = names.map(|name| field_number(header_layout(2), name));
    assert_eq!(numbers, [8, 9, 10, 11, 12]);
    assert_eq!(header_layout(2)[..9], *header_layout(1));
    assert_eq!(header_layout(2).len(), 12);
    // Which version a form is of goes by its fields.
    for version in VERSIONS {
        assert_eq!(Version::of(&Form::blank(version.layout)), version);
    }
}

#[test]
fn a_header_of_version_2_by_hand() {
    // As vessel V above with 0010 in front; then
    // 000000001100001101010000000 | 0100101100 | 000000000000000000000000000
    let v = with(&vessel_v2(), &[("ZDB", 400_000), ("n", 2)]);
    let expected = [
        0x27, 0xd0, 0x0f, 0xa3, 0xc0, 0x27, 0x10, 0x00, 0x30, 0xd4, 0x00, 0x10, 0x00, 0xc3, 0x50,
        0x09, 0x60, 0x00, 0x00, 0x00,
    ];
    assert_eq!(v.pack(), expected);
    let header = read_header(&expected).expect("sound");
    assert_eq!((header.L, header.ZB, header.n), (8000, 200_000, 2));
    let own = Own::Version2 {
        ZDB: 400_000,
        depth: 300,
    };
    assert_eq!(header.own, own);
    assert_eq!(header.ZDB(), 400_000);
}

/// A header holds its version's fields and no others, and is written as it was read.
#[test]
fn headers_read_back() {
    for (v, ZDB) in [(vessel_v(), 200_000), (vessel_v2(), 800_000)] {
        let header = read_header(&v.pack()).expect("sound");
        assert_eq!(header, Header::of(&v));
        assert_eq!(header.form(), v);
        assert_eq!(header.version(), Version::of(&v));
        assert_eq!(header.ZDB(), ZDB);
        // What stands behind a header is no part of it.
        let longer = [v.pack(), vec![0xff; 9]].concat();
        assert_eq!(read_header(&longer), Ok(header));
    }
    let header = read_header(&vessel_v().pack()).expect("sound");
    assert_eq!(header.own, Own::Version1);
}

#[test]
fn records_read_back() {
    for kind in 1..=4 {
        let Ok(Record::Plate(read)) = read_record(&plate(kind).pack(), 0) else {
            panic!("kind {kind} is a plate");
        };
        assert_eq!(
            (read.kind, read.S, read.K, read.ballast),
            (kind, 500, 1000, false)
        );
    }
    for kind in 5..=8 {
        let Ok(Record::Member(read)) = read_record(&member(kind).pack(), 0) else {
            panic!("kind {kind} is a member");
        };
        assert_eq!((read.kind, read.S, read.l, read.K), (kind, 500, 300, 1000));
    }
}

#[test]
fn verdicts_stand_in_their_own_four_bytes() {
    let verdict = Verdict {
        id: 1000,
        rule: 5,
        required: 100_000,
        source: 2,
    };
    // 1111101000 | 101 | 11000011010100000 | 10
    assert_eq!(verdict.pack(), [0xfa, 0x2e, 0x1a, 0x82]);
    assert_eq!(Verdict::unpack(&verdict.pack()), verdict);

    let mut second = plate(2);
    second.set("id", 2);
    let mut output = [0xee; 11];
    let outcome = check(&sheet(&vessel_v(), &[plate(2), second]), &mut output);
    assert_eq!(outcome, Ok(Outcome { n: 2, failures: 2 }));
    for (id, place) in [(1, &output[..4]), (2, &output[4..8])] {
        assert_eq!(
            Verdict::unpack(place),
            Verdict {
                id,
                rule: 1,
                required: 530,
                source: 0,
            }
        );
    }
    assert_eq!(output[8..], [0xee; 3]);
}

#[test]
fn streams_end_well_or_broken() {
    let kinds = |stream: &[u8]| -> Vec<Option<usize>> {
        let sizes = pieces(stream).map(|piece| match piece {
            Piece::Sheet(sheet) => Some(sheet.len()),
            Piece::Broken => None,
        });
        sizes.collect()
    };
    assert_eq!(kinds(&[]), []);
    assert_eq!(kinds(&framed(&[])), [Some(0)]);
    let two = [framed(&[7; 12]), framed(&[8; 3])].concat();
    assert_eq!(kinds(&two), [Some(12), Some(3)]);
    assert_eq!(kinds(&two[..two.len() - 1]), [Some(12), None]);
    assert_eq!(kinds(&two[..18]), [Some(12), None]);
    assert_eq!(kinds(&framed(&vec![0; 65_536])), [Some(65_536)]);
    let mut too_long = vec![0, 1, 0, 1];
    too_long.extend(vec![0; 65_537]);
    assert_eq!(kinds(&too_long), [None]);
}
