//! "When the sheet is turned away": every number, every place, and the order.

#![allow(non_snake_case)]

mod common;

use common::{header_bytes, hull, member, plate, sheet, vessel_v, vessel_v2, vessels, with};
use second::check::check;
use second::form::{field_number, Form};
use second::limits::in_record;
use second::make::sheets;
use second::print::answer;
use second::refusal::Refusal;
use second::sheet::{read_header, Header};
use std::slice;

fn refusal(sheet: &[u8]) -> Option<(usize, usize)> {
    let mut output = [0xee; 1600];
    let refused = check(sheet, &mut output).err();
    if refused.is_some() {
        assert_eq!(
            output, [0xee; 1600],
            "a refused sheet leaves the output as lent"
        );
    }
    refused.map(|Refusal { number, place }| (number, place))
}

fn numbered(records: &[Form]) -> Vec<Form> {
    let ids = 1..;
    let pairs = records.iter().zip(ids);
    pairs
        .map(|(record, id)| with(record, &[("id", id)]))
        .collect()
}

#[test]
fn number_1_short_sheets() {
    for (v, bytes) in [(vessel_v(), 12), (vessel_v2(), 20)] {
        let whole = sheet(&v, &[]);
        assert_eq!(whole.len(), bytes);
        for length in 0..bytes {
            assert_eq!(refusal(&whole[..length]), Some((1, 0)), "{length} bytes");
        }
        assert_eq!(refusal(&whole), None);
    }
    assert_eq!(answer(&[]), "refused 1 0\n");
}

/// 1 under twelve bytes, then 2, then 1 for the header of version 2.
#[test]
fn number_2_version() {
    for version in (0..16).filter(|version| *version != 1 && *version != 2) {
        for v in vessels() {
            let v = with(&v, &[("version", version), ("L", 0)]);
            let longest = sheet(&v, &[plate(2)]);
            assert_eq!(refusal(&longest[..11]), Some((1, 0)));
            for length in 12..longest.len() {
                assert_eq!(refusal(&longest[..length]), Some((2, 0)));
            }
        }
    }
    // Behind the same twelve bytes, with every field but the version at fault.
    let short =
        |version| with(&vessel_v2(), &[("version", version), ("L", 0)]).pack()[..15].to_vec();
    let found = [1, 2, 15].map(|version| refusal(&short(version)));
    assert_eq!(found, [(3, 2), (1, 0), (2, 0)].map(Some));
}

#[test]
fn number_3_each_header_field() {
    let faults = [
        ("L", 3999, 2),
        ("L", 13_501, 2),
        ("D0", 0, 3),
        ("D0", 1001, 3),
        ("H", 59, 4),
        ("H", 121, 4),
        ("M", 1_000_001, 6),
        ("ZB", 0, 7),
        ("ZB", 100_000_001, 7),
        ("zero", 1, 9),
        ("zero", 2, 9),
        ("zero", 4, 9),
    ];
    for v in vessels() {
        for (name, value, place) in faults {
            let v = with(&v, &[(name, value)]);
            assert_eq!(refusal(&sheet(&v, &[])), Some((3, place)), "{name} {value}");
        }
        let too_many = with(&v, &[("n", 401)]).pack();
        assert_eq!(refusal(&too_many), Some((3, 8)));
    }
}

#[test]
fn number_3_each_field_of_version_2() {
    // In still water, where the least depth is enough.
    let still = with(&vessel_v2(), &[("H", 0)]);
    let at = |name, value| refusal(&sheet(&with(&still, &[(name, value)]), &[]));
    for (name, lowest, highest, place) in [("ZDB", 1, 100_000_000, 10), ("depth", 100, 1000, 11)] {
        assert_eq!(at(name, lowest - 1), Some((3, place)));
        assert_eq!(at(name, lowest), None);
        assert_eq!(at(name, highest), None);
        assert_eq!(at(name, highest + 1), Some((3, place)));
    }
    assert_eq!(at("ZDB", (1 << 27) - 1), Some((3, 10)));
    assert_eq!(at("depth", 1023), Some((3, 11)));
    for bit in 0..27 {
        assert_eq!(at("last_zero", 1 << bit), Some((3, 12)));
    }
    // Bytes 12 to 19 bit by bit: ZDB 0, depth 0 and a zero bit stand where they must.
    for bit in 0..64 {
        let mut bytes = with(&vessel_v2(), &[("ZDB", 0), ("depth", 0)]).pack();
        bytes[12 + bit / 8] |= 1 << (7 - bit % 8);
        let expected = match bit {
            // ZDB 2^26 is allowed and a lower bit too: depth 0 is then the fault.
            0..27 => (3, 11),
            _ => (3, 10),
        };
        assert_eq!(refusal(&bytes), Some(expected), "bit {bit}");
    }
}

/// At the limit of its wave height, a centimetre to either side, and at the ends of L.
#[test]
fn number_9_too_slender() {
    let at = |L, H, depth| refusal(&sheet(&hull(L, H, depth), &[plate(2)]));
    for (H, limit) in [(60, 35), (120, 25)] {
        for depth in [161, 300, 385] {
            let L = limit * depth;
            let found = [L - 1, L, L + 1].map(|L| at(L, H, depth));
            assert_eq!(found, [None, None, Some((9, 0))], "{H} {depth}");
        }
    }
    for (L, H, least) in [
        (4000, 60, 115),
        (13_500, 60, 386),
        (4000, 120, 160),
        (13_500, 120, 540),
    ] {
        let found = [least - 1, least].map(|depth| at(L, H, depth));
        assert_eq!(found, [Some((9, 0)), None], "{L} {H}");
    }
}

/// Each limit in waves of its own height alone, and none in still water or without a
/// depth.
#[test]
fn number_9_by_wave_height_and_version() {
    let at = |L, H| refusal(&sheet(&hull(L, H, 300), &[]));
    let found = |L| [0, 60, 120].map(|H| at(L, H));
    let slender = Some((9, 0));
    assert_eq!(found(7500), [None; 3]);
    assert_eq!(found(7501), [None, None, slender]);
    assert_eq!(found(10_500), [None, None, slender]);
    assert_eq!(found(10_501), [None, slender, slender]);
    assert_eq!(refusal(&hull(13_500, 0, 100).pack()), None);
    for H in [0, 60, 120] {
        for L in [4000, 13_500] {
            let v = with(&vessel_v(), &[("L", L), ("H", H)]);
            assert_eq!(refusal(&sheet(&v, &[plate(2)])), None);
        }
    }
}

/// 3 goes before, whichever the field, and 4 to 8 behind.
#[test]
fn number_9_has_its_place_in_the_order() {
    let slender = hull(13_500, 120, 100);
    for (name, value) in [
        ("L", 13_501),
        ("D0", 0),
        ("H", 121),
        ("M", 1_000_001),
        ("ZB", 0),
        ("n", 401),
        ("zero", 1),
        ("ZDB", 0),
        ("depth", 99),
        ("last_zero", 1),
    ] {
        let place = field_number(slender.layout, name);
        let faulty = with(&slender, &[(name, value)]);
        assert_eq!(refusal(&faulty.pack()), Some((3, place)));
    }
    let whole = sheet(&slender, &numbered(&[plate(2), plate(2)]));
    let longer = [whole.clone(), vec![0; 17]].concat();
    for length in 20..longer.len() {
        assert_eq!(refusal(&longer[..length]), Some((9, 0)), "{length} bytes");
    }
    assert_eq!(refusal(&whole[..19]), Some((1, 0)));
    assert_eq!(check(&whole, &mut []), Err(Refusal::new(9, 0)));
    for fault in [("kind", 9), ("T", 0), ("id", 1)] {
        let records = [plate(2), with(&plate(2), &[("id", 2), fault])];
        assert_eq!(refusal(&sheet(&slender, &records)), Some((9, 0)));
    }
}

/// On sheets: a header alone is read as it stands.
#[test]
fn number_9_is_not_of_a_header_alone() {
    for slender in [hull(13_500, 120, 100), hull(4000, 60, 114)] {
        let header = read_header(&slender.pack());
        assert_eq!(header, Ok(Header::of(&slender)));
        assert_eq!(answer(&slender.pack()), "refused 9 0\n");
    }
}

#[test]
fn number_4_length() {
    for v in vessels() {
        let header = header_bytes(&v);
        let whole = sheet(&v, &[plate(2)]);
        assert_eq!(whole.len(), header + 16);
        assert_eq!(refusal(&whole), None);
        for length in header..header + 16 {
            assert_eq!(refusal(&whole[..length]), Some((4, 0)));
        }
        for more in 1..40 {
            let longer = [whole.clone(), vec![0; more]].concat();
            assert_eq!(refusal(&longer), Some((4, 0)));
        }
    }
}

/// 12 + 16n bytes in version 2 and 20 + 16n in version 1; the longest sheets, and
/// those a byte longer.
#[test]
fn number_4_length_of_the_other_version() {
    for n in [1, 2, 400] {
        let records = numbered(&vec![plate(2); n]);
        let [one, two] = vessels().map(|v| sheet(&v, &records));
        assert_eq!([one.len(), two.len()], [12 + 16 * n, 20 + 16 * n]);
        assert_eq!([refusal(&one), refusal(&two)], [None, None]);
        assert_eq!(refusal(&two[..12 + 16 * n]), Some((4, 0)));
        assert_eq!(refusal(&[one, vec![0; 8]].concat()), Some((4, 0)));
        assert_eq!(refusal(&[two, vec![0]].concat()), Some((4, 0)));
    }
    // Of version 2 with no record, twelve bytes are too few for the header.
    assert_eq!(refusal(&sheet(&vessel_v2(), &[])[..12]), Some((1, 0)));
}

#[test]
fn number_5_output() {
    let records = numbered(&[plate(2), plate(2)]);
    for v in vessels() {
        let sound = sheet(&v, &records);
        let mut output = [0xee; 7];
        assert_eq!(check(&sound, &mut output), Err(Refusal::new(5, 0)));
        assert_eq!(output, [0xee; 7]);
        // Before the records are looked at, after the length.
        let no_kind = sheet(&v, &[with(&plate(2), &[("kind", 0)])]);
        assert_eq!(check(&no_kind, &mut []), Err(Refusal::new(5, 0)));
        assert_eq!(check(&no_kind[..20], &mut []), Err(Refusal::new(4, 0)));
        assert!(check(&sheet(&v, &[]), &mut []).is_ok());
    }
}

/// Every sheet that is not turned away: an output of any length under 4n bytes
/// is refused and stays as lent; of 4n bytes or more the first 4n are written.
#[test]
fn number_5_for_each_sound_sheet() {
    let mut sound = 0;
    for sheet in sheets(11).take(400) {
        let mut ample = vec![0xee; 1700];
        let Ok(outcome) = check(&sheet, &mut ample) else {
            continue;
        };
        sound += 1;
        let needed = 4 * outcome.n;
        assert!(ample[needed..].iter().all(|byte| *byte == 0xee));
        let mut exact = vec![0xee; needed];
        assert_eq!(check(&sheet, &mut exact), Ok(outcome));
        assert_eq!(exact, ample[..needed]);
        let lengths = [0, 1, 3, needed / 2, needed.saturating_sub(1)];
        for length in lengths.into_iter().filter(|length| *length < needed) {
            let mut short = vec![0xee; length];
            assert_eq!(check(&sheet, &mut short), Err(Refusal::new(5, 0)));
            assert_eq!(short, vec![0xee; length]);
        }
    }
    assert!(sound > 100);
}

#[test]
fn number_6_kind() {
    for kind in [0, 9, 10, 11, 12, 13, 14, 15] {
        let mut records = numbered(&[plate(2), member(5), plate(2)]);
        records[2].set("kind", kind);
        for v in vessels() {
            assert_eq!(refusal(&sheet(&v, &records)), Some((6, 2)));
        }
    }
}

/// Every field of every kind at both ends of its values and one past them,
/// with the place the layout gives it.
#[test]
fn number_7_each_record_field() {
    let ballasted = |kind| with(&plate(kind), &[("z", 5), ("ballast", 1), ("zL", 9)]);
    let mut records: Vec<Form> = (1..=4).map(plate).collect();
    records.extend((1..=4).map(ballasted));
    records.extend((5..=8).map(member));
    for record in records {
        for (index, (name, width)) in record.layout.iter().enumerate().skip(1) {
            let allowed = in_record(&record, name);
            let at = |value| {
                let pair = numbered(&[plate(4), with(&record, &[("id", 2)])]);
                let changed = with(&pair[1], &[(name, value)]);
                refusal(&sheet(&vessel_v(), &[pair[0].clone(), changed]))
            };
            let outside = [allowed.lowest() - 1, allowed.highest() + 1];
            for value in outside
                .into_iter()
                .filter(|value| (0..1 << width).contains(value))
            {
                assert_eq!(at(value), Some((7, 32 + index + 1)), "{name} {value}");
            }
            // An id at its lowest is not above the one before; ballast and z
            // move the range of zL, which then is the fault.
            let inside = [allowed.lowest(), allowed.highest()];
            for value in inside {
                let expected = match *name {
                    "id" if value == 1 => Some((8, 1)),
                    "ballast" if value != record.get("ballast") => {
                        (value == 0).then_some((7, 32 + 10))
                    }
                    "z" if record.layout.len() == 12 && value > record.get("zL") => {
                        (record.get("ballast") == 1).then_some((7, 32 + 10))
                    }
                    _ => None,
                };
                assert_eq!(at(value), expected, "{name} {value}");
            }
        }
    }
}

#[test]
fn places_of_some_record_fields() {
    let place = |record: Form| {
        let [one, two] = vessels().map(|v| refusal(&sheet(&v, slice::from_ref(&record))));
        assert_eq!(one, two);
        one
    };
    assert_eq!(place(with(&plate(2), &[("id", 0)])), Some((7, 2)));
    assert_eq!(place(with(&plate(2), &[("b1", 10)])), Some((7, 7)));
    assert_eq!(place(with(&plate(2), &[("zL", 1)])), Some((7, 10)));
    assert_eq!(place(with(&plate(1), &[("cargo", 1)])), Some((7, 11)));
    assert_eq!(place(with(&plate(4), &[("zero", 1 << 19)])), Some((7, 12)));
    assert_eq!(place(with(&member(6), &[("z", 1)])), Some((7, 3)));
    assert_eq!(place(with(&member(7), &[("eta", 99)])), Some((7, 9)));
    assert_eq!(place(with(&member(6), &[("sigma1", 1)])), Some((7, 10)));
    assert_eq!(place(with(&member(8), &[("K", 499)])), Some((7, 13)));
    // zL rests on z: the later one is the fault.
    let under = with(&plate(1), &[("z", 200), ("ballast", 1), ("zL", 199)]);
    assert_eq!(place(under), Some((7, 10)));
}

#[test]
fn number_8_order_of_ids() {
    let records = |first, second| {
        [
            with(&plate(2), &[("id", first)]),
            with(&plate(2), &[("id", second)]),
        ]
    };
    for v in vessels() {
        assert_eq!(refusal(&sheet(&v, &records(5, 6))), None);
        assert_eq!(refusal(&sheet(&v, &records(5, 5))), Some((8, 1)));
        assert_eq!(refusal(&sheet(&v, &records(5, 4))), Some((8, 1)));
    }
}

#[test]
fn the_first_of_several_faulty_fields_is_named() {
    let v = with(&vessel_v(), &[("zero", 1), ("M", 1_000_001), ("H", 1)]);
    assert_eq!(refusal(&sheet(&v, &[])), Some((3, 4)));
    // Of version 2 mended one by one, the fields of the first 96 bits before the others.
    let mut v = vessel_v2();
    let faults = [
        ("n", 401),
        ("zero", 1),
        ("ZDB", 0),
        ("depth", 1001),
        ("last_zero", 1),
    ];
    v.fill(&faults);
    for (name, _) in faults {
        let place = field_number(v.layout, name);
        assert_eq!(refusal(&v.pack()), Some((3, place)));
        v.set(name, vessel_v2().get(name));
    }
    assert_eq!(refusal(&v.pack()), None);
    let record = with(&plate(2), &[("zero", 1), ("T", 0), ("S", 0)]);
    let place = field_number(record.layout, "S");
    assert_eq!(refusal(&sheet(&vessel_v(), &[record])), Some((7, place)));
}

/// A sheet with every fault at once, to be mended one by one from the top of the table.
struct Spoilt {
    header: Form,
    records: [Form; 3],
    extra: Vec<u8>,
}

impl Spoilt {
    fn new(v: &Form) -> Spoilt {
        Spoilt {
            header: with(v, &[("version", 15), ("L", 0), ("n", 3)]),
            records: [
                with(&plate(2), &[("kind", 9), ("id", 0)]),
                with(&plate(2), &[("id", 9), ("T", 0)]),
                with(&plate(2), &[("kind", 0), ("id", 9), ("zero", 1)]),
            ],
            extra: vec![0],
        }
    }

    fn bytes(&self) -> Vec<u8> {
        let records = self.records.iter().flat_map(Form::pack).collect();
        [self.header.pack(), records, self.extra.clone()].concat()
    }

    #[track_caller]
    fn is_refused_by(&self, number: usize, place: usize) {
        assert_eq!(refusal(&self.bytes()), Some((number, place)));
    }
}

fn header_and_length_in_order(spoilt: &mut Spoilt, v: &Form) {
    assert_eq!(refusal(&spoilt.bytes()[..11]), Some((1, 0)));
    spoilt.is_refused_by(2, 0);
    spoilt.header.set("version", v.get("version"));
    let cut = header_bytes(v) - 1;
    assert_eq!(refusal(&spoilt.bytes()[..cut]), Some((1, 0)));
    spoilt.is_refused_by(3, 2);
    spoilt.header.set("L", 4000);
    if v.has("depth") {
        spoilt.header.set("depth", 114);
        spoilt.is_refused_by(9, 0);
        spoilt.header.set("depth", 115);
    }
    spoilt.is_refused_by(4, 0);
    spoilt.extra.clear();
    let short = check(&spoilt.bytes(), &mut [0; 11]);
    assert_eq!(short, Err(Refusal::new(5, 0)));
}

/// Record 1 is finished (7, then 8) before record 2's kind is looked at.
fn records_in_order(spoilt: &mut Spoilt) {
    for (number, place, record, mended) in [
        (6, 0, 0, ("kind", 2)),
        (7, 2, 0, ("id", 9)),
        (7, 32 + 6, 1, ("T", 1)),
        (8, 1, 1, ("id", 10)),
        (6, 2, 2, ("kind", 4)),
        (7, 64 + 12, 2, ("zero", 0)),
        (8, 2, 2, ("id", 11)),
    ] {
        spoilt.is_refused_by(number, place);
        spoilt.records[record].fill(&[mended]);
    }
    assert_eq!(refusal(&spoilt.bytes()), None);
}

#[test]
fn the_order_of_the_table() {
    for v in vessels() {
        let mut spoilt = Spoilt::new(&v);
        header_and_length_in_order(&mut spoilt, &v);
        records_in_order(&mut spoilt);
    }
}
