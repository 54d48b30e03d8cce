//! "Edit a sheet where it stands", sentence by sentence.

mod common;

use common::{
    header_bytes, hull, member, numbers, plate, sheet, vessel_v, vessel_v2, vessels, with,
};
use second::edit::{edit, read_sheet, Edit};
use second::edit_stream::Lent;
use second::form::{Form, RECORD_BYTES};
use second::limits::in_record;
use second::make::edit_cases;
use second::version::{Version, VERSIONS};
use std::collections::BTreeMap;

/// What the room behind a sheet holds before it is used.
const LENT: u8 = 0xee;

fn lend(sheet: &[u8], room: usize) -> Lent {
    let mut buffer = sheet.to_vec();
    buffer.resize(sheet.len() + room, LENT);
    let length = sheet.len();
    Lent { buffer, length }
}

fn put(record: &Form) -> Edit {
    Edit::Put(numbers(record))
}

fn with_id(record: &Form, id: i128) -> Form {
    with(record, &[("id", id)])
}

/// Plates and members of these ids in turn.
fn records(ids: &[i128]) -> Vec<Form> {
    let kinds = [plate(2), member(5), plate(3), member(6)];
    let pairs = ids.iter().zip(kinds.iter().cycle());
    pairs.map(|(id, record)| with_id(record, *id)).collect()
}

/// Vessel V with them.
fn v(ids: &[i128]) -> Vec<u8> {
    sheet(&vessel_v(), &records(ids))
}

/// The refusal of an edit, which changes no byte and gives no new length.
fn refused(lent: &Lent, change: &Edit) -> Option<(usize, usize)> {
    let mut after = lent.clone();
    let refusal = after.edit(change).err()?;
    assert_eq!(after, *lent, "a refused edit leaves everything as lent");
    Some((refusal.number, refusal.place))
}

fn both_edits() -> [Edit; 2] {
    [put(&with_id(&plate(2), 20)), Edit::Remove(20)]
}

#[test]
fn a_replacement_changes_its_own_sixteen_bytes_only() {
    let ids = [10, 20, 30, 1000];
    for v in vessels() {
        let whole = sheet(&v, &records(&ids));
        for (index, id) in ids.iter().enumerate() {
            for new in [with_id(&member(7), *id), with_id(&plate(1), *id)] {
                for room in [0, 5, 16, 40] {
                    let before = lend(&whole, room);
                    let mut after = before.clone();
                    assert_eq!(after.edit(&put(&new)), Ok(before.length));
                    let mut expected = before.clone();
                    let start = header_bytes(&v) + RECORD_BYTES * index;
                    expected.buffer[start..start + RECORD_BYTES].copy_from_slice(&new.pack());
                    assert_eq!(after, expected);
                    assert_ne!(after, before);
                }
            }
        }
    }
}

#[test]
fn an_insertion_goes_in_at_its_place() {
    let ids = [10, 20, 30];
    for v in vessels() {
        for (new, index) in [(1, 0), (9, 0), (11, 1), (29, 2), (31, 3), (1000, 3)] {
            let mut all = records(&ids);
            let record = with_id(&member(8), new);
            all.insert(index, record.clone());
            let expected = lend(&sheet(&v, &all), 9);
            let mut lent = lend(&sheet(&v, &records(&ids)), RECORD_BYTES + 9);
            let length = header_bytes(&v) + 16 * 4;
            assert_eq!(lent.edit(&put(&record)), Ok(length));
            assert_eq!(lent, expected, "id {new}");
        }
        let mut lent = lend(&sheet(&v, &[]), 16);
        assert_eq!(lent.edit(&put(&plate(4))), Ok(header_bytes(&v) + 16));
        assert_eq!(lent.buffer, sheet(&v, &[plate(4)]));
    }
}

#[test]
fn a_removal_closes_the_gap_and_zeroes_what_it_frees() {
    let ids = [10, 20, 30];
    for v in vessels() {
        for index in 0..3 {
            let mut left = records(&ids);
            left.remove(index);
            let mut expected = sheet(&v, &left);
            expected.extend([0; RECORD_BYTES]);
            expected.extend([LENT; 9]);
            let mut lent = lend(&sheet(&v, &records(&ids)), 9);
            let outcome = lent.edit(&Edit::Remove(ids[index] as u32));
            assert_eq!(outcome, Ok(header_bytes(&v) + 16 * 2));
            assert_eq!(lent.buffer, expected);
        }
        let mut lent = lend(&sheet(&v, &records(&[7])), 0);
        assert_eq!(lent.edit(&Edit::Remove(7)), Ok(header_bytes(&v)));
        assert_eq!(lent.buffer, [sheet(&v, &[]), vec![0; 16]].concat());
    }
}

/// A header of version 2 before and after, byte by byte: the count's bits alone differ.
#[test]
fn the_header_keeps_its_version_and_its_own_fields() {
    let before = [
        0x27, 0xd0, 0x0f, 0xa3, 0xc0, 0x27, 0x10, 0x00, 0x30, 0xd4, 0x00, 0x00, 0x01, 0x86, 0xa0,
        0x09, 0x60, 0x00, 0x00, 0x00,
    ];
    let mut after = before;
    after[11] = 0x08;
    assert_eq!(sheet(&vessel_v2(), &[]), before);
    let mut lent = lend(&before, 16);
    assert_eq!(lent.edit(&put(&plate(3))), Ok(36));
    assert_eq!(lent.buffer, [&after[..], &plate(3).pack()].concat());
    assert_eq!(lent.edit(&Edit::Remove(1)), Ok(20));
    assert_eq!(lent.buffer, [&before[..], &[0; 16]].concat());
}

/// Also where the sheet fills its buffer, as the freed bytes are used again.
#[test]
fn the_next_insertion_uses_the_freed_bytes() {
    for v in vessels() {
        let mut lent = lend(&sheet(&v, &records(&[10, 20, 30])), 0);
        let new = with_id(&plate(2), 40);
        let header = header_bytes(&v);
        assert_eq!(refused(&lent, &put(&new)), Some((11, 0)));
        assert_eq!(lent.edit(&Edit::Remove(10)), Ok(header + 16 * 2));
        assert_eq!(lent.edit(&put(&new)), Ok(header + 16 * 3));
        let mut left = records(&[10, 20, 30]);
        left.remove(0);
        left.push(new);
        assert_eq!(lent.buffer, sheet(&v, &left));
    }
}

#[test]
fn put_then_remove_restores_the_sheet() {
    for new in [5, 15, 35] {
        let before = lend(&v(&[10, 20, 30]), 30);
        let mut after = before.clone();
        after.edit(&put(&with_id(&plate(2), new))).expect("room");
        assert_eq!(after.edit(&Edit::Remove(new as u32)), Ok(before.length));
        let mut expected = before.clone();
        expected.buffer[before.length..before.length + RECORD_BYTES].fill(0);
        assert_eq!(after, expected);
    }
}

#[test]
fn remove_then_put_restores_the_sheet() {
    let ids = [10, 20, 30];
    for record in records(&ids) {
        let before = lend(&v(&ids), 3);
        let mut after = before.clone();
        let id = record.get("id") as u32;
        after.edit(&Edit::Remove(id)).expect("it is there");
        assert_eq!(after.edit(&put(&record)), Ok(before.length));
        assert_eq!(after, before);
    }
}

#[test]
fn number_1_when_the_stated_length_exceeds_the_buffer() {
    let whole = v(&[10, 20]);
    for edit in both_edits() {
        for past in [1, 16, 1 << 20] {
            let mut lent = lend(&whole, 4);
            lent.length = lent.buffer.len() + past;
            assert_eq!(refused(&lent, &edit), Some((1, 0)));
            // First of all: before the version is looked at.
            lent.buffer[0] = 0xff;
            assert_eq!(refused(&lent, &edit), Some((1, 0)));
        }
        // A sound sheet beside a length that the buffer has not.
        let mut lent = lend(&whole, 0);
        lent.buffer.pop();
        assert_eq!(refused(&lent, &edit), Some((1, 0)));
        let nothing = lend(&[], 0);
        assert_eq!(refused(&nothing, &edit), Some((1, 0)));
    }
}

/// Also where the buffer has the rest of the header.
#[test]
fn number_1_when_the_stated_length_is_under_the_header() {
    for edit in both_edits() {
        for (v, bytes) in [(vessel_v(), 12), (vessel_v2(), 20)] {
            for length in 0..bytes {
                let mut lent = lend(&sheet(&v, &[]), 16);
                lent.length = length;
                assert_eq!(refused(&lent, &edit), Some((1, 0)));
            }
        }
        // Of a version that is not there, 2 from twelve bytes on.
        let mut lent = lend(&sheet(&with(&vessel_v2(), &[("version", 15)]), &[]), 16);
        for length in 0..20 {
            lent.length = length;
            let number = if length < 12 { 1 } else { 2 };
            assert_eq!(refused(&lent, &edit), Some((number, 0)));
        }
    }
}

/// Whatever the edit and the room, the sheet is turned away with this.
#[track_caller]
fn is_turned_away(sheet: &[u8], refusal: (usize, usize)) {
    for edit in [
        put(&with_id(&plate(2), 10)),
        put(&with_id(&plate(2), 999)),
        Edit::Put([u32::MAX; 13]),
        Edit::Put([1; 13]),
        Edit::Remove(10),
        Edit::Remove(999),
    ] {
        for room in [0, 16] {
            assert_eq!(refused(&lend(sheet, room), &edit), Some(refusal));
        }
    }
}

/// The vessel with three records, one field of one of them changed.
fn changed(v: &Form, index: usize, field: (&str, i128)) -> Vec<u8> {
    let mut all = records(&[10, 20, 30]);
    all[index] = with(&all[index], &[field]);
    sheet(v, &all)
}

/// The table's own on the sheet, for both edits, before anything is said of the
/// new record, of an id that is not there or of the room. Of 5 nothing is said.
#[test]
fn the_sheet_is_turned_away_first() {
    let header = |field: (&str, i128)| sheet(&with(&vessel_v(), &[field]), &records(&[10]));
    let header_2 = |field: (&str, i128)| sheet(&with(&vessel_v2(), &[field]), &records(&[10]));
    is_turned_away(&header(("version", 15)), (2, 0));
    is_turned_away(&header_2(("version", 0)), (2, 0));
    is_turned_away(&header(("L", 3999)), (3, 2));
    is_turned_away(&header(("zero", 1)), (3, 9));
    is_turned_away(&header_2(("zero", 4)), (3, 9));
    is_turned_away(&header_2(("ZDB", 0)), (3, 10));
    is_turned_away(&header_2(("depth", 99)), (3, 11));
    is_turned_away(&header_2(("last_zero", 1)), (3, 12));
    is_turned_away(&header_2(("depth", 228)), (9, 0));
    is_turned_away(&[v(&[10, 20]), vec![0]].concat(), (4, 0));
    is_turned_away(&header_2(("n", 1))[..28], (4, 0));
    is_turned_away(&v(&[10, 20])[..28], (4, 0));
    let v = vessel_v();
    is_turned_away(&changed(&v, 2, ("kind", 9)), (6, 2));
    is_turned_away(&changed(&v, 1, ("T", 0)), (7, 32 + 6));
    is_turned_away(&changed(&v, 2, ("zero", 1)), (7, 64 + 12));
    is_turned_away(&changed(&v, 1, ("id", 10)), (8, 1));
    is_turned_away(&changed(&v, 2, ("id", 20)), (8, 2));
}

/// With a fault behind the header too, and after a fault in it.
#[test]
fn a_slender_hull_is_turned_away_between_3_and_4() {
    for slender in [hull(10_501, 60, 300), hull(7501, 120, 300)] {
        let whole = sheet(&slender, &records(&[10, 20, 30]));
        is_turned_away(&whole, (9, 0));
        is_turned_away(&whole[..40], (9, 0));
        is_turned_away(&[whole, vec![0; 16]].concat(), (9, 0));
        for fault in [("kind", 9), ("T", 0), ("id", 10)] {
            is_turned_away(&changed(&slender, 1, fault), (9, 0));
        }
        let faulty = with(&slender, &[("last_zero", 1)]);
        is_turned_away(&sheet(&faulty, &records(&[10])), (3, 12));
    }
}

/// No edit moves L, the wave height or the depth: at the limit a hull stays at it.
#[test]
fn an_edit_keeps_a_hull_as_slender_as_it_was() {
    for v in [
        hull(10_500, 60, 300),
        hull(7500, 120, 300),
        hull(13_500, 0, 100),
    ] {
        let mut lent = lend(&sheet(&v, &records(&[10, 20])), 16);
        assert_eq!(lent.edit(&put(&with_id(&plate(2), 15))), Ok(68));
        assert_eq!(lent.edit(&put(&with_id(&member(8), 10))), Ok(68));
        for (id, length) in [(15, 52), (20, 36), (10, 20)] {
            assert_eq!(lent.edit(&Edit::Remove(id)), Ok(length));
        }
        assert_eq!(lent.buffer[..20], v.pack());
    }
}

/// Bytes past the stated length are no part of the sheet.
#[test]
fn only_the_stated_length_is_read() {
    let mut lent = lend(&v(&[10, 20]), 0);
    lent.length = 28;
    assert_eq!(refused(&lent, &both_edits()[0]), Some((4, 0)));
    lent.buffer[..12].copy_from_slice(&v(&[10])[..12]);
    assert_eq!(refused(&lent, &Edit::Remove(20)), Some((10, 0)));
    let mut expected = v(&[10]);
    expected.extend(with_id(&plate(4), 20).pack());
    expected[..12].copy_from_slice(&v(&[10, 20])[..12]);
    assert_eq!(lent.edit(&put(&with_id(&plate(4), 20))), Ok(44));
    assert_eq!(lent.buffer, expected);
}

#[test]
fn number_6_has_n_as_its_record() {
    for n in [0, 1, 2, 5, 400] {
        let ids: Vec<i128> = (1..=n).collect();
        let lent = lend(&v(&ids), 16);
        for kind in [0, 9, 15, 16, 17, 300, 65_537, u32::MAX] {
            // At an id that is there and at one that is not: always n.
            for id in [1, 500] {
                let mut new = numbers(&with_id(&plate(2), id));
                new[0] = kind;
                assert_eq!(refused(&lent, &Edit::Put(new)), Some((6, n as usize)));
            }
        }
    }
}

/// Each field of each kind one past each end of its values, and far past it.
#[test]
fn number_7_has_n_as_its_record() {
    let lent = lend(&v(&[10, 20, 30]), 16);
    let ballasted = |kind| with(&plate(kind), &[("z", 5), ("ballast", 1), ("zL", 9)]);
    let mut forms: Vec<Form> = (1..=4).map(plate).collect();
    forms.extend((1..=4).map(ballasted));
    forms.extend((5..=8).map(member));
    for form in forms {
        let form = with_id(&form, 20);
        for (index, (name, width)) in form.layout.iter().enumerate().skip(1) {
            let allowed = in_record(&form, name);
            let mut outside = vec![allowed.highest() + 1, 1 << width, 1 << 31];
            outside.push(i128::from(u32::MAX));
            outside.push(form.get(name) + (1 << 20));
            if allowed.lowest() > 0 {
                outside.push(allowed.lowest() - 1);
            }
            for value in outside {
                let mut new = numbers(&form);
                new[index] = value as u32;
                let place = 32 * 3 + index + 1;
                assert_eq!(
                    refused(&lent, &Edit::Put(new)),
                    Some((7, place)),
                    "{name} {value}"
                );
            }
        }
    }
}

#[test]
fn a_plate_has_nothing_past_its_cargo() {
    let lent = lend(&v(&[10, 20]), 16);
    for kind in 1..=4 {
        for id in [10, 15] {
            for past in [[1, 0], [0, 1], [u32::MAX, 1], [0, u32::MAX], [1 << 20, 0]] {
                let mut new = numbers(&with_id(&plate(kind), id));
                new[11..].copy_from_slice(&past);
                assert_eq!(refused(&lent, &Edit::Put(new)), Some((7, 64 + 12)));
            }
        }
    }
}

#[test]
fn the_first_faulty_field_of_the_new_record_is_named() {
    let lent = lend(&v(&[]), 16);
    let mut new = numbers(&with(&plate(2), &[("S", 99), ("cargo", 1)]));
    new[12] = 7;
    assert_eq!(refused(&lent, &Edit::Put(new)), Some((7, 5)));
    new[0] = 0;
    assert_eq!(refused(&lent, &Edit::Put(new)), Some((6, 0)));
    // The ranges rest on the numbers as they are given.
    let under = with(&plate(2), &[("z", 200), ("ballast", 1), ("zL", 199)]);
    assert_eq!(refused(&lent, &put(&under)), Some((7, 10)));
    let mut no_flag = numbers(&under);
    no_flag[8] = 257;
    assert_eq!(refused(&lent, &Edit::Put(no_flag)), Some((7, 9)));
}

#[test]
fn number_10_id_not_there() {
    let lent = lend(&v(&[10, 20, 30]), 16);
    let far = [20 + 1024, 20 + 65_536, 20 + (1 << 31), u32::MAX];
    for id in [0, 1, 9, 11, 29, 31, 1000, 1001].into_iter().chain(far) {
        assert_eq!(refused(&lent, &Edit::Remove(id)), Some((10, 0)));
    }
    assert_eq!(refused(&lent, &Edit::Remove(20)), None);
    assert_eq!(refused(&lend(&v(&[]), 0), &Edit::Remove(1)), Some((10, 0)));
}

#[test]
fn number_11_exactly_when_the_buffer_has_no_room() {
    for v in vessels() {
        for ids in [&[][..], &[10], &[10, 20, 30]] {
            for room in 0..40 {
                let lent = lend(&sheet(&v, &records(ids)), room);
                let expected = (room < 16).then_some((11, 0));
                for id in [5, 15, 500] {
                    assert_eq!(refused(&lent, &put(&with_id(&plate(2), id))), expected);
                }
                // Never on a replacement.
                for id in ids {
                    assert_eq!(refused(&lent, &put(&with_id(&plate(2), *id))), None);
                }
            }
        }
    }
}

#[test]
fn number_11_exactly_when_n_stands_at_its_highest() {
    for v in vessels() {
        for n in [398, 399, 400] {
            let ids: Vec<i128> = (2..n + 2).collect();
            let expected = (n == 400).then_some((11, 0));
            for room in [16, 17, 100] {
                let lent = lend(&sheet(&v, &records(&ids)), room);
                for id in [1, 500, 1000] {
                    assert_eq!(refused(&lent, &put(&with_id(&plate(2), id))), expected);
                }
                for id in [2, 200, n + 1] {
                    assert_eq!(refused(&lent, &put(&with_id(&plate(2), id))), None);
                }
            }
        }
        let ids: Vec<i128> = (2..402).collect();
        let mut lent = lend(&sheet(&v, &records(&ids)), 16);
        let header = header_bytes(&v);
        assert_eq!(lent.edit(&Edit::Remove(401)), Ok(header + 16 * 399));
        assert_eq!(lent.edit(&put(&plate(2))), Ok(header + 16 * 400));
        assert_eq!(
            refused(&lent, &put(&with_id(&plate(2), 401))),
            Some((11, 0))
        );
    }
}

#[test]
fn the_new_record_is_turned_away_before_the_room() {
    let lent = lend(&v(&[10]), 0);
    let new = with(&plate(2), &[("id", 5), ("T", 0)]);
    assert_eq!(refused(&lent, &put(&new)), Some((7, 32 + 6)));
    let new = with(&plate(2), &[("id", 5), ("kind", 9)]);
    assert_eq!(refused(&lent, &put(&new)), Some((6, 1)));
    assert_eq!(refused(&lent, &put(&with_id(&plate(2), 5))), Some((11, 0)));
}

/// A sheet beside a map of its packed records.
struct Mapped {
    buffer: Vec<u8>,
    length: usize,
    version: &'static Version,
    map: BTreeMap<u32, Vec<u8>>,
}

impl Mapped {
    /// None where the sheet is turned away.
    fn of(lent: Lent) -> Option<Mapped> {
        let Lent { buffer, length } = lent;
        let (header, _) = read_sheet(&buffer, length).ok()?;
        let version = header.version();
        let mut map = BTreeMap::new();
        for record in buffer[version.bytes..length].chunks(RECORD_BYTES) {
            let id = u32::from(record[0] & 0xf) << 6 | u32::from(record[1] >> 2);
            map.insert(id, record.to_vec());
        }
        Some(Mapped {
            buffer,
            length,
            version,
            map,
        })
    }

    /// Does the edit on both and says what it does; nothing where it is refused.
    fn edit(&mut self, change: &Edit) -> Option<&'static str> {
        let before = self.buffer.clone();
        let Ok(length) = edit(&mut self.buffer, self.length, change) else {
            assert_eq!(self.buffer, before);
            return None;
        };
        let does = change_map(&mut self.map, change);
        self.holds_the_map(length);
        self.moves_only_its_own(&before, length);
        self.length = length;
        Some(does)
    }

    fn holds_the_map(&self, length: usize) {
        let header = self.version.bytes;
        let records: Vec<Vec<u8>> = self.map.values().cloned().collect();
        assert_eq!(length, header + RECORD_BYTES * records.len());
        assert_eq!(self.buffer[header..length], records.concat());
        let (read, _) = read_sheet(&self.buffer, length).expect("still sound");
        assert_eq!(read.n as usize, records.len());
    }

    /// Of the header only the count's nine bits differ, of the rest only the bytes
    /// that the longer of the two sheets takes.
    fn moves_only_its_own(&self, before: &[u8], length: usize) {
        let (buffer, header) = (&self.buffer, self.version.bytes);
        assert_eq!(buffer[..10], before[..10]);
        assert_eq!(buffer[10] & 0xf0, before[10] & 0xf0);
        assert_eq!(buffer[11] & 7, before[11] & 7);
        assert_eq!(buffer[12..header], before[12..header]);
        let longer = self.length.max(length);
        assert_eq!(buffer[longer..], before[longer..]);
        assert!(buffer[length..longer].iter().all(|byte| *byte == 0));
    }
}

fn change_map(map: &mut BTreeMap<u32, Vec<u8>>, change: &Edit) -> &'static str {
    match change {
        Edit::Put(numbers) => {
            let form = if numbers[0] <= 4 { plate(1) } else { member(5) };
            let layout = form.layout;
            let values = numbers.map(i128::from)[..layout.len()].to_vec();
            let packed = Form { layout, values }.pack();
            match map.insert(numbers[1], packed) {
                Some(_) => "replaces",
                None => "inserts",
            }
        }
        Edit::Remove(id) => {
            map.remove(id).expect("it is there");
            "removes"
        }
    }
}

/// After any edits the sheet holds what the map holds, and a sheet that passed every
/// refusal still does.
#[test]
fn any_edits_leave_what_a_plain_map_holds() {
    let mut done = BTreeMap::new();
    for (lent, edits) in edit_cases(12).take(1000) {
        let Some(mut mapped) = Mapped::of(lent) else {
            continue;
        };
        for change in edits {
            if let Some(does) = mapped.edit(&change) {
                *done.entry((mapped.version.number, does)).or_insert(0) += 1;
            }
        }
    }
    assert_eq!(done.len(), 3 * VERSIONS.len());
    assert!(done.values().all(|count| *count > 100), "{done:?}");
}
