//! Stored sets: the bytes, what is refused and at which place, and what is left alone.
use super::set_of;
use crate::cases::stored::odd_set;
use crate::entries::{Place, Refusal, Set, CAPS};
use crate::models::model_by_epoch_year;
use crate::stored::{field_stored, read_stored, write_stored, STORED_LENGTH};

/// What stands in the lists before they are read into, and in the bytes before a set is written.
const UNREAD: f32 = -12345.0;
const UNWRITTEN: u8 = 0xa5;
/// Where each field begins, and the end.
const STARTS: [usize; 6] = [0, 5, 368, 731, 1094, 1457];

/// The set that bytes are read as, or the refusal. Refused bytes leave the lists alone.
fn read(bytes: &[u8]) -> Result<Set, Refusal> {
    let mut lists = [0; 4].map(|_| vec![UNREAD; 90]);
    let before = lists.clone();
    let [g, h, g_dot, h_dot] = &mut lists;
    let answer = read_stored(bytes, g, h, g_dot, h_dot);
    if answer.is_err() {
        assert_eq!(lists, before, "the lists were written");
    }
    answer.map(|epoch_year| Set { epoch_year, lists })
}

/// What is written of a set into so much room, or the refusal. All other bytes are left alone.
fn written(set: &Set, room: usize) -> Result<Vec<u8>, Refusal> {
    let mut bytes = vec![UNWRITTEN; room];
    let [g, h, g_dot, h_dot] = set.slices();
    let answer = write_stored(set.epoch_year, g, h, g_dot, h_dot, &mut bytes);
    let end = if answer.is_ok() { STORED_LENGTH } else { 0 };
    assert!(bytes[end..].iter().all(|byte| *byte == UNWRITTEN));
    bytes.truncate(end);
    answer.map(|()| bytes)
}

fn stored(set: &Set) -> Vec<u8> {
    written(set, STORED_LENGTH).unwrap()
}

fn published() -> Set {
    Set::of(model_by_epoch_year(2025).unwrap())
}

/// An epoch year and the bits of all entries.
fn bits(set: &Set) -> (i32, Vec<u32>) {
    let entries = set.lists.iter().flatten();
    (set.epoch_year, entries.map(|x| x.to_bits()).collect())
}

fn wrong_tag(place: usize) -> Result<Set, Refusal> {
    Err(Refusal::WrongTag { place })
}

fn wrong_length(place: usize) -> Result<Set, Refusal> {
    Err(Refusal::WrongLength { place })
}

fn wrong_end(place: usize) -> Result<Set, Refusal> {
    Err(Refusal::WrongEnd { place })
}

#[test]
fn the_bytes_by_hand() {
    let set = set_of(&[(0, 0, 1.0), (1, 0, -2.0), (2, 89, 4096.0), (3, 89, -0.0)]);
    let mut expected = [0; 1457];
    let parts: [(usize, &[u8]); 8] = [
        (0, &[1, 2, 0, 0xe4, 0x07]),
        (5, &[2, 0x68, 0x01, 0x00, 0x00, 0x80, 0x3f]),
        (368, &[3, 0x68, 0x01, 0x00, 0x00, 0x00, 0xc0]),
        (731, &[4, 0x68, 0x01]),
        (1090, &[0x00, 0x00, 0x80, 0x45]),
        (1094, &[5, 0x68, 0x01]),
        (1449, &[0x00, 0x00, 0x00, 0x00]),
        (1453, &[0x00, 0x00, 0x00, 0x80]),
    ];
    for (at, part) in parts {
        expected[at..at + part.len()].copy_from_slice(part);
    }
    assert_eq!(stored(&set), expected);
    assert_eq!(read(&expected).map(|set| bits(&set)), Ok(bits(&set)));
    // -29351.8 and -0.1, worked out apart from this program
    let of_2025 = stored(&published());
    assert!(of_2025.starts_with(b"\x01\x02\x00\xe9\x07\x02\x68\x01\x9a\x4f\xe5\xc6"));
    assert!(of_2025.ends_with(b"\x00\x00\x00\x00\xcd\xcc\xcc\xbd"));
}

#[test]
fn there_and_back() {
    for epoch_year in [0, 1, 255, 256, 2020, 2021, 0x7fff, 0x8000, 65535] {
        for lists in [published().lists, odd_set(0x1234).lists] {
            let set = Set { epoch_year, lists };
            let bytes = stored(&set);
            assert_eq!(bytes.len(), 1457);
            let again = read(&bytes).unwrap();
            assert_eq!(bits(&again), bits(&set));
            assert_eq!(stored(&again), bytes);
        }
    }
}

#[test]
fn every_bit() {
    for set in [published(), odd_set(0x1234)] {
        let good = stored(&set);
        let mut taken = 0;
        for bit in 0..8 * STORED_LENGTH {
            let (at, mut bytes) = (bit / 8, good.clone());
            bytes[at] ^= 1 << (bit % 8);
            let field = STARTS.iter().rposition(|start| *start <= at).unwrap();
            let start = STARTS[field];
            match (read(&bytes), at - start) {
                (Ok(set), 3..) => {
                    assert_eq!(stored(&set), bytes, "bit {bit}");
                    taken += 1;
                }
                (Err(refusal), 0) => assert_eq!(Err(refusal), wrong_tag(start)),
                (Err(refusal), 1 | 2) => assert_eq!(Err(refusal), wrong_length(start + 1)),
                (Err(refusal), inside) => {
                    let (list, index) = (field - 1, (inside - 3) / 4);
                    assert_eq!(refusal, Refusal::Coefficient { list, index });
                }
                (Ok(_), _) => panic!("bit {bit} was taken"),
            }
        }
        // both bytes of the year, and some but not all bits of the entries
        assert!(taken > 16 + 360 * 16 && taken < 16 + 360 * 32, "{taken}");
    }
}

#[test]
fn ends() {
    let good = stored(&published());
    for end in 0..STORED_LENGTH {
        assert_eq!(read(&good[..end]), wrong_end(end));
    }
    for more in 1..=8 {
        let longer = [&good[..], &vec![0; more]].concat();
        assert_eq!(read(&longer), wrong_end(STORED_LENGTH));
    }
    // the first place that is wrong
    assert_eq!(read(&[2]), wrong_tag(0));
    assert_eq!(read(&[1]), wrong_end(1));
    assert_eq!(read(&[1, 3]), wrong_end(2));
    assert_eq!(read(&[1, 3, 0]), wrong_length(1));
    assert_eq!(read(&[1, 2, 1]), wrong_length(1));
    assert_eq!(read(&[1, 2, 0, 0xe9]), wrong_end(4));
    assert_eq!(read(&[1, 2, 0, 0xe9, 7, 1]), wrong_tag(5));
}

#[test]
fn tags_and_lengths() {
    let good = stored(&published());
    for start in &STARTS[..5] {
        for (at, expected) in [
            (*start, wrong_tag(*start)),
            (start + 1, wrong_length(start + 1)),
            (start + 2, wrong_length(start + 1)),
        ] {
            for other in (0..=255).filter(|byte| *byte != good[at]) {
                let mut bytes = good.clone();
                bytes[at] = other;
                assert_eq!(read(&bytes), expected, "{at}: {other}");
                // whatever stands behind it
                assert_eq!(read(&bytes[..start + 3]), expected);
                bytes.push(0);
                assert_eq!(read(&bytes), expected);
            }
        }
    }
}

#[test]
fn fields_out_of_place() {
    let good = stored(&published());
    let fields: Vec<&[u8]> = STARTS
        .windows(2)
        .map(|ends| &good[ends[0]..ends[1]])
        .collect();
    for at in 0..5 {
        let next = STARTS[at + 1];
        let mut without = fields.clone();
        without.remove(at);
        let mut doubled = fields.clone();
        doubled.insert(at, fields[at]);
        let expected = if at == 4 {
            [wrong_end(STARTS[at]), wrong_end(next)]
        } else {
            [wrong_tag(STARTS[at]), wrong_tag(next)]
        };
        assert_eq!(
            [without, doubled].map(|fields| read(&fields.concat())),
            expected
        );
        for other in at + 1..5 {
            let mut swapped = fields.clone();
            swapped.swap(at, other);
            assert_eq!(read(&swapped.concat()), wrong_tag(STARTS[at]));
        }
    }
    // lists with a degree more, of 416 bytes: as their lengths say, and as they do not
    let lists = fields[1..]
        .iter()
        .map(|field| [field, &[0; 56][..]].concat());
    let mut longer = [fields[0].to_vec(), lists.collect::<Vec<_>>().concat()].concat();
    assert_eq!(longer.len(), 1681);
    assert_eq!(read(&longer), wrong_tag(368));
    for start in [5, 424, 843, 1262] {
        longer[start + 1..start + 3].copy_from_slice(&[0xa0, 0x01]);
    }
    assert_eq!(read(&longer), wrong_length(6));
}

#[test]
fn entries() {
    for list in 0..4 {
        let cap = CAPS[list];
        let beyond = f32::from_bits(cap.to_bits() + 1);
        for index in 0..90 {
            let over = Refusal::Coefficient { list, index };
            for entry in [f32::NAN, f32::INFINITY, f32::NEG_INFINITY, beyond, -beyond] {
                let mut set = published();
                let at = STARTS[1 + list] + 3 + 4 * index;
                let mut bytes = stored(&set);
                bytes[at..at + 4].copy_from_slice(&entry.to_le_bytes());
                assert_eq!(read(&bytes), Err(over));
                set.lists[list][index] = entry;
                assert_eq!(written(&set, 1457), Err(over));
                // by list, then by index
                bytes[1453..].copy_from_slice(&f32::NAN.to_le_bytes());
                assert_eq!(read(&bytes), Err(over));
                set.lists[3][89] = entry;
                assert_eq!(written(&set, 1457), Err(over));
            }
            for entry in [cap, -cap, 0.0, -0.0, f32::from_bits(1), -f32::from_bits(1)] {
                let set = set_of(&[(list, index, entry)]);
                let again = read(&stored(&set)).unwrap();
                assert_eq!(bits(&again), bits(&set));
            }
        }
    }
}

#[test]
fn entries_come_after_all_places() {
    let mut bytes = stored(&published());
    bytes[8..12].copy_from_slice(&f32::NAN.to_le_bytes());
    assert_eq!(
        read(&bytes),
        Err(Refusal::Coefficient { list: 0, index: 0 })
    );
    assert_eq!(read(&bytes[..1456]), wrong_end(1456));
    assert_eq!(read(&[&bytes[..], &[0]].concat()), wrong_end(1457));
    bytes[1096] = 0;
    assert_eq!(read(&bytes), wrong_length(1095));
    bytes[1094] = 6;
    assert_eq!(read(&bytes), wrong_tag(1094));
    bytes[7] = 0;
    assert_eq!(read(&bytes), wrong_length(6));
}

#[test]
fn lengths_come_first() {
    for bytes in [stored(&published()), vec![2], vec![]] {
        for wrong in 0..4 {
            for length in [0, 1, 89, 91, 180] {
                let mut set = published();
                set.lists[wrong].resize(length, UNREAD);
                let mut lists = set.lists.clone();
                let [g, h, g_dot, h_dot] = &mut lists;
                assert_eq!(
                    read_stored(&bytes, g, h, g_dot, h_dot),
                    Err(Refusal::Length)
                );
                assert_eq!(lists, set.lists);
                // in writing before an entry, a year and no room
                set.lists[(wrong + 1) % 4][0] = f32::NAN;
                set.epoch_year = -1;
                for room in [0, 1456, 1457, 2000] {
                    assert_eq!(written(&set, room), Err(Refusal::Length));
                }
            }
        }
    }
}

#[test]
fn rooms_and_years() {
    let mut set = odd_set(0x1234);
    let bytes = stored(&set);
    for room in 0..1457 {
        assert_eq!(written(&set, room), Err(Refusal::NoRoom));
    }
    for room in [1457, 1458, 1460, 4000] {
        assert_eq!(written(&set, room).as_ref(), Ok(&bytes));
    }
    for year in [-1, 65536, 65537, -65536, 0x1234 + 65536, i32::MIN, i32::MAX] {
        set.epoch_year = year;
        for room in [0, 1456, 1457, 2000] {
            assert_eq!(written(&set, room), Err(Refusal::NoRoom));
        }
    }
    // an entry comes before either
    set.lists[3][89] = f32::INFINITY;
    let over = Refusal::Coefficient { list: 3, index: 89 };
    assert_eq!(written(&set, 0), Err(over));
}

fn good_place() -> Place {
    Place {
        height: 1000.0,
        sin_phi: 0.6,
        cos_phi: 0.8,
        sin_lambda: 0.0,
        cos_lambda: -1.0,
        year: 2027,
        day: 100,
    }
}

#[test]
fn a_field_by_stored_bytes() {
    for epoch_year in [2020, 2025] {
        for lists in [published().lists, odd_set(0x1234).lists] {
            let set = Set { epoch_year, lists };
            for year in [2022, 2027] {
                let place = Place {
                    year,
                    ..good_place()
                };
                assert_eq!(field_stored(&stored(&set), &place), place.field(&set));
            }
        }
    }
}

#[test]
fn a_field_refuses_in_order() {
    type Call = (Vec<u8>, Place);
    let number =
        |(bytes, place): &Call| field_stored(bytes, place).map_or_else(|k| k.number(), |_| 0);
    let good = (stored(&published()), good_place());
    assert_eq!(number(&good), 0);
    type Fault = (u32, fn(&mut Call));
    let faults: [Fault; 11] = [
        (17, |call| call.0[0] = 2),
        (18, |call| call.0[6] = 0),
        (19, |call| call.0.push(0)),
        (7, |call| call.0[11] = 0xff),
        (1, |call| call.1.height = f32::NAN),
        (2, |call| call.1.cos_phi = 0.9),
        (3, |call| call.1.sin_lambda = 1.0),
        (4, |call| call.1.day = 0),
        (5, |call| call.1.year = 2031),
        (5, |call| call.0[4] = 0),
        (8, |call| call.0[3] = 0xe4),
    ];
    for (i, (first, spoil)) in faults.iter().enumerate() {
        let mut call = good.clone();
        spoil(&mut call);
        assert_eq!(number(&call), *first);
        for (_, spoil) in &faults[i + 1..] {
            let mut call = call.clone();
            spoil(&mut call);
            assert_eq!(number(&call), *first);
        }
    }
}
