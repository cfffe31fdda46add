//! Stored sets: the bytes of a set, that a set reads back to the same bits and bytes write back the
//! same, each refusal with what it carries, and the field of stored bytes. tools/test-library runs it.
use njerumoy::{
    field, field_stored, published, Day, Field, List, OwnedSet, Pair, Refusal, Set, StoredSet,
    LIST_LENGTH, STORED_LENGTH,
};

const LATITUDE: Pair = Pair { sin: 0.6, cos: 0.8 };
const LONGITUDE: Pair = Pair {
    sin: -0.8,
    cos: 0.6,
};
const OFF_CIRCLE: Pair = Pair { sin: 0.5, cos: 0.5 };
const SET: Set = published::WMM2025;

/// Where each field begins.
const FIELDS: [usize; 5] = [0, 5, 368, 731, 1094];

fn day(year: i32, day_of_year: i32) -> Day {
    Day { year, day_of_year }
}

fn lists<'a>(set: &Set<'a>) -> [&'a [f32]; 4] {
    [set.g, set.h, set.g_dot, set.h_dot]
}

/// The bytes of a set, by hand.
fn bytes_of(set: &Set) -> Vec<u8> {
    let mut bytes = vec![1, 2, 0];
    bytes.extend(u16::try_from(set.epoch_year).unwrap().to_le_bytes());
    for (tag, list) in (2..).zip(lists(set)) {
        bytes.extend([tag, 0x68, 0x01]);
        bytes.extend(list.iter().flat_map(|x| x.to_le_bytes()));
    }
    bytes
}

/// The published set of 2025 with other bytes from a place on.
fn with(place: usize, other: &[u8]) -> Vec<u8> {
    let mut bytes = bytes_of(&SET);
    bytes[place..place + other.len()].copy_from_slice(other);
    bytes
}

/// With another coefficient.
fn with_entry(list: usize, index: usize, x: f32) -> Vec<u8> {
    with(FIELDS[1 + list] + 3 + 4 * index, &x.to_le_bytes())
}

fn bits(set: &Set) -> (i32, Vec<u32>) {
    let numbers = lists(set).concat();
    (
        set.epoch_year,
        numbers.into_iter().map(f32::to_bits).collect(),
    )
}

fn ask(stored: &[u8], on: Day) -> Result<Field, Refusal> {
    field_stored(stored, 1234.5, LATITUDE, LONGITUDE, on)
}

/// By every call that reads. A question that is refused in every part is not looked at.
fn assert_refused(stored: &[u8], refusal: Refusal) {
    assert_eq!(OwnedSet::read_stored(stored), Err(refusal));
    assert_eq!(StoredSet::from_bytes(stored), Err(refusal));
    assert_eq!(ask(stored, day(2025, 1)), Err(refusal));
    let bad = field_stored(stored, f32::NAN, OFF_CIRCLE, OFF_CIRCLE, day(0, 0));
    assert_eq!(bad, Err(refusal));
}

fn assert_round_trip(set: &Set) {
    let by_hand = bytes_of(set);
    let stored = StoredSet::write(set).unwrap();
    assert_eq!(stored.bytes()[..], by_hand[..]);
    assert_eq!(stored.epoch_year(), set.epoch_year);
    assert_eq!(StoredSet::from_bytes(&by_hand), Ok(stored));
    let read = OwnedSet::read_stored(&by_hand).unwrap();
    assert_eq!(bits(&read.as_set()), bits(set));
}

#[test]
fn round_trips() {
    assert_eq!(STORED_LENGTH, bytes_of(&SET).len());
    assert_round_trip(&published::WMM2020);
    assert_round_trip(&SET);
    for epoch_year in [0, 255, 256, 65535] {
        assert_round_trip(&Set { epoch_year, ..SET });
    }
    let least = f32::from_bits(1);
    let ends = [0.0, -0.0, least, -least, f32::MIN_POSITIVE, 4096.0, -4096.0];
    let numbers: [f32; LIST_LENGTH] = core::array::from_fn(|i| ends[i % ends.len()]);
    assert_round_trip(&Set {
        g: &numbers,
        h_dot: &numbers,
        ..SET
    });
}

#[test]
fn bytes_beyond_stay() {
    let mut output = [0xa5; STORED_LENGTH + 9];
    SET.write_stored(&mut output).unwrap();
    let (stored, beyond) = output.split_at(STORED_LENGTH);
    assert_eq!(stored, bytes_of(&SET));
    assert_eq!(beyond, [0xa5; 9]);
}

#[test]
fn tags_and_lengths() {
    for (field, place) in FIELDS.into_iter().enumerate() {
        for tag in (0..=255).filter(|&tag| usize::from(tag) != field + 1) {
            assert_refused(&with(place, &[tag]), Refusal::WrongTag { place });
        }
        for length in [[0, 0], [3, 0], [0x01, 0x68], [0x67, 0x01], [255, 255]] {
            let place = place + 1;
            assert_refused(&with(place, &length), Refusal::WrongLength { place });
        }
    }
}

#[test]
fn ends() {
    let mut bytes = bytes_of(&SET);
    for place in 0..STORED_LENGTH {
        assert_refused(&bytes[..place], Refusal::WrongEnd { place });
    }
    for _ in 0..3 {
        bytes.push(0);
        let place = STORED_LENGTH;
        assert_refused(&bytes, Refusal::WrongEnd { place });
    }
}

#[test]
fn the_first_place_is_told() {
    let mut bytes = with_entry(0, 0, f32::NAN);
    bytes.push(0);
    let place = STORED_LENGTH;
    assert_refused(&bytes, Refusal::WrongEnd { place });
    for place in FIELDS.into_iter().rev() {
        bytes[place + 1] += 1;
        let length = Refusal::WrongLength { place: place + 1 };
        assert_refused(&bytes, length);
        assert_refused(&bytes[..place + 3], length);
        let cut = Refusal::WrongEnd { place: place + 2 };
        assert_refused(&bytes[..place + 2], cut);
        bytes[place] += 1;
        let tag = Refusal::WrongTag { place };
        assert_refused(&bytes, tag);
        assert_refused(&bytes[..place + 1], tag);
    }
}

#[test]
fn coefficients() {
    let rows = [
        (List::G, 65536.0f32),
        (List::H, 65536.0),
        (List::GDot, 4096.0),
        (List::HDot, 4096.0),
    ];
    for (at, (list, cap)) in rows.into_iter().enumerate() {
        for index in 0..LIST_LENGTH {
            let over = Refusal::Coefficient { list, index };
            let above = f32::from_bits(cap.to_bits() + 1);
            for x in [f32::NAN, f32::INFINITY, above, -above] {
                assert_refused(&with_entry(at, index, x), over);
            }
            assert!(OwnedSet::read_stored(&with_entry(at, index, -cap)).is_ok());
        }
    }
}

#[test]
fn writing_is_refused() {
    let refused = |set: &Set, room: usize| {
        let mut output = vec![0xa5; room];
        let refusal = set.write_stored(&mut output).unwrap_err();
        assert!(output.iter().all(|&byte| byte == 0xa5));
        refusal
    };
    for room in 0..STORED_LENGTH {
        assert_eq!(refused(&SET, room), Refusal::NoRoom);
    }
    for epoch_year in [-1, 65536, i32::MIN, i32::MAX] {
        let set = Set { epoch_year, ..SET };
        assert_eq!(refused(&set, STORED_LENGTH), Refusal::NoRoom);
        assert_eq!(StoredSet::write(&set), Err(Refusal::NoRoom));
    }
    let mut rates = SET.g_dot.to_vec();
    rates[40] = f32::INFINITY;
    let over = Refusal::Coefficient {
        list: List::GDot,
        index: 40,
    };
    let bad_entry = Set {
        epoch_year: -1,
        g_dot: &rates,
        ..SET
    };
    assert_eq!(refused(&bad_entry, 0), over);
    assert_eq!(StoredSet::write(&bad_entry), Err(over));
    let short = Set {
        h_dot: &SET.h_dot[..89],
        ..bad_entry
    };
    assert_eq!(refused(&short, 0), Refusal::Length);
    assert_eq!(StoredSet::write(&short), Err(Refusal::Length));
}

/// The same answer and the same refusals as of the set itself.
#[test]
fn fields_of_stored_bytes() {
    let of_2030 = Set {
        epoch_year: 2030,
        ..SET
    };
    let of_2020 = published::WMM2020;
    let first = day(2025, 1);
    let rows = [
        (0, 1234.5, LATITUDE, LONGITUDE, first, SET),
        (0, -7.0, LONGITUDE, LATITUDE, day(2029, 365), SET),
        (0, 0.0, LATITUDE, LONGITUDE, day(2024, 366), of_2020),
        (1, -1001.0, OFF_CIRCLE, OFF_CIRCLE, day(2025, 0), of_2030),
        (2, 0.0, OFF_CIRCLE, OFF_CIRCLE, day(2025, 0), of_2030),
        (3, 0.0, LATITUDE, OFF_CIRCLE, day(2025, 0), of_2030),
        (4, 0.0, LATITUDE, LONGITUDE, day(2025, 366), of_2030),
        (5, 0.0, LATITUDE, LONGITUDE, day(2030, 1), of_2030),
        (5, 0.0, LATITUDE, LONGITUDE, first, of_2030),
        (8, 0.0, LATITUDE, LONGITUDE, first, of_2020),
    ];
    for (number, height, latitude, longitude, on, set) in rows {
        let plain = field(height, latitude, longitude, on, &set);
        assert_eq!(plain.map_or_else(|refusal| refusal.number(), |_| 0), number);
        let by_bytes = field_stored(&bytes_of(&set), height, latitude, longitude, on);
        assert_eq!(by_bytes, plain);
        let stored = StoredSet::write(&set).unwrap();
        assert_eq!(stored.field(height, latitude, longitude, on), plain);
    }
}

#[test]
fn words() {
    let says = |refusal: Refusal, number, words: &str| {
        assert_eq!(refusal.number(), number);
        assert_eq!(refusal.to_string(), words);
    };
    says(
        Refusal::WrongTag { place: 5 },
        17,
        "byte 5 of the stored set is not the tag that is due",
    );
    says(
        Refusal::WrongLength { place: 6 },
        18,
        "the length at byte 6 of the stored set is not that of its field",
    );
    says(
        Refusal::WrongEnd { place: 1456 },
        19,
        "the stored set is cut short: it ends before byte 1456",
    );
    says(
        Refusal::WrongEnd { place: 1457 },
        19,
        "the stored set is cut short before byte 1457, or that byte is left over",
    );
    says(
        Refusal::WrongEnd { place: 1680 },
        19,
        "the stored set is cut short: it ends before byte 1680",
    );
    says(
        Refusal::WrongEnd { place: 1681 },
        19,
        "byte 1681 is left over behind the stored set",
    );
    says(
        Refusal::NoRoom,
        20,
        "there is no room for the stored set, or its epoch year is not from 0 to 65535",
    );
}
