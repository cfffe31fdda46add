//! Stored sets of either degree: there and back for both forms, each refusal with its place, and which
//! lengths are refused in which order. tools/test-library runs it.
use njerumoy::{
    field, field_stored, field_stored_either, published, Day, EitherSet, List, OwnedSet,
    OwnedSet13, Pair, Refusal, Set, LIST_LENGTH, LIST_LENGTH_13, STORED_LENGTH, STORED_LENGTH_13,
};

/// Where each field of a set of degree 13 begins.
const FIELDS: [usize; 5] = [0, 5, 424, 843, 1262];

const PAIR: Pair = Pair { sin: 0.6, cos: 0.8 };
const DAY: Day = Day {
    year: 2027,
    day_of_year: 100,
};

/// Four lists of 104, all entries different.
fn thirteen() -> [Vec<f32>; 4] {
    [0, 1, 2, 3].map(|list| {
        (0..LIST_LENGTH_13)
            .map(|k| (200 * list + k) as f32 + 0.25)
            .collect()
    })
}

/// The first entries of each, so many.
fn set(lists: &[Vec<f32>; 4], lengths: [usize; 4]) -> Set<'_> {
    let [g, h, g_dot, h_dot] = lists;
    Set {
        epoch_year: 2025,
        g: &g[..lengths[0]],
        h: &h[..lengths[1]],
        g_dot: &g_dot[..lengths[2]],
        h_dot: &h_dot[..lengths[3]],
    }
}

fn lists<'a>(set: &Set<'a>) -> [&'a [f32]; 4] {
    [set.g, set.h, set.g_dot, set.h_dot]
}

/// The bytes of a set, by hand: each list with its own length.
fn bytes_of(set: &Set) -> Vec<u8> {
    let mut bytes = vec![1, 2, 0];
    bytes.extend(u16::try_from(set.epoch_year).unwrap().to_le_bytes());
    for (tag, list) in (2..).zip(lists(set)) {
        bytes.push(tag);
        bytes.extend(u16::try_from(4 * list.len()).unwrap().to_le_bytes());
        bytes.extend(list.iter().flat_map(|x| x.to_le_bytes()));
    }
    bytes
}

fn bits(set: &Set) -> (i32, Vec<u32>) {
    let numbers = lists(set).concat();
    (
        set.epoch_year,
        numbers.into_iter().map(f32::to_bits).collect(),
    )
}

/// By every call that reads either degree, whatever its own.
fn assert_refused(stored: &[u8], refusal: Refusal) {
    let asked = field_stored_either(stored, f32::NAN, PAIR, PAIR, DAY);
    assert_eq!(asked, Err(refusal));
    assert_eq!(EitherSet::read_stored(stored), Err(refusal));
    assert_eq!(
        OwnedSet::<LIST_LENGTH>::read_stored_either(stored),
        Err(refusal)
    );
    assert_eq!(OwnedSet13::read_stored_either(stored), Err(refusal));
}

/// Writes with some bytes more, which stay.
fn written(set: &Set, length: usize) -> Vec<u8> {
    let mut output = vec![0xa5; length + 9];
    set.write_stored_either(&mut output).unwrap();
    assert_eq!(output[length..], [0xa5; 9]);
    output.truncate(length);
    output
}

#[test]
fn there_and_back() {
    let all = thirteen();
    for epoch_year in [0, 255, 256, 2025, 65535] {
        let longer = Set {
            epoch_year,
            ..set(&all, [LIST_LENGTH_13; 4])
        };
        let stored = written(&longer, STORED_LENGTH_13);
        assert_eq!(stored, bytes_of(&longer));
        let read = EitherSet::read_stored(&stored).unwrap();
        assert!(matches!(read, EitherSet::Degree13(_)));
        assert_eq!(bits(&read.as_set()), bits(&longer));
        let owned = OwnedSet13::read_stored_either(&stored).unwrap();
        assert_eq!(EitherSet::Degree13(owned), read);
    }
    for shorter in [published::WMM2025, set(&all, [LIST_LENGTH; 4])] {
        let stored = written(&shorter, STORED_LENGTH);
        assert_eq!(stored, bytes_of(&shorter));
        let mut by_other_call = [0; STORED_LENGTH];
        shorter.write_stored(&mut by_other_call).unwrap();
        assert_eq!(stored, by_other_call);
        let read = EitherSet::read_stored(&stored).unwrap();
        assert_eq!(bits(&read.as_set()), bits(&shorter));
        let owned = OwnedSet::read_stored(&stored).unwrap();
        assert_eq!(EitherSet::Degree12(owned), read);
    }
}

#[test]
fn the_other_degree() {
    let all = thirteen();
    let longer = bytes_of(&set(&all, [LIST_LENGTH_13; 4]));
    let shorter = bytes_of(&set(&all, [LIST_LENGTH; 4]));
    let degree = Refusal::Degree;
    assert_eq!(
        OwnedSet::<LIST_LENGTH>::read_stored_either(&longer),
        Err(degree)
    );
    assert_eq!(OwnedSet13::read_stored_either(&shorter), Err(degree));
    // the call for degree 12 knows no other length
    let length = Refusal::WrongLength { place: 6 };
    assert_eq!(OwnedSet::read_stored(&longer), Err(length));
    // 6 where there is no set of such lists
    assert_eq!(
        OwnedSet::<91>::read_stored_either(&[]),
        Err(Refusal::Length)
    );
}

/// The first list says which form it is, and the others are to be as long.
#[test]
fn lists_of_both_lengths() {
    let all = thirteen();
    for mix in 1..15 {
        let lengths = [0, 1, 2, 3].map(|list| [LIST_LENGTH, LIST_LENGTH_13][mix >> list & 1]);
        let first = lengths[0];
        let other = lengths.iter().position(|&length| length != first).unwrap();
        let place = 5 + other * (3 + 4 * first) + 1;
        let bytes = bytes_of(&set(&all, lengths));
        assert_refused(&bytes, Refusal::WrongLength { place });
        let mut output = [0xa5; STORED_LENGTH_13];
        let refusal = set(&all, lengths).write_stored_either(&mut output);
        assert_eq!(refusal, Err(Refusal::Degree));
        assert_eq!(output, [0xa5; STORED_LENGTH_13]);
    }
}

#[test]
fn tags_and_lengths() {
    let all = thirteen();
    let bytes = bytes_of(&set(&all, [LIST_LENGTH_13; 4]));
    for place in FIELDS {
        let mut other = bytes.clone();
        other[place] += 1;
        assert_refused(&other, Refusal::WrongTag { place });
        let mut other = bytes.clone();
        other[place + 1] += 1;
        assert_refused(&other, Refusal::WrongLength { place: place + 1 });
    }
}

#[test]
fn ends() {
    let all = thirteen();
    let mut bytes = bytes_of(&set(&all, [LIST_LENGTH_13; 4]));
    for place in 0..STORED_LENGTH_13 {
        assert_refused(&bytes[..place], Refusal::WrongEnd { place });
    }
    bytes.push(0);
    let place = STORED_LENGTH_13;
    assert_refused(&bytes, Refusal::WrongEnd { place });
}

#[test]
fn coefficients() {
    let names = [List::G, List::H, List::GDot, List::HDot];
    for (at, list) in names.into_iter().enumerate() {
        for index in [0, 89, 90, 103] {
            let mut all = thirteen();
            all[at][index] = f32::NAN;
            let over = Refusal::Coefficient { list, index };
            let longer = set(&all, [LIST_LENGTH_13; 4]);
            let stored = bytes_of(&longer);
            assert_eq!(EitherSet::read_stored(&stored), Err(over));
            assert_eq!(longer.write_stored_either(&mut []), Err(over));
            // 23 comes before
            let shorter = OwnedSet::<LIST_LENGTH>::read_stored_either(&stored);
            assert_eq!(shorter, Err(Refusal::Degree));
        }
    }
}

#[test]
fn no_room() {
    let all = thirteen();
    let longer = set(&all, [LIST_LENGTH_13; 4]);
    let refused = |set: &Set, room: usize| {
        let mut output = vec![0xa5; room];
        let refusal = set.write_stored_either(&mut output).unwrap_err();
        assert!(output.iter().all(|&byte| byte == 0xa5));
        refusal
    };
    for room in [0, 1, STORED_LENGTH, 1680] {
        assert_eq!(refused(&longer, room), Refusal::NoRoom);
    }
    for room in [0, 1456] {
        assert_eq!(refused(&published::WMM2025, room), Refusal::NoRoom);
    }
    for epoch_year in [-1, 65536] {
        let set = Set {
            epoch_year,
            ..longer
        };
        assert_eq!(refused(&set, STORED_LENGTH_13), Refusal::NoRoom);
    }
    for length in [0, 89, 91, 103] {
        let set = set(&all, [LIST_LENGTH_13, LIST_LENGTH, length, LIST_LENGTH]);
        assert_eq!(refused(&set, 0), Refusal::Length);
    }
}

/// The same answer and the same refusals as of the set itself.
#[test]
fn fields() {
    let all = thirteen();
    let longer = set(&all, [LIST_LENGTH_13; 4]);
    let of_2020 = Set {
        epoch_year: 2020,
        ..longer
    };
    for set in [longer, of_2020, published::WMM2025, published::WMM2020] {
        for height in [1000.0, f32::NAN] {
            let plain = field(height, PAIR, PAIR, DAY, &set);
            let stored = bytes_of(&set);
            let by_bytes = field_stored_either(&stored, height, PAIR, PAIR, DAY);
            assert_eq!(by_bytes, plain);
            if set.g.len() == LIST_LENGTH {
                let shorter = field_stored(&stored, height, PAIR, PAIR, DAY);
                assert_eq!(shorter, plain);
            }
        }
    }
}
