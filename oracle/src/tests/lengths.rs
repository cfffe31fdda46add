//! The lengths of the four lists: 6 and 23, and 7 at the entries of degree 13.
use crate::agency::read_cof;
use crate::angles::DegreePlace;
use crate::cases::stored::tagged;
use crate::entries::{sum, Place, Refusal, Set, CAPS};
use crate::layout::published_file;
use crate::models::{model_by_epoch_year, WMM_ERROR_MODELS};
use crate::rates::rates;
use crate::records::field_listed;
use crate::stored::{read_stored, write_stored, STORED_LENGTH};

fn number(refusal: Refusal) -> u32 {
    refusal.number()
}

/// The number of a refusal of a set's lists, by each call that takes lists of either degree.
fn of_lists(lists: [Vec<f32>; 4]) -> u32 {
    let set = Set {
        epoch_year: 2020,
        lists,
    };
    let place = Place {
        height: 0.0,
        sin_phi: 0.6,
        cos_phi: 0.8,
        sin_lambda: 0.0,
        cos_lambda: 1.0,
        year: 2020,
        day: 1,
    };
    let in_degrees = DegreePlace {
        height: 0.0,
        latitude_deg: 45.0,
        longitude_deg: 0.0,
        year: 2020,
        day: 1,
    };
    let answers = [
        sum(0.6, 0.8, 0.0, 1.0, 1.0, 0.0, &set.lists).map_or_else(number, |_| 0),
        place.field(&set).map_or_else(number, |_| 0),
        in_degrees.field(&set).map_or_else(number, |_| 0),
        field_listed(&place, &set, &WMM_ERROR_MODELS).map_or_else(number, |_| 0),
        rates(&place, &set).map_or_else(number, |_| 0),
    ];
    assert_eq!(answers, [answers[0]; 5]);
    answers[0]
}

/// 90 or 104 for each list, by the bits of a number.
fn lengths_of(mix: usize) -> [usize; 4] {
    [0, 1, 2, 3].map(|list| if mix >> list & 1 == 0 { 90 } else { 104 })
}

/// Every length of a list beside others of 90, of 104 and of both; with good entries, and with all of
/// one list spoilt.
#[test]
fn lengths_and_degrees() {
    for mix in 0..16 {
        for length in 0..=128 {
            for list in 0..4 {
                let mut lengths = lengths_of(mix);
                lengths[list] = length;
                let expected = match lengths {
                    [90, 90, 90, 90] | [104, 104, 104, 104] => 0,
                    _ if [90, 104].contains(&length) => 23,
                    _ => 6,
                };
                let good = lengths.map(|length| vec![1.0; length]);
                assert_eq!(of_lists(good.clone()), expected, "{lengths:?}");
                for spoilt in 0..4 {
                    let mut lists = good.clone();
                    lists[spoilt].fill(f32::NAN);
                    let expected = if expected == 0 { 7 } else { expected };
                    assert_eq!(of_lists(lists), expected, "{lengths:?}");
                }
            }
        }
    }
}

/// Entries of degree 13 are looked at, and are refused with their place.
#[test]
fn new_entries() {
    let place = |list: usize, index: usize, entry: f32| {
        let mut lists = [0; 4].map(|_| vec![0.0; 104]);
        lists[list][index] = entry;
        sum(1.0, 0.0, 0.0, 1.0, 1.0, 0.0, &lists).err()
    };
    for (list, cap) in CAPS.into_iter().enumerate() {
        let over = f32::from_bits(cap.to_bits() + 1);
        for index in 0..104 {
            for entry in [over, -over, f32::NAN, f32::INFINITY, f32::NEG_INFINITY] {
                let expected = Refusal::Coefficient { list, index };
                assert_eq!(place(list, index, entry), Some(expected));
            }
            assert_eq!(place(list, index, cap), None);
            assert_eq!(place(list, index, -cap), None);
        }
    }
}

/// The readers and the writer take lists of 90 alone.
#[test]
fn what_is_read_and_stored_is_of_degree_12() {
    let file = published_file(2020).unwrap();
    let set = Set::of(model_by_epoch_year(2020).unwrap());
    let stored = tagged(&set);
    for mix in 0..16 {
        let mut lists = set.lists.clone();
        for (list, length) in lists.iter_mut().zip(lengths_of(mix)) {
            list.resize(length, 0.0);
        }
        let expected = if mix == 0 { 0 } else { 6 };
        let [g, h, g_dot, h_dot] = &mut lists;
        let room = &mut [0; STORED_LENGTH];
        let written = write_stored(2020, g, h, g_dot, h_dot, room);
        assert_eq!(written.map_or_else(number, |()| 0), expected);
        let read = read_cof(&file, g, h, g_dot, h_dot);
        assert_eq!(read.map_or_else(number, |_| 0), expected);
        let read = read_stored(&stored, g, h, g_dot, h_dot);
        assert_eq!(read.map_or_else(number, |_| 0), expected);
    }
}
