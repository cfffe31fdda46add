//! Sets of degree 13: lists of 104 beside the oracle's numbers and beside degree 12, and which lengths are
//! refused in which order. tools/test-library runs it.
use njerumoy::{
    allowance, field, field_in_degrees, field_listed, published, rates, sum, Day, ErrorRecord,
    List, Pair, Rates, Refusal, Set, StoredSet, LIST_LENGTH, LIST_LENGTH_13,
};

const LATITUDE: Pair = Pair { sin: 0.6, cos: 0.8 };
const LONGITUDE: Pair = Pair {
    sin: -0.28,
    cos: 0.96,
};
const POLE: Pair = Pair { sin: 1.0, cos: 0.0 };
const OFF_CIRCLE: Pair = Pair { sin: 0.5, cos: 0.5 };
const DAY: Day = Day {
    year: 2027,
    day_of_year: 100,
};

/// Four lists, g, h, g_dot, h_dot.
#[derive(Clone)]
struct Lists([Vec<f32>; 4]);

impl Lists {
    /// The published lists of 2025 with 14 entries more, made by `entry(list, k)`.
    fn longer(entry: impl Fn(usize, f32) -> f32) -> Lists {
        let set = published::WMM2025;
        let mut lists = [set.g, set.h, set.g_dot, set.h_dot].map(<[f32]>::to_vec);
        for (list, entries) in lists.iter_mut().enumerate() {
            entries.extend((0..14).map(|k| entry(list, k as f32)));
        }
        Lists(lists)
    }

    /// The same with entries that are all exact.
    fn thirteen() -> Lists {
        Lists::longer(|list, k| match list {
            0 => 0.25 * (k - 6.0),
            1 => 0.125 * (7.0 - k),
            2 => 0.03125 * (k - 3.0),
            _ => -0.015625 * (k + 1.0),
        })
    }

    /// The first entries of each, so many.
    fn set(&self, lengths: [usize; 4]) -> Set<'_> {
        let [g, h, g_dot, h_dot] = &self.0;
        Set {
            epoch_year: 2025,
            g: &g[..lengths[0]],
            h: &h[..lengths[1]],
            g_dot: &g_dot[..lengths[2]],
            h_dot: &h_dot[..lengths[3]],
        }
    }

    fn whole(&self) -> Set<'_> {
        self.set([LIST_LENGTH_13; 4])
    }
}

fn all(r: &Rates) -> [f32; 7] {
    [r.x, r.y, r.z, r.declination, r.inclination, r.h, r.f]
}

/// What the Rust oracle gives for the same questions, away from a pole and near or at one.
#[test]
fn beside_the_oracle() {
    let lists = Lists::thirteen();
    let set = lists.whole();
    let summed = |theta: Pair| {
        let v = sum(theta, LONGITUDE, 0.9375, 2.5, &set).unwrap();
        [v.x, v.y, v.z].map(f32::to_bits)
    };
    assert_eq!(summed(LATITUDE), [0xc67339e4, 0xc4b3862d, 0xc713b34b]);
    let near_pole = Pair {
        sin: 1.0 / 2048.0,
        cos: 1.0,
    };
    assert_eq!(summed(near_pole), [0xc48c1b68, 0xc2d583be, 0xc73984e9]);
    let record = ErrorRecord {
        epoch_year: 2025,
        ..ErrorRecord::default()
    };
    for (latitude, bits) in [
        (LATITUDE, [0x46d71901, 0xc4c033c6, 0x47002408]),
        (POLE, [0x44de8cf9, 0x4296ed00, 0x475e4efe]),
    ] {
        let f = field(1000.0, latitude, LONGITUDE, DAY, &set).unwrap();
        assert_eq!([f.x, f.y, f.z].map(f32::to_bits), bits);
        let f = field_listed(1000.0, latitude, LONGITUDE, DAY, &set, &[record]).unwrap();
        assert_eq!([f.x, f.y, f.z].map(f32::to_bits), bits);
    }
    let f = field_in_degrees(1000.0, -33.5, 151.25, DAY, &set).unwrap();
    let bits = [0x46bd483d, 0x45a9bba6, 0xc7473bd1];
    assert_eq!([f.x, f.y, f.z].map(f32::to_bits), bits);
    let r = rates(1000.0, LATITUDE, LONGITUDE, DAY, &set).unwrap();
    let bits = [
        0x41ddf477, 0x4297ae93, 0xc0ed0df4, 0x3e24675a, 0xbcf8ff7c, 0x41bbc737, 0x4116ed98,
    ];
    assert_eq!(all(&r).map(f32::to_bits), bits);
}

/// With zeros for the new entries all is as in degree 12, but for the sign of a zero; of an allowance the
/// bound, which is shown to a hundredth.
#[test]
fn zeros_are_degree_12() {
    let lists = Lists::longer(|_, _| 0.0);
    let (longer, set) = (lists.whole(), lists.set([LIST_LENGTH; 4]));
    for latitude in [
        LATITUDE,
        POLE,
        Pair {
            sin: -0.8,
            cos: 0.6,
        },
    ] {
        let ask = |set: &Set| {
            let f = field(1000.0, latitude, LONGITUDE, DAY, set).unwrap();
            let r = rates(1000.0, latitude, LONGITUDE, DAY, set).unwrap();
            let v = sum(latitude, LONGITUDE, 0.9375, 2.5, set).unwrap();
            (f, r, v)
        };
        assert_eq!(ask(&longer), ask(&set));
        let bounds = |set: &Set| {
            let a = allowance(1000.0, latitude, LONGITUDE, DAY, set).unwrap();
            [a.x, a.y, a.z]
        };
        for (a, b) in bounds(&longer).into_iter().zip(bounds(&set)) {
            assert!((a - b).abs() <= 0.0101 * b, "{a} {b}");
        }
    }
}

/// The refusal of a set, by every call that takes one.
fn refused(set: &Set) -> Refusal {
    let record = ErrorRecord {
        epoch_year: 2025,
        ..ErrorRecord::default()
    };
    let refusal = field(0.0, LATITUDE, LONGITUDE, DAY, set).unwrap_err();
    let others = [
        field_listed(0.0, LATITUDE, LONGITUDE, DAY, set, &[record]).unwrap_err(),
        field_in_degrees(0.0, 45.0, 10.0, DAY, set).unwrap_err(),
        allowance(0.0, LATITUDE, LONGITUDE, DAY, set).unwrap_err(),
        rates(0.0, LATITUDE, LONGITUDE, DAY, set).unwrap_err(),
        sum(LATITUDE, LONGITUDE, 1.0, 0.0, set).unwrap_err(),
    ];
    assert_eq!(others, [refusal; 5]);
    refusal
}

/// 90 or 104 for each list, by the bits of a number.
fn lengths_of(mix: usize) -> [usize; 4] {
    [0, 1, 2, 3].map(|list| [LIST_LENGTH, LIST_LENGTH_13][mix >> list & 1])
}

#[test]
fn lists_of_both_lengths() {
    let good = Lists::thirteen();
    let mut spoilt = good.clone();
    for list in &mut spoilt.0 {
        list[0] = f32::NAN;
    }
    for mix in 1..15 {
        for lists in [&good, &spoilt] {
            assert_eq!(refused(&lists.set(lengths_of(mix))), Refusal::Degree);
            for length in [0, 1, 89, 91, 103] {
                for list in 0..4 {
                    let mut lengths = lengths_of(mix);
                    lengths[list] = length;
                    assert_eq!(refused(&lists.set(lengths)), Refusal::Length);
                }
            }
        }
    }
}

#[test]
fn new_entries() {
    let names = [List::G, List::H, List::GDot, List::HDot];
    for (at, list) in names.into_iter().enumerate() {
        for index in LIST_LENGTH..LIST_LENGTH_13 {
            for over in [f32::NAN, f32::INFINITY, -65537.0] {
                let mut lists = Lists::thirteen();
                lists.0[at][index] = over;
                let entry = Refusal::Coefficient { list, index };
                assert_eq!(refused(&lists.whole()), entry);
                // they are no part of a set of degree 12
                let set = lists.set([LIST_LENGTH; 4]);
                assert!(field(0.0, LATITUDE, LONGITUDE, DAY, &set).is_ok());
            }
        }
    }
}

/// After the place, the day and the year of the set, before the entries and the other epoch.
#[test]
fn order() {
    let mut lists = Lists::thirteen();
    lists.0[2][100] = f32::NAN;
    let both = Set {
        epoch_year: 2020,
        ..lists.set(lengths_of(5))
    };
    let unknown = Set {
        epoch_year: 2021,
        ..both
    };
    let no_day = Day {
        year: 2027,
        day_of_year: 366,
    };
    let ask = |height, latitude, longitude, on, set: &Set| {
        field(height, latitude, longitude, on, set)
            .unwrap_err()
            .number()
    };
    assert_eq!(ask(-1001.0, OFF_CIRCLE, OFF_CIRCLE, no_day, &unknown), 1);
    assert_eq!(ask(0.0, OFF_CIRCLE, OFF_CIRCLE, no_day, &unknown), 2);
    assert_eq!(ask(0.0, LATITUDE, OFF_CIRCLE, no_day, &unknown), 3);
    assert_eq!(ask(0.0, LATITUDE, LONGITUDE, no_day, &unknown), 4);
    assert_eq!(ask(0.0, LATITUDE, LONGITUDE, DAY, &unknown), 5);
    assert_eq!(ask(0.0, LATITUDE, LONGITUDE, DAY, &both), 23);
    let of_sum = |theta, lambda, ratio, offset| {
        sum(theta, lambda, ratio, offset, &both)
            .unwrap_err()
            .number()
    };
    assert_eq!(of_sum(OFF_CIRCLE, OFF_CIRCLE, 0.0, 6.0), 9);
    assert_eq!(of_sum(LATITUDE, OFF_CIRCLE, 0.0, 6.0), 3);
    assert_eq!(of_sum(LATITUDE, LONGITUDE, 0.0, 6.0), 10);
    assert_eq!(of_sum(LATITUDE, LONGITUDE, 1.0, 6.0), 11);
    assert_eq!(of_sum(LATITUDE, LONGITUDE, 1.0, 0.0), 23);
}

#[test]
fn a_set_of_degree_13_is_not_stored() {
    let lists = Lists::thirteen();
    assert!(StoredSet::write(&lists.set([LIST_LENGTH; 4])).is_ok());
    for mix in 1..16 {
        let stored = StoredSet::write(&lists.set(lengths_of(mix)));
        assert_eq!(stored, Err(Refusal::Length));
    }
}

#[test]
fn words() {
    assert_eq!(
        (Refusal::Length.number(), Refusal::Degree.number()),
        (6, 23)
    );
    assert_eq!(
        Refusal::Length.to_string(),
        "a list of coefficients is not 90 long, nor 104 where that is taken"
    );
    assert_eq!(
        Refusal::Degree.to_string(),
        "some lists of coefficients are 90 long, the others 104"
    );
}
