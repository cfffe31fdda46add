//! Coefficient sets: published, random, at the caps, tiny, and with faults of length or entry.
use super::rng::Rng;
use super::values::{any_scale, step, NOT_FINITE, SMALL};
use crate::entries::{Set, CAPS};
use crate::sets::WMM_MODELS;
use crate::tables::{N_COEFF, N_COEFF_MAX};

/// The lists of a degree.
pub struct Degree {
    /// The length of a list.
    pub length: usize,
    /// Lengths that are refused beside lists of that length.
    pub others: &'static [usize],
}

pub const DEGREE_12: Degree = Degree {
    length: N_COEFF,
    others: &[0, 1, 89, 91, 128],
};
pub const DEGREE_13: Degree = Degree {
    length: N_COEFF_MAX,
    others: &[0, 1, 89, 90, 91, 103, 105, 128],
};

/// Four lists of this length, each entry made by `entry(list, index)`.
pub fn made(length: usize, mut entry: impl FnMut(usize, usize) -> f32) -> [Vec<f32>; 4] {
    [0, 1, 2, 3].map(|list| (0..length).map(|index| entry(list, index)).collect())
}

/// Four lists of this length with one entry that is not zero.
pub fn alone(length: usize, list: usize, index: usize, value: f32) -> [Vec<f32>; 4] {
    let mut lists = made(length, |_, _| 0.0);
    lists[list][index] = value;
    lists
}

/// The published lists. Entries of degree 13 are of the size that they have on Earth.
fn published(rng: &mut Rng, length: usize, model: usize) -> [Vec<f32>; 4] {
    let mut lists = Set::of(&WMM_MODELS[model]).lists;
    for (list, size) in lists.iter_mut().zip([1.0, 1.0, 0.1, 0.1]) {
        list.resize_with(length, || rng.between(-size, size) as f32);
    }
    lists
}

/// Ways to make four good lists.
pub const GOOD: usize = 16;

pub fn good_lists(rng: &mut Rng, length: usize, way: usize) -> [Vec<f32>; 4] {
    match way {
        0 | 1 => published(rng, length, way),
        2 => made(length, |_, _| 0.0),
        3 => made(length, |_, _| -0.0),
        4 => made(length, |list, _| CAPS[list]),
        5 => made(length, |list, _| -CAPS[list]),
        6 => made(length, |list, _| rng.sign() * CAPS[list]),
        7 => made(length, |list, _| rng.sign() * step(CAPS[list], -1)),
        8 => made(length, |_, _| rng.sign() * f32::from_bits(rng.pick(&SMALL))),
        9 => made(length, |_, _| rng.sign() * f32::from_bits(rng.bits() >> 9)),
        10 => {
            let (list, index) = (rng.below(4), rng.below(length));
            let value = rng.sign() * rng.between(0.0, 1.0) as f32 * CAPS[list];
            alone(length, list, index, value)
        }
        // g_1^0 = -30000, and h_1^1 = 4500
        11 => alone(length, 0, 0, -30000.0),
        12 => alone(length, 1, 1, 4500.0),
        // any scale, subnormals included
        13 => made(length, |list, _| {
            any_scale(rng, -150.0, f64::from(CAPS[list]).log2())
        }),
        // large beside small
        14 => made(length, |list, _| match rng.below(4) {
            0 => rng.sign() * CAPS[list],
            1 => any_scale(rng, -149.0, -120.0),
            2 => rng.sign() * 0.0,
            _ => any_scale(rng, -10.0, f64::from(CAPS[list]).log2()),
        }),
        // even over the whole range
        _ => made(length, |list, _| {
            let cap = f64::from(CAPS[list]);
            rng.between(-cap, cap) as f32
        }),
    }
}

/// Ways to spoil one entry of one list, or to bring it to an end of its range.
pub const ENTRIES: usize = 12;
/// Those of them that spoil it, the first ones.
pub const SPOILT: usize = 8;

pub fn entry(rng: &mut Rng, list: usize, way: usize) -> f32 {
    let cap = CAPS[list];
    match way {
        0 => f32::from_bits(rng.pick(&NOT_FINITE)),
        1 => f32::NAN,
        2 => f32::INFINITY,
        3 => f32::NEG_INFINITY,
        4 => step(cap, 1),
        5 => step(-cap, -1),
        6 => rng.sign() * f32::MAX,
        7 => any_scale(rng, f64::from(cap).log2() + 1.0, 128.0),
        8 => rng.sign() * cap,
        9 => rng.sign() * step(cap, -1),
        10 => f32::from_bits(0x8000_0001),
        _ => -0.0,
    }
}

impl Degree {
    /// Ways to make a set's lists: good ones, other lengths in one list or in all, one entry spoilt in
    /// each list, two entries spoilt, and another length beside a spoilt entry.
    pub const fn sets(&self) -> usize {
        GOOD + 5 * self.others.len() + 4 * ENTRIES + 16 + 4
    }

    /// The index of an entry, often the first or the last.
    pub fn place(&self, rng: &mut Rng) -> usize {
        match rng.below(4) {
            0 => 0,
            1 => self.length - 1,
            _ => rng.below(self.length),
        }
    }

    pub fn lists(&self, rng: &mut Rng, way: usize) -> [Vec<f32>; 4] {
        if way < GOOD {
            return good_lists(rng, self.length, way);
        }
        let base = rng.below(GOOD);
        let mut lists = good_lists(rng, self.length, base);
        let way = way - GOOD;
        if way < 4 * self.others.len() {
            resize(&mut lists[way % 4], self.others[way / 4]);
            return lists;
        }
        let way = way - 4 * self.others.len();
        if way < self.others.len() {
            for list in &mut lists {
                resize(list, self.others[way]);
            }
            return lists;
        }
        let way = way - self.others.len();
        if way < 4 * ENTRIES {
            let list = way % 4;
            lists[list][self.place(rng)] = entry(rng, list, way / 4);
            return lists;
        }
        let way = way - 4 * ENTRIES;
        if way < 16 {
            for list in [way / 4, way % 4] {
                let spoil = rng.below(SPOILT);
                lists[list][self.place(rng)] = entry(rng, list, spoil);
            }
            return lists;
        }
        let other = rng.below(4);
        let spoil = rng.below(SPOILT);
        lists[way - 16][self.place(rng)] = entry(rng, way - 16, spoil);
        resize(&mut lists[other], rng.pick(self.others));
        lists
    }
}

pub fn resize(list: &mut Vec<f32>, length: usize) {
    let last = list.last().copied().unwrap_or(0.0);
    list.resize(length, last);
}

/// A good set of 2020 or 2025, its lists of this length: half of the time the published ones.
pub fn good_set(rng: &mut Rng, length: usize) -> Set {
    let way = match rng.below(8) {
        0..=3 => rng.below(2),
        4 => 13,
        5 => 15,
        _ => 2 + rng.below(GOOD - 2),
    };
    let lists = good_lists(rng, length, way);
    let epoch_year = match way {
        0 | 1 => WMM_MODELS[way].epoch_year,
        _ => rng.pick(&[2020, 2025]),
    };
    Set { epoch_year, lists }
}
