//! Two sets for the kinds IGRF and IRATES: good ones with anything in the lists that are not read, ones
//! with one fault or two, and weak ones, whose field is zero or next to it on one day.
use super::lists::{self, good_lists, resize, GOOD, SPOILT};
use super::rates::{fields, FIELDS};
use super::rng::Rng;
use super::values::{any_scale, step, NOT_FINITE};
use crate::entries::{Set, CAPS};
use crate::models::{days_in_year, years_since_epoch};
use crate::tables::{N_COEFF, N_COEFF_MAX};

/// The epochs of the profile. Those before the last take two sets.
pub const EPOCHS: [i32; 6] = [2000, 2005, 2010, 2015, 2020, 2025];
const LAST: i32 = 2025;
/// The first rate that must be zero, of degree 9.
pub const ABOVE: usize = 44;

/// Lists in both sets, by their numbers: 0 to 3 of the first, 4 to 7 of the second.
const LISTS: usize = 8;

/// The first and the second set, and what they are for.
pub struct Two {
    pub epoch_year: i32,
    pub length: usize,
    pub sets: [Set; 2],
}

/// The numbers of the lists that are read.
pub fn read_lists(epoch_year: i32) -> [usize; 4] {
    match epoch_year {
        LAST => [0, 1, 2, 3],
        _ => [0, 1, 4, 5],
    }
}

/// What a list that is not read can hold: anything.
fn anything(rng: &mut Rng, list: &mut Vec<f32>) {
    if rng.once_in(2) {
        return;
    }
    if rng.once_in(2) {
        resize(list, rng.pick(&[0, 1, 44, 89, 90, 91, 103, 104, 105, 128]));
    }
    for _ in 0..rng.below(3) {
        if !list.is_empty() {
            let index = rng.below(list.len());
            list[index] = rng.pick(&[f32::NAN, f32::INFINITY, -1e30, 65537.0, 4097.0, 1.0]);
        }
    }
    if rng.once_in(4) {
        list.fill(f32::from_bits(rng.pick(&NOT_FINITE)));
    }
}

impl Two {
    /// Good sets: the second is the first, or near to it, or any other.
    pub fn good(rng: &mut Rng, epoch_year: i32, length: usize) -> Two {
        let ways = [rng.below(GOOD), rng.below(GOOD)];
        let ways = ways.map(|way| if rng.once_in(2) { way } else { way % 2 });
        let first = good_lists(rng, length, ways[0]);
        let second = match rng.below(4) {
            0 => first.clone(),
            1 => [0, 1, 2, 3].map(|list| moved(rng, &first[list], CAPS[list])),
            _ => good_lists(rng, length, ways[1]),
        };
        Two::of(rng, epoch_year, length, [first, second])
    }

    /// These lists with the years that they must have. Rates that must be zero become so, and lists that
    /// are not read may hold anything.
    fn of(rng: &mut Rng, epoch_year: i32, length: usize, lists: [[Vec<f32>; 4]; 2]) -> Two {
        let mut year = epoch_year;
        let sets = lists.map(|lists| {
            let set = Set {
                epoch_year: year,
                lists,
            };
            year += 5;
            set
        });
        let mut two = Two {
            epoch_year,
            length,
            sets,
        };
        if epoch_year == LAST {
            for rates in &mut two.sets[0].lists[2..] {
                rates[ABOVE..].fill_with(|| rng.sign() * 0.0);
            }
            two.sets[1].epoch_year = rng.pick(&[2030, 2030, 2025, 2020, 0, i32::MIN, i32::MAX]);
        }
        for number in (0..LISTS).filter(|number| !read_lists(epoch_year).contains(number)) {
            anything(rng, two.list(number));
        }
        two
    }

    fn list(&mut self, number: usize) -> &mut Vec<f32> {
        &mut self.sets[number / 4].lists[number % 4]
    }

    /// Puts a value in a list, if it has the place.
    fn put(&mut self, number: usize, index: usize, value: f32) {
        if let Some(entry) = self.list(number).get_mut(index) {
            *entry = value;
        }
    }

    fn other_degree(&self) -> usize {
        N_COEFF + N_COEFF_MAX - self.length
    }

    /// Another length in a list.
    fn spoil_length(&mut self, number: usize, way: usize) {
        let lengths = [0, 1, 89, 91, 103, 105, 128, self.other_degree()];
        resize(self.list(number), lengths[way]);
    }

    /// An entry of a list spoilt, or at an end of its range. Rates are so where they may be other than
    /// zero, as a rule.
    fn spoil_entry(&mut self, rng: &mut Rng, number: usize, way: usize) {
        let rates = number % 4 >= 2;
        let last = if rates && !rng.once_in(4) {
            ABOVE - 1
        } else {
            self.length - 1
        };
        let between = rng.below(last);
        let index = rng.pick(&[0, last, between, between]);
        let value = lists::entry(rng, number % 4, way);
        self.put(number, index, value);
    }

    /// A rate at the end of degree 8 or above it.
    fn put_rate(&mut self, rng: &mut Rng, way: usize) {
        let (list, way) = (2 + way % 2, way / 2);
        let (place, way) = (way % RATE_PLACES, way / RATE_PLACES);
        let between = ABOVE + rng.below(self.length - ABOVE);
        let index = [ABOVE - 1, ABOVE, between, N_COEFF - 1, self.length - 1][place];
        let value = rate(rng, way);
        self.put(list, index, value);
    }

    /// Another year for a set.
    fn put_year(&mut self, set: usize, way: usize) {
        let right = self.epoch_year + 5 * set as i32;
        let years = [
            right + 5,
            right - 5,
            right + 1,
            right - 1,
            right + 65536,
            -right,
            0,
            2025,
            i32::MIN,
            i32::MAX,
        ];
        self.sets[set].epoch_year = years[way];
    }

    /// Both degrees among the lists that are read: each is of the other degree, by a bit.
    fn mix(&mut self, mix: usize) {
        let (length, other) = (self.length, self.other_degree());
        for (bit, number) in read_lists(self.epoch_year).into_iter().enumerate() {
            let list = self.list(number);
            if mix >> bit & 1 == 1 && list.len() == length {
                resize(list, other);
            }
        }
    }

    /// One fault. Some do no harm: in a list that is not read, at an end of a range, a rate of -0.
    fn spoil(&mut self, rng: &mut Rng, way: usize) {
        let mut way = way;
        for (kind, ways) in FAULTS {
            if way >= ways {
                way -= ways;
                continue;
            }
            return match kind {
                Fault::Length => self.spoil_length(way % LISTS, way / LISTS),
                Fault::Entry => self.spoil_entry(rng, way % LISTS, way / LISTS),
                Fault::Rate => self.put_rate(rng, way),
                Fault::Year => self.put_year(way % 2, way / 2),
                Fault::Mix => self.mix(1 + way),
            };
        }
    }

    /// One of eight kinds of a fault that does harm where the set is read.
    fn spoil_by(&mut self, rng: &mut Rng, kind: usize) {
        let read = read_lists(self.epoch_year);
        let [early, late] = [read[rng.below(2)], read[2 + rng.below(2)]];
        let entry = rng.below(SPOILT);
        match kind {
            0 => self.spoil_length(early, rng.below(7)),
            1 => self.spoil_length(late, rng.below(7)),
            2 => self.mix(1 + rng.below(14)),
            3 => {
                let [list, place] = [rng.below(2), 1 + rng.below(RATE_PLACES - 1)];
                let value = 2 + rng.below(RATES - 2);
                self.put_rate(rng, list + 2 * (place + RATE_PLACES * value));
            }
            4 => self.spoil_entry(rng, early, entry),
            5 => self.spoil_entry(rng, late, entry),
            set => self.put_year(set - 6, rng.below(7)),
        }
    }
}

/// Places of `put_rate`, and values of `rate`: the first two are zeros.
const RATE_PLACES: usize = 5;
const RATES: usize = 10;

fn rate(rng: &mut Rng, way: usize) -> f32 {
    match way {
        0 => 0.0,
        1 => -0.0,
        2 => f32::from_bits(1),
        3 => -f32::from_bits(1),
        4 => any_scale(rng, -149.0, 12.0),
        5 => 0.1,
        6 => f32::from_bits(rng.pick(&NOT_FINITE)),
        7 => rng.sign() * CAPS[2],
        8 => rng.sign() * step(CAPS[2], 1),
        _ => rng.sign() * f32::MAX,
    }
}

/// Entries near to these, under their cap.
fn moved(rng: &mut Rng, list: &[f32], cap: f32) -> Vec<f32> {
    let near = |x: &f32| (x + rng.between(-100.0, 100.0) as f32).clamp(-cap, cap);
    list.iter().map(near).collect()
}

#[derive(Copy, Clone)]
enum Fault {
    Length,
    Entry,
    Rate,
    Year,
    Mix,
}

/// The kinds of a fault, each with the number of its ways.
const FAULTS: [(Fault, usize); 5] = [
    (Fault::Length, 8 * LISTS),
    (Fault::Entry, lists::ENTRIES * LISTS),
    (Fault::Rate, 2 * RATE_PLACES * RATES),
    (Fault::Year, 20),
    (Fault::Mix, 14),
];
const SINGLE: usize = FAULTS[0].1 + FAULTS[1].1 + FAULTS[2].1 + FAULTS[3].1 + FAULTS[4].1;
/// Every two of the eight kinds that do harm.
const PAIRS: usize = 64;

/// Ways to make special sets: one fault, or two, before 2025 and from then on.
pub const SPECIAL: usize = 2 * (SINGLE + PAIRS);

/// A length of the lists: three times of four 104.
pub fn any_length(rng: &mut Rng) -> usize {
    rng.pick(&[N_COEFF, N_COEFF_MAX, N_COEFF_MAX, N_COEFF_MAX])
}

pub fn special(rng: &mut Rng, way: usize) -> Two {
    let epoch_year = match way % 2 {
        0 => rng.pick(&EPOCHS[..5]),
        _ => LAST,
    };
    let length = any_length(rng);
    let mut two = Two::good(rng, epoch_year, length);
    let way = way / 2;
    if way < SINGLE {
        two.spoil(rng, way);
    } else {
        let way = way - SINGLE;
        two.spoil_by(rng, way % 8);
        two.spoil_by(rng, way / 8);
    }
    two
}

/// Ways to make weak sets: coefficients of the day, with rates of every kind.
pub const WEAK: usize = 2 * FIELDS * GOOD;

/// Weak sets, and the day on which they are weak: half of the time the first of its epoch. One in four has
/// a fault.
pub fn weak(rng: &mut Rng, way: usize) -> (Two, (i32, i32)) {
    let epoch_year = match way % 2 {
        0 => rng.pick(&EPOCHS[..5]),
        _ => LAST,
    };
    let (way, length) = (way / 2, any_length(rng));
    let (year, day) = if rng.once_in(2) {
        (epoch_year, 1)
    } else {
        let year = epoch_year + rng.whole(0, 4);
        (year, rng.whole(1, days_in_year(year)))
    };
    let offset = years_since_epoch(year, day, epoch_year);
    let mut first = good_lists(rng, length, way % GOOD);
    let of_day = fields(rng, length, way / GOOD);
    // sets that are alike are weak on every day
    let alike = epoch_year != LAST && rng.once_in(3);
    let mut second = first.clone();
    for list in 0..2 {
        for index in 0..length {
            let is_zero = alike || epoch_year == LAST && index >= ABOVE;
            let rate = if is_zero { 0.0 } else { first[2 + list][index] };
            let main = of_day[list][index] - offset * rate;
            first[list][index] = main;
            second[list][index] = main + 5.0 * rate;
        }
    }
    let mut two = Two::of(rng, epoch_year, length, [first, second]);
    if rng.once_in(4) {
        let kind = rng.below(8);
        two.spoil_by(rng, kind);
    }
    (two, (year, day))
}
