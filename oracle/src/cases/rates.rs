//! Cases of RATES: those of FIELD, and others with weak sets, whose field is zero or next to it on one
//! day, everywhere or in some places. As for lists of error records, their walks are apart from those of
//! the other kinds.
use super::lists::{self, alone, good_lists, made, Degree};
use super::rng::{plan, plans, singles, Rng, Walk};
use super::values::{any_scale, step, SMALL};
use super::{pairs, Generator};
use crate::entries::{Place, Set, CAPS};
use crate::models::{days_in_year, years_since_epoch};
use crate::tables::{coeff_index, N_MAX};

/// The order of the coefficient at an index.
fn order(index: usize) -> usize {
    let first = (1..=N_MAX).rev().map(|n| coeff_index(n, 0));
    let mut first = first.skip_while(|first| *first > index);
    index - first.next().unwrap_or(0)
}

/// A size whose square is the smallest f32, or rounds to zero, or is a few times the smallest.
fn next_to_zero(rng: &mut Rng) -> f32 {
    any_scale(rng, -75.5, -73.5)
}

/// A size of a coefficient that stays under its cap when five years of any rate are added.
fn large(rng: &mut Rng) -> f32 {
    0.5 * CAPS[0] * rng.between(-1.0, 1.0) as f32
}

/// Ways to make the coefficients of the day, g and h.
pub const FIELDS: usize = 14;

pub fn fields(rng: &mut Rng, length: usize, way: usize) -> [Vec<f32>; 4] {
    let [axis, east] = [coeff_index(1, 0), coeff_index(1, 1)];
    let some_list = rng.below(2);
    match way {
        0 => made(length, |_, _| 0.0),
        1 => made(length, |_, _| -0.0),
        2 => made(length, |_, _| rng.sign() * 0.0),
        // no H at the poles, or on the equator where the sine or the cosine of the longitude is zero
        3 => alone(length, 0, axis, large(rng)),
        4 => alone(length, 0, east, large(rng)),
        5 => alone(length, 1, east, large(rng)),
        6 => made(
            length,
            |_, index| if order(index) == 0 { large(rng) } else { 0.0 },
        ),
        7 => made(
            length,
            |_, index| if order(index) == 1 { 0.0 } else { large(rng) },
        ),
        // at the poles an H next to zero, and a Z that is not
        8 => made(length, |_, index| match order(index) {
            1 => next_to_zero(rng),
            _ => large(rng),
        }),
        9 => alone(
            length,
            some_list,
            rng.pick(&[axis, east]),
            next_to_zero(rng),
        ),
        10 => made(length, |_, _| any_scale(rng, -80.0, -70.0)),
        11 => made(length, |_, _| any_scale(rng, -149.0, -76.0)),
        12 => made(length, |_, _| rng.sign() * f32::from_bits(rng.pick(&SMALL))),
        _ => alone(
            length,
            some_list,
            rng.below(length),
            any_scale(rng, -149.0, -60.0),
        ),
    }
}

/// Ways to make a weak set: coefficients of the day, with rates of every kind.
pub const WEAK_SETS: usize = FIELDS * lists::GOOD;

/// A weak set with lists of this length, and the day on which it is weak: half of the time the first of
/// its epoch.
pub fn weak_set(rng: &mut Rng, length: usize, way: usize) -> (Set, (i32, i32)) {
    let epoch_year = rng.pick(&[2020, 2025]);
    let (year, day) = if rng.once_in(2) {
        (epoch_year, 1)
    } else {
        let year = epoch_year + rng.whole(0, 4);
        (year, rng.whole(1, days_in_year(year)))
    };
    let offset = years_since_epoch(year, day, epoch_year);
    let of_day = fields(rng, length, way / lists::GOOD);
    let mut lists = good_lists(rng, length, way % lists::GOOD);
    let moved = i32::from(rng.once_in(4));
    for list in 0..2 {
        for index in 0..length {
            // with the rate of so many years it is the coefficient of the day, where f32 can be
            let main = of_day[list][index] - offset * lists[2 + list][index];
            lists[list][index] = match moved * rng.whole(-1, 1) {
                0 => main,
                steps => step(main, steps),
            };
        }
    }
    (Set { epoch_year, lists }, (year, day))
}

/// Spoils a set of a degree: by its year, by the length of a list, or by an entry.
fn spoil(rng: &mut Rng, degree: &Degree, set: &mut Set) {
    let list = rng.below(4);
    match rng.below(4) {
        0 => set.epoch_year = if set.epoch_year == 2020 { 2025 } else { 2020 },
        1 => set.epoch_year = rng.pick(&[2015, 2030, 0, -2025, i32::MAX]),
        2 => lists::resize(&mut set.lists[list], rng.pick(degree.others)),
        _ => {
            let way = rng.below(lists::SPOILT);
            set.lists[list][degree.place(rng)] = lists::entry(rng, list, way);
        }
    }
}

/// The walks over the planned places of FIELD, over the weak sets, and over the special parts of the
/// places beside them.
pub struct Walks {
    places: Walk,
    sets: Walk,
    singles: Walk,
}

impl Walks {
    pub fn new(seed: u64, field_ways: &[usize; 5]) -> Walks {
        // numbers of their own: those of the other walks stay as they are
        let mut rng = Rng::new(seed.swap_bytes());
        Walks {
            places: Walk::new(plans(field_ways), &mut rng),
            sets: Walk::new(WEAK_SETS, &mut rng),
            singles: Walk::new(singles(field_ways), &mut rng),
        }
    }
}

impl Generator {
    /// The place and the day of a RATES case. Before it stands a SET line where another set's turn has
    /// come: half of the time a weak one.
    pub fn rates_place(&mut self, out: &mut Vec<u8>) -> Place {
        if self.serves == 0 && self.rng.once_in(2) {
            self.take_weak_set(out);
        }
        match self.weak_day {
            Some(day) if self.serves > 0 => {
                self.serves -= 1;
                self.weak_place(day)
            }
            _ => {
                let place = self.rates_walks.places.turn(&mut self.rng);
                self.place(place, out)
            }
        }
    }

    fn take_weak_set(&mut self, out: &mut Vec<u8>) {
        let way = self.rates_walks.sets.next();
        let degree = self.degree();
        let (mut set, day) = weak_set(&mut self.rng, degree.length, way);
        if self.rng.once_in(4) {
            spoil(&mut self.rng, degree, &mut set);
        }
        self.replay.take(set, out);
        self.serves = 24;
        self.special = false;
        self.published = None;
        self.weak_day = Some(day);
    }

    /// A place, as a rule on the day: with one special part, or often where a weak field is zero.
    pub fn weak_place(&mut self, day: (i32, i32)) -> Place {
        let rng = &mut self.rng;
        let ways = if rng.once_in(3) {
            plan(&self.field_ways, self.rates_walks.singles.next())
        } else {
            let latitude = match rng.below(4) {
                0 => Some(rng.pick(&pairs::POLES)),
                1 => Some(rng.pick(&pairs::EQUATORS)),
                2 => Some(rng.below(pairs::NEAR_POLES)),
                _ => None,
            };
            let longitude = rng.once_in(2).then(|| rng.below(pairs::AXES));
            [None, latitude, longitude, None, None]
        };
        let on_the_day = ways[3..] == [None; 2] && !rng.once_in(8);
        self.place_by(ways, on_the_day.then_some(day))
    }
}
