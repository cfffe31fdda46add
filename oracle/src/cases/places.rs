//! Cases of places and days: SUM, FIELD and EPOCH, and the sets that they use.
use super::lists::{Degree, DEGREE_12, DEGREE_13};
use super::rng::{plan, plans, random_plan};
use super::{lists, longer, pairs, Generator};
use crate::entries::{Place, Set};
use crate::format::Case;
use crate::models::{date_to_epoch_year, days_in_year};
use crate::sets::WMM_MODELS;

/// Days of the ten years from 2020 to 2029.
pub const DAYS: usize = 3653;

/// Year and day of year at a place of the ten years.
fn day_at(place: usize) -> (i32, i32) {
    let mut year = 2020;
    let mut rest = place as i32;
    while rest >= days_in_year(year) {
        rest -= days_in_year(year);
        year += 1;
    }
    (year, rest + 1)
}

impl Generator {
    /// Has a set in force for one case more. When a set has served, another comes: two good ones,
    /// then a special one of the planned list.
    fn need_set(&mut self, out: &mut Vec<u8>) {
        if self.serves == 0 {
            self.special = self.rng.once_in(3);
            let set = if self.special {
                self.serves = 24;
                self.special_set()
            } else {
                self.serves = 24 + self.rng.below(64);
                self.good_set()
            };
            self.published = WMM_MODELS.iter().position(|model| Set::of(model) == set);
            self.weak_day = None;
            self.replay.take(set, out);
        }
        self.serves -= 1;
    }

    /// The degree that is asked for.
    pub fn degree(&self) -> &'static Degree {
        if self.longer {
            &DEGREE_13
        } else {
            &DEGREE_12
        }
    }

    /// A good set. Where degree 13 is asked for, one in four is of degree 12.
    fn good_set(&mut self) -> Set {
        let shorter = self.longer && self.rng.once_in(4);
        let degree = if shorter { &DEGREE_12 } else { self.degree() };
        lists::good_set(&mut self.rng, degree.length)
    }

    /// Special lists, as a rule with a good epoch, or a special epoch with published lists.
    fn special_set(&mut self) -> Set {
        let degree = self.degree();
        let (place, sets) = if self.longer {
            (self.longer_walk.next(), longer::SETS)
        } else {
            (self.set_walk.next(), degree.sets())
        };
        let rng = &mut self.rng;
        if place >= sets {
            let model = rng.below(2);
            return Set {
                epoch_year: self.pools.epoch_year[place - sets],
                lists: lists::good_lists(rng, degree.length, model),
            };
        }
        let epoch_year = if rng.once_in(6) {
            rng.pick(&self.pools.epoch_year)
        } else {
            rng.pick(&[2020, 2025])
        };
        let lists = if self.longer {
            longer::lists(rng, place)
        } else {
            degree.lists(rng, place)
        };
        Set { epoch_year, lists }
    }

    pub fn sum_case(&mut self, place: Option<usize>, out: &mut Vec<u8>) -> Case<'static> {
        self.need_set(out);
        let rng = &mut self.rng;
        let ways = match place {
            // beside a special set: one part special, one after the other, or none
            _ if self.special && rng.once_in(3) => [None; 4],
            _ if self.special => plan(&self.sum_ways, self.sum_singles.next()),
            Some(place) => plan(&self.sum_ways, place),
            None => random_plan(&self.sum_ways, 12, rng),
        };
        let (cos_theta, sin_theta) = pairs::colatitude(rng, ways[0]);
        let (sin_lambda, cos_lambda) = pairs::longitude(rng, ways[1]);
        let ratio = match ways[2] {
            Some(way) => self.pools.ratio[way],
            None => rng.between(0.875, 1.015625) as f32,
        };
        let offset = match ways[3] {
            Some(way) => self.pools.offset[way],
            None => rng.between(0.0, 5.0) as f32,
        };
        Case::Sum {
            cos_theta,
            sin_theta,
            sin_lambda,
            cos_lambda,
            ratio,
            offset,
        }
    }

    pub fn field_case(&mut self, place: Option<usize>, out: &mut Vec<u8>) -> Case<'static> {
        Case::Field(self.place(place, out))
    }

    /// The place and the day of a FIELD case.
    pub fn place(&mut self, place: Option<usize>, out: &mut Vec<u8>) -> Place {
        self.need_set(out);
        let rng = &mut self.rng;
        let mut date = None;
        let ways = match (place, self.published) {
            _ if self.special && rng.once_in(3) => [None; 5],
            _ if self.special => plan(&self.field_ways, self.field_singles.next()),
            // a day of the ten years, with a published set
            (_, Some(model)) if rng.once_in(3) => {
                date = Some(day_at(self.day_walks[model].next()));
                [None; 5]
            }
            (Some(place), _) => plan(&self.field_ways, place),
            (None, _) => random_plan(&self.field_ways, 16, rng),
        };
        self.place_by(ways, date)
    }

    /// A place and a day. Where no way is given a part is random, and good as a rule. A given date
    /// stands above the ways of year and day.
    pub fn place_by(&mut self, ways: [Option<usize>; 5], date: Option<(i32, i32)>) -> Place {
        let rng = &mut self.rng;
        let height = match ways[0] {
            Some(way) => self.pools.height[way],
            None if rng.once_in(2) => rng.between(-1000.0, 10000.0) as f32,
            None => rng.between(-1000.0, 850000.0) as f32,
        };
        let (sin_phi, cos_phi) = pairs::latitude(rng, height, ways[1]);
        let (sin_lambda, cos_lambda) = pairs::longitude(rng, ways[2]);
        let (year, day) = date.unwrap_or_else(|| self.date(ways[3], ways[4]));
        Place {
            height,
            sin_phi,
            cos_phi,
            sin_lambda,
            cos_lambda,
            year,
            day,
        }
    }

    /// A date. Where no way is given it is, as a rule, a day of the set's five years.
    fn date(&mut self, year: Option<usize>, day: Option<usize>) -> (i32, i32) {
        let rng = &mut self.rng;
        let epoch_year = match self.replay.set.epoch_year {
            year if (2000..2100).contains(&year) => date_to_epoch_year(year),
            _ => 2020,
        };
        let year = match year {
            Some(way) => self.pools.year[way],
            None if rng.once_in(64) => rng.bits() as i32,
            None if rng.once_in(32) => rng.whole(1990, 2060),
            None => epoch_year + rng.whole(0, 4),
        };
        let day = match day {
            Some(way) => self.pools.day[way],
            None if rng.once_in(64) => rng.bits() as i32,
            None => rng.whole(1, days_in_year(year)),
        };
        (year, day)
    }

    pub fn epoch_case(&mut self, place: Option<usize>) -> Case<'static> {
        let planned = plans(&self.epoch_ways);
        let (year, day) = match place {
            Some(place) if place >= planned => day_at(place - planned),
            Some(place) => {
                let ways = plan(&self.epoch_ways, place);
                self.date(ways[0], ways[1])
            }
            None => match self.rng.below(4) {
                0 => (self.rng.bits() as i32, self.rng.whole(-2, 370)),
                1 => (self.rng.whole(1990, 2060), self.rng.bits() as i32),
                2 => (self.rng.whole(2010, 2040), self.rng.whole(-2, 370)),
                _ => {
                    let ways = random_plan(&self.epoch_ways, 4, &mut self.rng);
                    self.date(ways[0], ways[1])
                }
            },
        };
        Case::Epoch { year, day }
    }
}
