//! What is timed: places and days from a seed, all of them accepted.
use njerumoy::{published, Day, Pair, Set};
use oracle::angles::DegreePlace;
use oracle::entries;
use oracle::models::model_by_epoch_year;
use oracle::tables::N_COEFF_MAX;

/// A set, in the form of each side.
pub struct Both {
    pub ours: Set<'static>,
    pub rust: entries::Set,
}

impl Both {
    /// The lists are kept to the end of the program, as the published ones are.
    pub fn of(rust: entries::Set) -> Both {
        let [g, h, g_dot, h_dot] = rust.lists.clone().map(|list| &*list.leak());
        let epoch_year = rust.epoch_year;
        let ours = Set {
            epoch_year,
            g,
            h,
            g_dot,
            h_dot,
        };
        Both { ours, rust }
    }
}

pub struct SumCase {
    pub theta: Pair,
    pub lambda: Pair,
    pub ratio: f32,
    pub offset: f32,
    pub set: usize,
}

pub struct FieldCase {
    pub height: f32,
    pub phi: Pair,
    pub lambda: Pair,
    pub day: Day,
    pub set: usize,
}

/// A place in degrees.
pub struct DegreeCase {
    pub place: DegreePlace,
    pub set: usize,
}

pub type Components = [f32; 3];

/// The sets of 2020 and 2025.
pub fn sets() -> [Both; 2] {
    [(2020, published::WMM2020), (2025, published::WMM2025)].map(|(epoch, ours)| Both {
        ours,
        rust: entries::Set::of(model_by_epoch_year(epoch).expect("a published epoch")),
    })
}

/// The same with a degree more. Its entries are of the size that they have on Earth.
pub fn longer_sets() -> [Both; 2] {
    let mut random = Random::new();
    sets().map(|Both { mut rust, .. }| {
        for (list, size) in rust.lists.iter_mut().zip([1.0, 1.0, 0.1, 0.1]) {
            list.resize_with(N_COEFF_MAX, || random.between(-size, size) as f32);
        }
        Both::of(rust)
    })
}

/// Marsaglia's xorshift, as numbers from 0 to 1.
pub struct Random(u64);

impl Random {
    pub fn new() -> Random {
        Random(0x2545_f491_4f6c_dd1d)
    }

    fn next(&mut self) -> f64 {
        self.0 ^= self.0 << 13;
        self.0 ^= self.0 >> 7;
        self.0 ^= self.0 << 17;
        (self.0 >> 11) as f64 / (1u64 << 53) as f64
    }

    fn between(&mut self, low: f64, high: f64) -> f64 {
        low + (high - low) * self.next()
    }

    fn whole(&mut self, low: i32, high: i32) -> i32 {
        low + (self.next() * f64::from(high - low + 1)) as i32
    }

    fn pair(&mut self, low_deg: f64, high_deg: f64) -> Pair {
        let (sin, cos) = self.between(low_deg, high_deg).to_radians().sin_cos();
        Pair {
            sin: sin as f32,
            cos: cos as f32,
        }
    }

    /// Sum at colatitudes in degrees.
    pub fn sums(&mut self, count: usize, low_deg: f64, high_deg: f64) -> Vec<SumCase> {
        (0..count)
            .map(|_| SumCase {
                theta: self.pair(low_deg, high_deg),
                lambda: self.pair(-180.0, 180.0),
                ratio: self.between(0.875, 1.015625) as f32,
                offset: self.between(0.0, 5.0) as f32,
                set: self.whole(0, 1) as usize,
            })
            .collect()
    }

    pub fn fields(&mut self, count: usize) -> Vec<FieldCase> {
        (0..count)
            .map(|_| {
                let set = self.whole(0, 1);
                FieldCase {
                    height: self.between(-1000.0, 850000.0) as f32,
                    phi: self.pair(-89.9, 89.9),
                    lambda: self.pair(-180.0, 180.0),
                    day: Day {
                        year: 2020 + 5 * set + self.whole(0, 4),
                        day_of_year: self.whole(1, 365),
                    },
                    set: set as usize,
                }
            })
            .collect()
    }

    pub fn components(&mut self, count: usize) -> Vec<Components> {
        (0..count)
            .map(|_| [0; 3].map(|_| self.between(-60000.0, 60000.0) as f32))
            .collect()
    }

    pub fn angles(&mut self, count: usize) -> Vec<f32> {
        (0..count)
            .map(|_| self.between(-180.0, 180.0) as f32)
            .collect()
    }

    pub fn degree_fields(&mut self, count: usize) -> Vec<DegreeCase> {
        (0..count)
            .map(|_| {
                let set = self.whole(0, 1);
                let place = DegreePlace {
                    height: self.between(-1000.0, 850000.0) as f32,
                    latitude_deg: self.between(-89.9, 89.9) as f32,
                    longitude_deg: self.between(-180.0, 180.0) as f32,
                    year: 2020 + 5 * set + self.whole(0, 4),
                    day: self.whole(1, 365),
                };
                let set = set as usize;
                DegreeCase { place, set }
            })
            .collect()
    }

    pub fn numbers(&mut self, count: usize) -> Vec<f32> {
        (0..count).map(|_| self.between(0.0, 4e9) as f32).collect()
    }
}
