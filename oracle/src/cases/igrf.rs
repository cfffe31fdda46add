//! Cases of IGRF and IRATES, each with two sets. As for lists of error records, their walks are apart from
//! those of the other kinds.
use super::igrf_sets::{any_length, special, weak, Two, EPOCHS, SPECIAL, WEAK};
use super::rng::{plan, plans, random_plan, singles, Rng, Walk};
use super::{pairs, Generator, Kind};
use crate::entries::Place;
use crate::models::days_in_year;

/// Days at the ends of the profile's parts, and next to them.
const EDGE_DAYS: [(i32, i32); 16] = [
    (2000, 1),
    (2000, 2),
    (1999, 365),
    (2000, 0),
    (2000, 366),
    (2001, 366),
    (2004, 366),
    (2005, 1),
    (2024, 365),
    (2024, 366),
    (2025, 1),
    (2025, 2),
    (2025, 366),
    (2029, 365),
    (2029, 366),
    (2030, 1),
];

/// Special years: those of the profile, those about it, and some far away.
fn years() -> Vec<i32> {
    let mut years: Vec<i32> = (1994..=2036).collect();
    years.extend([
        i32::MIN,
        i32::MIN + 1,
        -2025,
        -2000,
        -1,
        0,
        1,
        4,
        1900,
        2100,
        2400,
        2000 - 65536,
        2025 + 65536,
        i32::MAX - 1,
        i32::MAX,
    ]);
    years
}

/// What the two sets in force are.
#[derive(Copy, Clone)]
enum Serving {
    Good,
    Special,
    /// Weak on this day.
    Weak((i32, i32)),
}

/// The walks over the planned places, over the special parts beside special sets, over the special and the
/// weak sets, and over all days of each epoch; and what the sets in force are.
pub struct Walks {
    years: Vec<i32>,
    /// The number of special values of height, latitude, longitude, year and day.
    ways: [usize; 5],
    places: Walk,
    singles: Walk,
    special: Walk,
    weak: Walk,
    days: [Walk; EPOCHS.len()],
    serving: Serving,
    serves: usize,
    /// The epoch that the sets are for, and how many sets had been taken with the first of them.
    epoch_year: i32,
    taken: u64,
}

/// Days of the five years from an epoch on.
fn days_of(epoch_year: i32) -> i32 {
    (epoch_year..epoch_year + 5).map(days_in_year).sum()
}

/// Year and day of year at a place of the five years from an epoch on.
fn day_at(epoch_year: i32, place: usize) -> (i32, i32) {
    let (mut year, mut rest) = (epoch_year, place as i32);
    while rest >= days_in_year(year) {
        rest -= days_in_year(year);
        year += 1;
    }
    (year, rest + 1)
}

impl Walks {
    pub fn new(seed: u64, heights: usize, days: usize) -> Walks {
        // numbers of their own: those of the other walks stay as they are
        let mut rng = Rng::new(seed.rotate_left(48));
        let years = years();
        let ways = [
            heights,
            pairs::LATITUDES,
            pairs::LONGITUDES,
            years.len(),
            days,
        ];
        Walks {
            places: Walk::new(plans(&ways), &mut rng),
            singles: Walk::new(singles(&ways), &mut rng),
            special: Walk::new(SPECIAL, &mut rng),
            weak: Walk::new(WEAK, &mut rng),
            days: EPOCHS.map(|year| Walk::new(days_of(year) as usize, &mut rng)),
            years,
            ways,
            serving: Serving::Good,
            serves: 0,
            epoch_year: EPOCHS[0],
            taken: 0,
        }
    }
}

impl Generator {
    /// The place and the day of a case of IGRF or IRATES. Before it stand a SET and a SET2 line where other
    /// sets' turn has come.
    pub fn profile_place(&mut self, kind: Kind, out: &mut Vec<u8>) -> Place {
        let walks = &self.igrf_walks;
        if walks.serves == 0 || walks.taken != self.replay.taken {
            self.take_two(kind, out);
        }
        let (rng, walks) = (&mut self.rng, &mut self.igrf_walks);
        walks.serves -= 1;
        let ways = match walks.serving {
            Serving::Weak(day) => return self.weak_place(day),
            Serving::Special if rng.once_in(3) => [None; 5],
            Serving::Special => plan(&walks.ways, walks.singles.next()),
            Serving::Good => match walks.places.turn(rng) {
                Some(place) => plan(&walks.ways, place),
                None => random_plan(&walks.ways, 16, rng),
            },
        };
        let [height, latitude, longitude, year, day] = ways;
        let date = self.profile_date(year, day);
        self.place_by([height, latitude, longitude, None, None], Some(date))
    }

    /// Takes two sets: half of the time special ones. Of IRATES half of the others are weak ones.
    fn take_two(&mut self, kind: Kind, out: &mut Vec<u8>) {
        let (rng, walks) = (&mut self.rng, &mut self.igrf_walks);
        let two = if rng.once_in(2) {
            (walks.serving, walks.serves) = (Serving::Special, 12);
            special(rng, walks.special.next())
        } else if kind == Kind::Irates && rng.once_in(2) {
            let (two, day) = weak(rng, walks.weak.next());
            (walks.serving, walks.serves) = (Serving::Weak(day), 24);
            two
        } else {
            (walks.serving, walks.serves) = (Serving::Good, 16 + rng.below(32));
            let (epoch_year, length) = (rng.pick(&EPOCHS), any_length(rng));
            Two::good(rng, epoch_year, length)
        };
        walks.epoch_year = two.epoch_year;
        let [first, second] = two.sets;
        self.replay.take(first, out);
        self.replay.take_second(second, out);
        self.igrf_walks.taken = self.replay.taken;
        // another kind takes a set of its own
        self.serves = 0;
    }

    /// A date. Where no way is given it is, as a rule, a day of the five years that the sets are for.
    fn profile_date(&mut self, year: Option<usize>, day: Option<usize>) -> (i32, i32) {
        let (rng, walks) = (&mut self.rng, &mut self.igrf_walks);
        let epoch_year = walks.epoch_year;
        if year.is_none() && day.is_none() {
            match rng.below(8) {
                0 => return rng.pick(&EDGE_DAYS),
                1..=4 => {
                    let era = EPOCHS.iter().position(|known| *known == epoch_year);
                    return day_at(epoch_year, walks.days[era.unwrap_or(0)].next());
                }
                _ => {}
            }
        }
        let year = match year {
            Some(way) => walks.years[way],
            None if rng.once_in(64) => rng.bits() as i32,
            None if rng.once_in(16) => rng.whole(1990, 2040),
            None => epoch_year + rng.whole(0, 4),
        };
        let day = match day {
            Some(way) => self.pools.day[way],
            None if rng.once_in(64) => rng.bits() as i32,
            None => rng.whole(1, days_in_year(year)),
        };
        (year, day)
    }
}
