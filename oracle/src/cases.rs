//! Cases from a seed. Some are planned: each kind has a list of every special value of each part
//! alone, and of every pair of special values of two parts, so every refusal comes alone and beside
//! every other. Half of the cases come from that list until it is through, then one in eight. The
//! others are random. Special sets have a list of their own, and beside each stand cases with one
//! special part.
mod damage;
pub mod decimals;
mod degrees;
mod files;
mod igrf;
pub mod igrf_sets;
mod listed;
mod lists;
mod longer;
mod pairs;
mod places;
pub mod rates;
pub mod records;
mod rng;
mod south;
pub mod stored;
mod strengths;
mod values;

use crate::format::{put_case, Case};
use crate::profile::InProfile;
use crate::replay::Replay;
pub use decimals::planned_words;
pub use listed::TURNS;
use lists::DEGREE_12;
pub use pairs::{AXES, LATITUDES, LONGITUDES, ROUND_LATITUDES};
use places::DAYS;
pub use rng::Rng;
use rng::{plans, singles, Walk};
use std::io::{self, Write};
use strengths::{STRENGTHS, WRAPS};
use values::Pools;

/// What a case asks for. `Bad` is a damaged line: most of them cannot be read. `South` is a line of GV
/// next to due south or to zero. `Sum13` and the like are lines of SUM and the like with sets of degree 13.
#[derive(Copy, Clone, Debug, PartialEq)]
pub enum Kind {
    Sum,
    Field,
    Epoch,
    Str,
    Gv,
    Sqrt,
    Bad,
    Dec,
    Whole,
    Cof,
    Flist,
    Ulist,
    Trig,
    Decl,
    Dir,
    Fdeg,
    South,
    Sread,
    Swrite,
    Rates,
    Sum13,
    Field13,
    Flist13,
    Fdeg13,
    Rates13,
    Igrf,
    Irates,
}

/// Every kind of a list of all kinds, its name on the command line, and its share of a mixed list. A
/// line of COF is long, so it is rare.
pub const KINDS: [(Kind, &str, usize); 10] = [
    (Kind::Sum, "SUM", 60),
    (Kind::Field, "FIELD", 60),
    (Kind::Epoch, "EPOCH", 20),
    (Kind::Str, "STR", 30),
    (Kind::Gv, "GV", 20),
    (Kind::Sqrt, "SQRT", 20),
    (Kind::Bad, "BAD", 10),
    (Kind::Dec, "DEC", 20),
    (Kind::Whole, "WHOLE", 10),
    (Kind::Cof, "COF", 1),
];

/// The kinds that come only where they are named: those with lists of error records, those with
/// angles in degrees, those for due south, those with stored sets, those of yearly rates, those of
/// degree 13, and those of the IGRF profile. So a list of all kinds from a seed is what it was before there were such lines.
pub const NAMED_KINDS: [(Kind, &str, usize); 17] = [
    (Kind::Flist, "FLIST", 60),
    (Kind::Ulist, "ULIST", 60),
    (Kind::Trig, "TRIG", 60),
    (Kind::Decl, "DECL", 60),
    (Kind::Dir, "DIR", 60),
    (Kind::Fdeg, "FDEG", 60),
    (Kind::South, "SOUTH", 60),
    (Kind::Sread, "SREAD", 60),
    (Kind::Swrite, "SWRITE", 60),
    (Kind::Rates, "RATES", 60),
    (Kind::Sum13, "SUM13", 60),
    (Kind::Field13, "FIELD13", 60),
    (Kind::Flist13, "FLIST13", 60),
    (Kind::Fdeg13, "FDEG13", 60),
    (Kind::Rates13, "RATES13", 60),
    (Kind::Igrf, "IGRF", 60),
    (Kind::Irates, "IRATES", 60),
];

pub struct Generator {
    rng: Rng,
    pools: Pools,
    replay: Replay,
    /// How many cases more the set in force serves, whether it is a special one, which of the
    /// published ones it is, and on what day it is weak.
    serves: usize,
    special: bool,
    published: Option<usize>,
    weak_day: Option<(i32, i32)>,
    /// The walk over the planned list of each kind of `KINDS`, in the order of `Kind`.
    walks: [Walk; KINDS.len()],
    /// The planned words of DEC and WHOLE.
    words: Vec<Vec<u8>>,
    /// The walks over the special sets, over the special parts beside them, and over all days with
    /// each published set.
    set_walk: Walk,
    sum_singles: Walk,
    field_singles: Walk,
    day_walks: [Walk; 2],
    /// The number of special values of each part: colatitude, longitude, ratio, offset.
    sum_ways: [usize; 4],
    /// Height, latitude, longitude, year, day.
    field_ways: [usize; 5],
    /// Year, day.
    epoch_ways: [usize; 2],
    /// X, Y, Z.
    str_ways: [usize; 3],
    /// Latitude, longitude, declination.
    gv_ways: [usize; 3],
    listed_walks: listed::Walks,
    degree_walks: degrees::Walks,
    stored_walks: stored::Walks,
    rates_walks: rates::Walks,
    /// Whether sets of degree 13 are asked for, and the walk over the special ones.
    longer: bool,
    longer_walk: Walk,
    igrf_walks: igrf::Walks,
}

impl Generator {
    pub fn new(seed: u64) -> Generator {
        let mut rng = Rng::new(seed);
        let pools = Pools::new();
        let sum_ways = [
            pairs::COLATITUDES,
            pairs::LONGITUDES,
            pools.ratio.len(),
            pools.offset.len(),
        ];
        let field_ways = [
            pools.height.len(),
            pairs::LATITUDES,
            pairs::LONGITUDES,
            pools.year.len(),
            pools.day.len(),
        ];
        let epoch_ways = [pools.year.len(), pools.day.len()];
        let str_ways = [pools.component.len(); 3];
        let gv_ways = [
            pools.latitude_deg.len(),
            pools.longitude_deg.len(),
            pools.declination_deg.len(),
        ];
        let words = decimals::planned_words();
        let totals = [
            plans(&sum_ways),
            plans(&field_ways),
            plans(&epoch_ways) + DAYS,
            plans(&str_ways) + STRENGTHS,
            plans(&gv_ways) + WRAPS,
            pools.root.len(),
            1,
            words.len(),
            words.len(),
            files::FILES,
        ];
        let [height, _, _, year, day] = field_ways;
        let degree_walks = degrees::Walks::new(seed, height, year, day);
        // numbers of its own: those of the other walks stay as they are
        let mut longer_rng = Rng::new(seed.rotate_left(16));
        let longer_sets = longer::SETS + pools.epoch_year.len();
        let igrf_walks = igrf::Walks::new(seed, height, day);
        Generator {
            walks: totals.map(|total| Walk::new(total, &mut rng)),
            set_walk: Walk::new(DEGREE_12.sets() + pools.epoch_year.len(), &mut rng),
            sum_singles: Walk::new(singles(&sum_ways), &mut rng),
            field_singles: Walk::new(singles(&field_ways), &mut rng),
            day_walks: [DAYS; 2].map(|total| Walk::new(total, &mut rng)),
            words,
            rng,
            pools,
            replay: Replay::default(),
            serves: 0,
            special: false,
            published: None,
            weak_day: None,
            sum_ways,
            field_ways,
            epoch_ways,
            str_ways,
            gv_ways,
            listed_walks: listed::Walks::new(seed),
            degree_walks,
            stored_walks: stored::Walks::new(seed),
            rates_walks: rates::Walks::new(seed, &field_ways),
            longer: false,
            longer_walk: Walk::new(longer_sets, &mut longer_rng),
            igrf_walks,
        }
    }

    /// Writes one case line of a kind, and before it a SET line where another set's turn has come.
    pub fn line(&mut self, kind: Kind, out: &mut Vec<u8>) {
        if NAMED_KINDS.iter().any(|named| named.0 == kind) {
            return self.named_line(kind, out);
        }
        self.longer = false;
        let place = self.walks[kind as usize].turn(&mut self.rng);
        let case = match kind {
            Kind::Sum => self.sum_case(place, out),
            Kind::Field => self.field_case(place, out),
            Kind::Epoch => self.epoch_case(place),
            Kind::Str => self.str_case(place),
            Kind::Gv => self.gv_case(place),
            Kind::Sqrt => self.sqrt_case(place),
            Kind::Bad => return damage::bad_line(self, out),
            _ => return self.text_line(kind, place, out),
        };
        self.replay.case(&case, out);
    }

    /// Writes a line of a kind that comes only where it is named, once in 32 times a damaged one.
    fn named_line(&mut self, kind: Kind, out: &mut Vec<u8>) {
        if self.rng.once_in(32) {
            return damage::damaged_line(self, out, |generator, out| {
                if [Kind::Igrf, Kind::Irates].contains(&kind) && generator.rng.once_in(4) {
                    return damage::short_second_set(&mut generator.rng);
                }
                let mut line = Vec::new();
                put_case(&mut line, &generator.question(kind, out));
                line
            });
        }
        let case = self.question(kind, out);
        self.replay.case(&case, out);
    }

    /// The case of a kind that comes only where it is named. Before it stands a SET line where another
    /// set's turn has come.
    pub fn question(&mut self, kind: Kind, out: &mut Vec<u8>) -> Case<'static> {
        let (kind, longer) = longer::asked(kind);
        self.longer = longer;
        match kind {
            Kind::Sum => {
                let place = self.walks[kind as usize].turn(&mut self.rng);
                self.sum_case(place, out)
            }
            Kind::Field => {
                let place = self.walks[kind as usize].turn(&mut self.rng);
                self.field_case(place, out)
            }
            Kind::Flist | Kind::Ulist => Case::Listed(self.listed(kind, out)),
            Kind::South => self.south_case(),
            Kind::Sread | Kind::Swrite => self.stored_case(kind, out),
            Kind::Rates => Case::Rates(self.rates_place(out)),
            Kind::Igrf => Case::InProfile(InProfile::Field(self.profile_place(kind, out))),
            Kind::Irates => Case::InProfile(InProfile::Rates(self.profile_place(kind, out))),
            _ => Case::InDegrees(self.in_degrees(kind, out)),
        }
    }

    /// The text of a question of DEC, WHOLE or COF.
    fn text(&mut self, kind: Kind, place: Option<usize>) -> Vec<u8> {
        match (kind, place) {
            (Kind::Cof, _) => files::in_a_line(self.file(place)),
            (_, Some(place)) => self.words[place].clone(),
            (_, None) => decimals::any_word(&mut self.rng, &self.words),
        }
    }

    /// A file: the planned one at a place, or a random one.
    pub fn file(&mut self, place: Option<usize>) -> Vec<u8> {
        files::file(&mut self.rng, &self.words, place)
    }

    fn text_line(&mut self, kind: Kind, place: Option<usize>, out: &mut Vec<u8>) {
        let text = self.text(kind, place);
        self.replay.case(&text_case(kind, &text), out);
    }
}

/// The question of DEC, WHOLE or COF with this text.
fn text_case(kind: Kind, text: &[u8]) -> Case<'_> {
    match kind {
        Kind::Dec => Case::Dec { word: text },
        Kind::Whole => Case::Whole { word: text },
        _ => Case::Cof { text },
    }
}

/// Writes `count` case lines of the kinds, mixed. SET lines come as needed and do not count.
pub fn write_cases(
    seed: u64,
    count: u64,
    kinds: &[Kind],
    output: &mut impl Write,
) -> io::Result<()> {
    let mut generator = Generator::new(seed);
    let mut choice = Vec::new();
    for (kind, _, share) in KINDS.into_iter().chain(NAMED_KINDS) {
        if kinds.contains(&kind) {
            choice.extend(vec![kind; share]);
        }
    }
    let mut out = Vec::new();
    for _ in 0..count {
        out.clear();
        let kind = generator.rng.pick(&choice);
        generator.line(kind, &mut out);
        output.write_all(&out)?;
    }
    output.flush()
}
