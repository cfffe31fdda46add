//! Cases that lend a list of error records: FLIST and ULIST. Their planned lists and their walks are
//! apart from those of the other kinds, whose cases stay as they are.
use super::records::{found_list, group_at, planned, planned_lists, put_figure, random_list};
use super::rng::{Rng, Walk};
use super::values::step;
use super::{Generator, Kind};
use crate::entries::Set;
use crate::format::Case;
use crate::listed::{Asked, Listed};
use crate::models::{date_to_epoch_year, WmmErrorModel};

/// Figures and strengths at which the uncertainty turns: zeros of either sign, the smallest and the
/// largest numbers, 180 and its neighbours, and a size whose square is just finite, or is not.
const SIGMA_C: [u32; 11] = [
    0x0000_0000,
    0x8000_0000,
    0x0000_0001,
    0x0d80_0000,
    0x3e85_1eb8,
    0x4333_ffff,
    0x4334_0000,
    0x4334_0001,
    0x5f7f_ffff,
    0x5f80_0000,
    0x7f7f_ffff,
];
const SIGMA_V: [u32; 9] = [
    0x0000_0000,
    0x8000_0000,
    0x0000_0001,
    0x0d80_0000,
    0x4333_ffff,
    0x4334_0000,
    0x4334_0001,
    0x45a9_4800,
    0x7f7f_ffff,
];
const XYZ: [[f32; 3]; 9] = [
    [0.0, 0.0, 0.0],
    [-0.0, 0.0, 50000.0],
    [-0.0, -0.0, -0.0],
    [1e-30, -1e-30, 1.0], // the squares are zero
    [1e-22, 0.0, 1.0],    // the square is subnormal
    [1.0, 0.0, 0.0],
    [0.0, -1.0, 1152921504606846976.0],
    [3.0, 4.0, 0.0],
    [
        1152921504606846976.0,
        -1152921504606846976.0,
        1152921504606846976.0,
    ],
];

/// The number of turning cases.
pub const TURNS: usize = SIGMA_C.len() * SIGMA_V.len() * XYZ.len();

/// The walks over the planned cases of FLIST and of ULIST.
pub struct Walks {
    field: Walk,
    uncertainty: Walk,
}

impl Walks {
    pub fn new(seed: u64) -> Walks {
        // numbers of their own: those of the other walks stay as they are
        let mut rng = Rng::new(!seed);
        Walks {
            field: Walk::new(planned_lists(), &mut rng),
            uncertainty: Walk::new(planned_lists() + TURNS, &mut rng),
        }
    }
}

/// Puts the two figures of the declination in every record of a year.
fn put_sigmas(list: &mut [WmmErrorModel], year: i32, sigmas: [f32; 2]) {
    for record in list.iter_mut().filter(|record| record.epoch_year == year) {
        put_figure(record, 0, sigmas[0]);
        put_figure(record, 1, sigmas[1]);
    }
}

impl Generator {
    /// The set in force.
    pub fn set(&self) -> &Set {
        &self.replay.set
    }

    /// A case of FLIST or ULIST. Before it stands a SET line where another set's turn has come.
    pub fn listed(&mut self, kind: Kind, out: &mut Vec<u8>) -> Listed {
        let walk = match kind {
            Kind::Flist => &mut self.listed_walks.field,
            _ => &mut self.listed_walks.uncertainty,
        };
        let place = walk.turn(&mut self.rng);
        match kind {
            Kind::Flist => self.listed_field(place, out),
            _ => self.listed_uncertainty(place),
        }
    }

    /// The planned list at a place, or a random one.
    pub fn records(&mut self, place: Option<usize>, year: i32) -> Vec<WmmErrorModel> {
        match place {
            Some(place) => {
                let (group, way) = group_at(place);
                planned(&mut self.rng, group, way, year)
            }
            None => random_list(&mut self.rng, year),
        }
    }

    fn listed_field(&mut self, place: Option<usize>, out: &mut Vec<u8>) -> Listed {
        let asked = self.place(None, out);
        Listed {
            records: self.records(place, date_to_epoch_year(asked.year)),
            asked: Asked::Field(asked),
        }
    }

    fn listed_uncertainty(&mut self, place: Option<usize>) -> Listed {
        let epoch_year = self.asked_year();
        match place {
            Some(place) if place >= planned_lists() => {
                self.turning(place - planned_lists(), epoch_year)
            }
            _ => {
                let xyz = self.components();
                let mut records = self.records(place, epoch_year);
                if place.is_none() && self.rng.once_in(4) {
                    self.turn(&mut records, xyz, epoch_year);
                }
                let asked = Asked::Uncertainty { xyz, epoch_year };
                Listed { asked, records }
            }
        }
    }

    /// A turning case: its sigmas in the one record of the year.
    pub fn turning(&mut self, place: usize, epoch_year: i32) -> Listed {
        let xyz = XYZ[place % XYZ.len()];
        let rest = place / XYZ.len();
        let sigmas = [SIGMA_C[rest / SIGMA_V.len()], SIGMA_V[rest % SIGMA_V.len()]];
        let mut records = found_list(&mut self.rng, epoch_year);
        put_sigmas(&mut records, epoch_year, sigmas.map(f32::from_bits));
        let asked = Asked::Uncertainty { xyz, epoch_year };
        Listed { asked, records }
    }

    /// Brings the uncertainty near to 180: sigma_v about 180 times H, or both zero.
    fn turn(&mut self, records: &mut [WmmErrorModel], xyz: [f32; 3], epoch_year: i32) {
        let rng = &mut self.rng;
        let h = (xyz[0] * xyz[0] + xyz[1] * xyz[1]).sqrt();
        let sigma_c = rng.pick(&[0.0, 0.26, 1.0]);
        let sigma_v = (180.0f64 * 180.0 - f64::from(sigma_c) * f64::from(sigma_c)).sqrt();
        let sigma_v = (sigma_v * f64::from(h)) as f32;
        let sigma_v = if sigma_v > 0.0 && sigma_v < f32::MAX {
            step(sigma_v, rng.whole(-3, 3))
        } else {
            rng.pick(&[0.0, -0.0])
        };
        put_sigmas(records, epoch_year, [sigma_c, sigma_v]);
    }

    /// The year that ULIST asks for: any.
    fn asked_year(&mut self) -> i32 {
        match self.rng.below(8) {
            0 => self.rng.bits() as i32,
            1..=3 => self.rng.pick(&self.pools.year),
            _ => self.rng.pick(&[2020, 2025]),
        }
    }

    /// Components: those of a STR case, of a common strength, or with H = 0.
    fn components(&mut self) -> [f32; 3] {
        if self.rng.once_in(3) {
            if let Case::Str { x, y, z } = self.str_case(None) {
                return [x, y, z];
            }
        }
        let rng = &mut self.rng;
        if rng.once_in(8) {
            let zero = [0.0, -0.0, 1e-30, -1e-30, f32::from_bits(1)];
            let [x, y] = [rng.pick(&zero), rng.pick(&zero)];
            return [x, y, rng.between(-70000.0, 70000.0) as f32];
        }
        [0; 3].map(|_| rng.between(-60000.0, 60000.0) as f32)
    }
}
