//! Field and Uncertainty with a lent list of error records, ours and the oracle's, with all that a
//! call can write. Field with a stored set has the same places.
use njerumoy::{sys, ErrorRecord, Errors};
use oracle::entries::{components, Place, Refusal, Set};
use oracle::field::GeomagneticField;
use oracle::models::WmmErrorModel;
use oracle::records::{field_listed, uncertainty_listed};

/// A list of error records, in the form of each side.
pub struct List {
    /// Behind the end of our list stands one record more, which is not lent.
    ours: Vec<ErrorRecord>,
    rust: Vec<WmmErrorModel>,
}

impl List {
    /// The record behind the end is a good one of this year: a search that goes too far finds it.
    pub fn of(rust: Vec<WmmErrorModel>, year: i32) -> List {
        let behind = WmmErrorModel::of(year, [1.0; 8]);
        let ours = rust.iter().chain([&behind]).map(lent).collect();
        List { ours, rust }
    }

    /// What is lent to our calls.
    fn lent(&self) -> &[ErrorRecord] {
        &self.ours[..self.rust.len()]
    }
}

fn lent(model: &WmmErrorModel) -> ErrorRecord {
    ErrorRecord {
        epoch_year: model.epoch_year,
        figures: Errors {
            declination_sigma_c: model.declination_sigma_c,
            declination_sigma_v: model.declination_sigma_v,
            inclination: model.inclination_uncertainty,
            f: model.f_uncertainty,
            h: model.h_uncertainty,
            x: model.x_uncertainty,
            y: model.y_uncertainty,
            z: model.z_uncertainty,
        },
    }
}

/// A float that no call writes: below zero, and no component of a field.
const MARK: u32 = 0xdead_beef;

/// The places that a call is lent. At first each holds a mark, so that it shows what was written.
#[derive(Clone, Debug)]
pub struct Places {
    pub(crate) xyz: [f32; 3],
    pub(crate) errors: [f32; 8],
    pub(crate) entry: [usize; 2],
    pub(crate) years: [i32; 2],
    /// A place in stored bytes.
    pub(crate) place: usize,
    uncertainty: f32,
}

impl Places {
    pub(crate) fn unwritten() -> Places {
        let mark = f32::from_bits(MARK);
        Places {
            xyz: [mark; 3],
            errors: [mark; 8],
            entry: [usize::MAX; 2],
            years: [i32::MIN; 2],
            place: usize::MAX,
            uncertainty: mark,
        }
    }

    /// The bits of each float. 0 and -0 are two; all NaNs are one.
    fn bits(&self) -> [u32; 12] {
        let mut bits = [0; 12];
        let floats = self.xyz.iter().chain(&self.errors);
        for (bits, x) in bits.iter_mut().zip(floats.chain([&self.uncertainty])) {
            *bits = if x.is_nan() { 0x7fc0_0000 } else { x.to_bits() };
        }
        bits
    }
}

impl PartialEq for Places {
    fn eq(&self, other: &Places) -> bool {
        self.bits() == other.bits()
            && self.entry == other.entry
            && self.years == other.years
            && self.place == other.place
    }
}

/// The answer's number, 0 or the refusal's, and the places after the call.
pub type Answer = (u32, Places);

/// An answer in words, its floats by their bits.
pub fn told((number, places): &Answer) -> String {
    let Places {
        entry,
        years,
        place,
        ..
    } = places;
    let bits = places.bits().map(|bits| format!("{bits:08x}"));
    let floats = bits.join(" ");
    format!("{number}, floats {floats}, entry {entry:?}, years {years:?}, place {place}")
}

/// The proved Field with a list.
pub fn our_field(place: &Place, set: &Set, list: &List) -> Answer {
    let mut places = Places::unwritten();
    let [g, h, g_dot, h_dot] = &set.lists;
    let records = list.lent();
    // SAFETY: each pointer and length are those of one slice, and no two places overlap.
    let number = unsafe {
        sys::njerumoy_field_listed(
            place.height,
            place.sin_phi,
            place.cos_phi,
            place.sin_lambda,
            place.cos_lambda,
            place.year,
            place.day,
            set.epoch_year,
            g.as_ptr(),
            g.len(),
            h.as_ptr(),
            h.len(),
            g_dot.as_ptr(),
            g_dot.len(),
            h_dot.as_ptr(),
            h_dot.len(),
            records.as_ptr(),
            records.len(),
            &mut places.xyz,
            &mut places.errors,
            &mut places.entry,
            &mut places.years,
        )
    };
    (number, places)
}

/// The proved Field without a list.
pub fn our_field_alone(place: &Place, set: &Set) -> Answer {
    let mut places = Places::unwritten();
    let [g, h, g_dot, h_dot] = &set.lists;
    // SAFETY: as above.
    let number = unsafe {
        sys::njerumoy_field(
            place.height,
            place.sin_phi,
            place.cos_phi,
            place.sin_lambda,
            place.cos_lambda,
            place.year,
            place.day,
            set.epoch_year,
            g.as_ptr(),
            g.len(),
            h.as_ptr(),
            h.len(),
            g_dot.as_ptr(),
            g_dot.len(),
            h_dot.as_ptr(),
            h_dot.len(),
            &mut places.xyz,
            &mut places.errors,
            &mut places.entry,
            &mut places.years,
        )
    };
    (number, places)
}

/// The proved Uncertainty with a list.
pub fn our_uncertainty([x, y, z]: [f32; 3], epoch_year: i32, list: &List) -> Answer {
    let mut places = Places::unwritten();
    let (records, length) = (list.lent().as_ptr(), list.lent().len());
    let place = &mut places.uncertainty;
    // SAFETY: as above.
    let number = unsafe {
        sys::njerumoy_declination_uncertainty_listed(x, y, z, epoch_year, records, length, place)
    };
    (number, places)
}

/// The proved Uncertainty without a list.
pub fn our_uncertainty_alone([x, y, z]: [f32; 3], epoch_year: i32) -> Answer {
    let mut places = Places::unwritten();
    let place = &mut places.uncertainty;
    // SAFETY: the call has no pointer but that of one place.
    let number = unsafe { sys::njerumoy_declination_uncertainty(x, y, z, epoch_year, place) };
    (number, places)
}

/// The oracle's answer, written into the places by the rule of the C entries.
pub(crate) fn answer<T>(result: Result<T, Refusal>, write: impl FnOnce(&mut Places, T)) -> Answer {
    let mut places = Places::unwritten();
    let number = match result {
        Ok(value) => {
            write(&mut places, value);
            0
        }
        Err(refusal) => {
            match refusal {
                Refusal::Coefficient { list, index } => places.entry = [list, index],
                Refusal::OtherEpoch { of_day, of_set } => places.years = [of_day, of_set],
                Refusal::WrongTag { place }
                | Refusal::WrongLength { place }
                | Refusal::WrongEnd { place } => places.place = place,
                _ => {}
            }
            refusal.number()
        }
    };
    (number, places)
}

/// The oracle's answer to a call of Field.
pub(crate) fn field_answer(result: Result<GeomagneticField, Refusal>) -> Answer {
    answer(result, |places, field| {
        places.xyz = [field.x, field.y, field.z];
        places.errors = field.error_model.figures();
    })
}

pub fn rust_field(place: &Place, set: &Set, list: &List) -> Answer {
    field_answer(field_listed(place, set, &list.rust))
}

pub fn rust_uncertainty(xyz: [f32; 3], epoch_year: i32, list: &List) -> Answer {
    let result = uncertainty_listed(&components(xyz), epoch_year, &list.rust);
    answer(result, |places, value| places.uncertainty = value)
}
