//! The yearly rates, ours and the oracle's, with all that a call can write.
use njerumoy::sys::njerumoy_rates;
use oracle::entries::{Place, Refusal, Set};
use oracle::rates::rates;

/// What stands in the place of a rate before a call, by its bits: no call writes a NaN.
const MARK: u32 = 0xffff_ffff;

/// The number, 0 or the refusal's, and the places after a call. At first each holds a mark, so that it
/// shows what was written.
#[derive(Debug, PartialEq)]
pub struct Answer {
    pub number: u32,
    /// The rates by their bits: 0 and -0 are two.
    rates: [u32; 7],
    entry: [usize; 2],
    years: [i32; 2],
}

impl Answer {
    fn unwritten() -> Answer {
        Answer {
            number: 0,
            rates: [MARK; 7],
            entry: [usize::MAX; 2],
            years: [i32::MIN; 2],
        }
    }
}

/// The proved Rates.
pub fn our_rates(place: &Place, set: &Set) -> Answer {
    let mut answer = Answer::unwritten();
    let mut seven = answer.rates.map(f32::from_bits);
    let [g, h, g_dot, h_dot] = &set.lists;
    // SAFETY: each pointer and length are those of one slice, and no two places overlap.
    answer.number = unsafe {
        njerumoy_rates(
            place.height,
            place.sin_phi,
            place.cos_phi,
            place.sin_lambda,
            place.cos_lambda,
            place.year,
            place.day,
            set.epoch_year,
            g.as_ptr(),
            g.len(),
            h.as_ptr(),
            h.len(),
            g_dot.as_ptr(),
            g_dot.len(),
            h_dot.as_ptr(),
            h_dot.len(),
            &mut seven,
            &mut answer.entry,
            &mut answer.years,
        )
    };
    answer.rates = seven.map(f32::to_bits);
    answer
}

/// The oracle's. Its answer is written into the places by the rule of the C entry.
pub fn rust_rates(place: &Place, set: &Set) -> Answer {
    let mut answer = Answer::unwritten();
    match rates(place, set) {
        Ok(seven) => answer.rates = seven.map(f32::to_bits),
        Err(refusal) => {
            answer.number = refusal.number();
            match refusal {
                Refusal::Coefficient { list, index } => answer.entry = [list, index],
                Refusal::OtherEpoch { of_day, of_set } => answer.years = [of_day, of_set],
                _ => {}
            }
        }
    }
    answer
}
