//! A question to Sum, to Field in one of its three forms or to Rates, ours and the oracle's, with all that
//! the call can write.
use crate::listed::{
    answer, field_answer, our_field, our_field_alone, rust_field, told, Answer, List, Places,
};
use crate::rates::{our_rates, rust_rates};
use crate::tally::Tally;
use njerumoy::sys::{njerumoy_field_in_degrees, njerumoy_sum};
use oracle::angles::DegreePlace;
use oracle::degrees::InDegrees;
use oracle::entries::{sum, Place, Set};
use oracle::format::{put_case, Case};
use oracle::listed::{Asked, Listed};
use oracle::models::date_to_epoch_year;

/// What Sum is asked beside the lists, in its order: cos theta, sin theta, sin lambda, cos lambda, ratio,
/// offset.
type SumQuestion = [f32; 6];

/// The proved Sum.
fn our_sum(question: SumQuestion, set: &Set) -> Answer {
    let mut places = Places::unwritten();
    let [cos_theta, sin_theta, sin_lambda, cos_lambda, ratio, offset] = question;
    let [g, h, g_dot, h_dot] = &set.lists;
    // SAFETY: each pointer and length are those of one slice, and no two places overlap.
    let number = unsafe {
        njerumoy_sum(
            cos_theta,
            sin_theta,
            sin_lambda,
            cos_lambda,
            ratio,
            offset,
            g.as_ptr(),
            g.len(),
            h.as_ptr(),
            h.len(),
            g_dot.as_ptr(),
            g_dot.len(),
            h_dot.as_ptr(),
            h_dot.len(),
            &mut places.xyz,
            &mut places.entry,
        )
    };
    (number, places)
}

/// The oracle's.
fn rust_sum(question: SumQuestion, set: &Set) -> Answer {
    let [cos_theta, sin_theta, sin_lambda, cos_lambda, ratio, offset] = question;
    let result = sum(
        cos_theta, sin_theta, sin_lambda, cos_lambda, ratio, offset, &set.lists,
    );
    answer(result, |places, (x, y, z)| places.xyz = [x, y, z])
}

/// The proved Field in degrees.
fn our_field_in_degrees(place: &DegreePlace, set: &Set) -> Answer {
    let mut places = Places::unwritten();
    let [g, h, g_dot, h_dot] = &set.lists;
    // SAFETY: as above.
    let number = unsafe {
        njerumoy_field_in_degrees(
            place.height,
            place.latitude_deg,
            place.longitude_deg,
            place.year,
            place.day,
            set.epoch_year,
            g.as_ptr(),
            g.len(),
            h.as_ptr(),
            h.len(),
            g_dot.as_ptr(),
            g_dot.len(),
            h_dot.as_ptr(),
            h_dot.len(),
            &mut places.xyz,
            &mut places.errors,
            &mut places.entry,
            &mut places.years,
        )
    };
    (number, places)
}

/// Field with a list of error records, both answers.
fn listed_answers(place: &Place, listed: &Listed, set: &Set) -> [Answer; 2] {
    let list = List::of(listed.records.clone(), date_to_epoch_year(place.year));
    [our_field(place, set, &list), rust_field(place, set, &list)]
}

/// Our answer to a case and the oracle's, of the calls whose answers are places.
fn answers(case: &Case, set: &Set) -> Option<[Answer; 2]> {
    Some(match *case {
        Case::Sum {
            cos_theta,
            sin_theta,
            sin_lambda,
            cos_lambda,
            ratio,
            offset,
        } => {
            let question = [cos_theta, sin_theta, sin_lambda, cos_lambda, ratio, offset];
            [our_sum(question, set), rust_sum(question, set)]
        }
        Case::Field(ref place) => [our_field_alone(place, set), field_answer(place.field(set))],
        Case::InDegrees(InDegrees::Fdeg(ref place)) => [
            our_field_in_degrees(place, set),
            field_answer(place.field(set)),
        ],
        Case::Listed(ref listed) => match listed.asked {
            Asked::Field(ref place) => listed_answers(place, listed, set),
            Asked::Uncertainty { .. } => return None,
        },
        _ => return None,
    })
}

/// Compares a call: Sum, Field, Field in degrees, Field with error records, or Rates. No other case is one.
pub fn compare(tally: &mut Tally, name: &str, case: &Case, set: &Set) {
    let line = || {
        let mut line = Vec::new();
        put_case(&mut line, case);
        format!("{name}: {}", String::from_utf8_lossy(&line))
    };
    if let Case::Rates(place) = case {
        let (ours, rust) = (our_rates(place, set), rust_rates(place, set));
        tally.count(rust.number, ours == rust, || {
            format!("{}\n  ours {ours:08x?}\n  Rust {rust:08x?}", line())
        });
        return;
    }
    let [ours, rust] = answers(case, set).expect("a question to one of these");
    tally.count(rust.0, ours == rust, || {
        format!("{}\n  ours {}\n  Rust {}", line(), told(&ours), told(&rust))
    });
}
