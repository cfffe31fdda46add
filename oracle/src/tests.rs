//! Tests: the worked examples of document 01, the refusals and their order, the agency's file, lists
//! of error records, angles in degrees, due south, stored sets, yearly rates, degree 13, the IGRF
//! profile, the definitive sets, the line format, and the generated cases.
mod agency;
mod angles;
mod degrees;
mod dgrf;
mod double;
mod format;
mod generated;
mod igrf;
mod igrf_cases;
mod igrf_lines;
mod lengths;
mod listed;
mod paper;
mod rates;
mod rates_lines;
mod records;
mod refusals;
mod south;
mod stored;
mod stored_lines;
mod thirteen;
mod thirteen_lines;
mod words;

use crate::entries::Set;
use crate::tables::N_COEFF;

/// A set of 2020 that is zero but for the named entries, each (list, index, value).
fn set_of(entries: &[(usize, usize, f32)]) -> Set {
    let mut set = Set {
        epoch_year: 2020,
        lists: [0, 1, 2, 3].map(|_| vec![0.0; N_COEFF]),
    };
    for (list, index, value) in entries {
        set.lists[*list][*index] = *value;
    }
    set
}
