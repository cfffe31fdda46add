//! What the readers of the agency's file and of stored sets share.
use crate::coefficients::check_entries;
use crate::entries::Refusal;
use crate::tables::N_COEFF;

/// What a reader finds: an epoch year and four lists.
pub type Found = (i32, [[f32; N_COEFF]; 4]);

/// Reads into four lists of 90, and gives the epoch year. Refusal 6, then those of `read`, then 7. A
/// refusal leaves the lists as they were.
pub fn read_into(
    lists: [&mut [f32]; 4],
    read: impl FnOnce() -> Result<Found, Refusal>,
) -> Result<i32, Refusal> {
    if lists.iter().any(|list| list.len() != N_COEFF) {
        return Err(Refusal::Length);
    }
    let (epoch_year, found) = read()?;
    check_entries(found.each_ref())?;
    for (list, found) in lists.into_iter().zip(&found) {
        list.copy_from_slice(found);
    }
    Ok(epoch_year)
}
