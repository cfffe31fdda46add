//! The four lent lists of coefficients, g, h, g_dot, h_dot: their checks, and their degree.
use crate::entries::{within, CAPS};
use crate::refusal::Refusal;
use crate::tables::{N_COEFF, N_COEFF_MAX};

/// Four lists of one degree.
#[derive(Copy, Clone, Debug, PartialEq)]
pub enum Lists<'a> {
    Degree12([&'a [f32; N_COEFF]; 4]),
    Degree13([&'a [f32; N_COEFF_MAX]; 4]),
}

impl Lists<'_> {
    /// The rates, and in the place of the main lists the rates again.
    pub fn rates_as_main(self) -> Self {
        match self {
            Lists::Degree12([_, _, g_dot, h_dot]) => Lists::Degree12([g_dot, h_dot, g_dot, h_dot]),
            Lists::Degree13([_, _, g_dot, h_dot]) => Lists::Degree13([g_dot, h_dot, g_dot, h_dot]),
        }
    }
}

/// The four lists, if all have this length.
#[inline]
fn all_of<const LENGTH: usize>(lists: [&[f32]; 4]) -> Option<[&[f32; LENGTH]; 4]> {
    let whole = |i: usize| <&[f32; LENGTH]>::try_from(lists[i]).ok();
    Some([whole(0)?, whole(1)?, whole(2)?, whole(3)?])
}

/// The lists of one degree. Refusal 6, a length neither 90 nor 104; then 23, both lengths; then 7, at
/// the first bad place.
// inlined, since Sum and Field are timed: a call would hand the lists on through memory
#[inline(always)]
pub fn check_lists(lists: [&[f32]; 4]) -> Result<Lists<'_>, Refusal> {
    if let Some(lists) = all_of(lists) {
        check_entries(lists)?;
        return Ok(Lists::Degree12(lists));
    }
    if let Some(lists) = all_of(lists) {
        check_entries(lists)?;
        return Ok(Lists::Degree13(lists));
    }
    Err(wrong_lengths(lists))
}

/// The lists of one degree, their entries not looked at. Refusal 6, then 23.
pub fn check_lengths(lists: [&[f32]; 4]) -> Result<Lists<'_>, Refusal> {
    if let Some(lists) = all_of(lists) {
        return Ok(Lists::Degree12(lists));
    }
    if let Some(lists) = all_of(lists) {
        return Ok(Lists::Degree13(lists));
    }
    Err(wrong_lengths(lists))
}

/// Why four lists are not of one degree: 6, a length neither 90 nor 104, or 23.
#[inline]
fn wrong_lengths(lists: [&[f32]; 4]) -> Refusal {
    let is_whole = |list: &&[f32]| [N_COEFF, N_COEFF_MAX].contains(&list.len());
    if lists.iter().all(is_whole) {
        Refusal::Degree
    } else {
        Refusal::Length
    }
}

/// The lists of a set that is stored. Refusal 6, a length other than 90; then 7.
pub fn check_stored_lists(lists: [&[f32]; 4]) -> Result<[&[f32; N_COEFF]; 4], Refusal> {
    let lists = all_of(lists).ok_or(Refusal::Length)?;
    check_entries(lists)?;
    Ok(lists)
}

/// Refusal 7 at the first bad place, by list and then by index.
// with a loop of its own, since Sum and Field are timed: `check_list` in its place made Field slower
#[inline]
pub fn check_entries<const LENGTH: usize>(lists: [&[f32; LENGTH]; 4]) -> Result<(), Refusal> {
    for (list, entries) in lists.into_iter().enumerate() {
        for (index, entry) in entries.iter().enumerate() {
            if !within(*entry, -CAPS[list], CAPS[list]) {
                return Err(Refusal::Coefficient { list, index });
            }
        }
    }
    Ok(())
}

/// Refusal 7 at the first bad place of one list, by its cap. It carries the list's number.
pub fn check_list(list: usize, cap: f32, entries: &[f32]) -> Result<(), Refusal> {
    for (index, entry) in entries.iter().enumerate() {
        if !within(*entry, -cap, cap) {
            return Err(Refusal::Coefficient { list, index });
        }
    }
    Ok(())
}
