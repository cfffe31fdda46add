//! The rows of stored sets: Field with one, on the cases of the row Field, and reading and writing one.
use crate::cases::{Both, FieldCase};
use crate::{answered, place};
use bench::reading::{self, LENGTH, STORED};
use bench::stored::{our_field, our_write_into, rust_field, rust_write_into, Places};
use bench::timing::{row, row_lent};
use oracle::cases::stored::tagged;
use oracle::entries::Place;
use oracle::stored::STORED_LENGTH;

/// Gives whether our bits are the oracle's.
pub fn rows(rounds: usize, fields: &[FieldCase], sets: &[Both]) -> bool {
    let stored: Vec<Vec<u8>> = sets.iter().map(|set| tagged(&set.rust)).collect();
    let places: Vec<(Place, usize)> = fields.iter().map(|c| (place(c), c.set)).collect();
    let same = [
        row(
            "Field, stored set",
            rounds,
            &places,
            |(place, at)| answered(our_field(&stored[*at], place)),
            |(place, at)| answered(rust_field(&stored[*at], place)),
        ),
        row_lent(
            "read a stored set",
            rounds,
            fields,
            reading::Places::unwritten,
            |c, places| STORED.ours_into(places, &stored[c.set], [LENGTH; 4]),
            |c, places| STORED.rust_into(places, &stored[c.set], [LENGTH; 4]),
        ),
        row_lent(
            "write a stored set",
            rounds,
            fields,
            Places::unwritten,
            |c, places| our_write_into(places, &sets[c.set].rust, STORED_LENGTH),
            |c, places| rust_write_into(places, &sets[c.set].rust, STORED_LENGTH),
        ),
    ];
    same.iter().all(|same| *same)
}
