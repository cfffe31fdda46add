//! The published sets as files, in the agency's layout, and the bytes that spoil them in tests.
use crate::models::{model_by_epoch_year, WmmModel};
use crate::tables::WMM_MAX;

/// The bytes that take the place of another in a spoilt file.
pub const SPOILING: [u8; 12] = *b"09-+.e \t\r\n\0\xff";

/// How many nines each of the two last lines has.
const NINES: usize = 48;

/// The file of a published epoch: a header, 90 lines, two lines of nines.
pub fn published_file(epoch_year: i32) -> Option<Vec<u8>> {
    let released = match epoch_year {
        2020 => "12/10/2019",
        2025 => "11/13/2024",
        _ => return None,
    };
    let model = model_by_epoch_year(epoch_year)?;
    let mut text = format!("    {epoch_year}.0            WMM-{epoch_year}     {released}\n");
    text.push_str(&coefficient_lines(model));
    for _ in 0..2 {
        text.push_str(&"9".repeat(NINES));
        text.push('\n');
    }
    Some(text.into_bytes())
}

/// The lines of a set's coefficients, each number with one digit after its point.
fn coefficient_lines(model: &WmmModel) -> String {
    let mut text = String::new();
    let mut index = 0;
    for degree in 1..=WMM_MAX {
        for order in 0..=degree {
            let (g, h) = (model.g[index], model.h[index]);
            let (g_dot, h_dot) = (model.g_dot[index], model.h_dot[index]);
            text.push_str(&format!(
                "{degree:3}{order:3}{g:10.1}{h:10.1}{g_dot:11.1}{h_dot:11.1}\n"
            ));
            index += 1;
        }
    }
    text
}
