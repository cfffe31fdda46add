//! Where our grid variation is not the crate's: answered lines are held to the crate's rule.
use crate::field::grid_variation;
use crate::format::{parse_case, Case};
use std::io::{self, BufRead};

/// What the answered GV lines of an input have, beside the crate's rule.
#[derive(Debug, Default)]
pub struct Beside {
    pub answers: u64,
    /// Answers with other bits than the crate's, or where only one of the two has a value.
    pub unlike: u64,
    /// Of those unlike: -180 by the crate's rule, and 180 in the line.
    pub south: u64,
}

/// The bits of a GV line's answer, or `None` for no value. Other lines and refusals give nothing.
fn answered(line: &str) -> Option<(Case<'_>, Option<u32>)> {
    let (question, answer) = line.split_once(" = ")?;
    let bits = match answer.strip_prefix("0 ")? {
        "N" => None,
        value => Some(u32::from_str_radix(value.strip_prefix("P ")?, 16).ok()?),
    };
    Some((parse_case(question.as_bytes())?, bits))
}

/// Holds every answered GV line of the input to the crate's rule.
pub fn beside_crate(input: &mut impl BufRead) -> io::Result<Beside> {
    let mut beside = Beside::default();
    let mut line = Vec::new();
    while input.read_until(b'\n', &mut line)? > 0 {
        let text = String::from_utf8_lossy(&line);
        if let Some((
            Case::Gv {
                latitude_deg,
                longitude_deg,
                declination_deg,
            },
            bits,
        )) = answered(text.trim_end_matches('\n'))
        {
            let of_crate = grid_variation(latitude_deg, longitude_deg, declination_deg);
            beside.answers += 1;
            beside.unlike += u64::from(bits != of_crate.map(f32::to_bits));
            beside.south +=
                u64::from(of_crate == Some(-180.0) && bits == Some(180.0_f32.to_bits()));
        }
        line.clear();
    }
    Ok(beside)
}
