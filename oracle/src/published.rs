//! The published test values through the oracle. A row: model, date, height [km], latitude and
//! longitude [degrees], D, I [degrees], H, X, Y, Z, F [nT].
use crate::coefficients::Lists;
use crate::entries::{field, Set};
use crate::field::{Geocentric, GeomagneticField};
use crate::format::put_set;
use crate::models::{error_model_by_epoch_year, model_by_epoch_year};

const NAMES: [&str; 7] = ["D", "I", "H", "X", "Y", "Z", "F"];
/// The largest difference that is taken: D and I are printed to 0.01 degree, strengths to 0.1 nT.
const ALLOWED: [f64; 7] = [0.01, 0.01, 0.1, 0.1, 0.1, 0.1, 0.1];

/// One row, as numbers.
pub struct Row {
    pub model: i32,
    pub date: f64,
    pub height_km: f64,
    pub latitude_deg: f64,
    pub longitude_deg: f64,
    /// D, I, H, X, Y, Z, F.
    pub listed: [f64; 7],
}

pub fn parse_row(line: &str) -> Option<Row> {
    let mut words = line.split_whitespace();
    let model = words.next()?.parse().ok()?;
    let numbers: Vec<f64> = words.map(|word| word.parse().ok()).collect::<Option<_>>()?;
    if numbers.len() != 11 {
        return None;
    }
    let mut listed = [0.0; 7];
    listed.copy_from_slice(&numbers[4..]);
    Some(Row {
        model,
        date: numbers[0],
        height_km: numbers[1],
        latitude_deg: numbers[2],
        longitude_deg: numbers[3],
        listed,
    })
}

/// What the modules are lent for a row: the height in metres, and the sines and cosines of f64
/// rounded to f32.
pub fn lent(row: &Row) -> [f32; 5] {
    let (sin_phi, cos_phi) = row.latitude_deg.to_radians().sin_cos();
    let (sin_lambda, cos_lambda) = row.longitude_deg.to_radians().sin_cos();
    [
        row.height_km * 1000.0,
        sin_phi,
        cos_phi,
        sin_lambda,
        cos_lambda,
    ]
    .map(|x| x as f32)
}

/// The field of a row. Sines and cosines are those of f64, rounded to f32. At a whole year the
/// entry Field is asked; at another date the modules are run with that offset.
fn field_of(row: &Row) -> Option<GeomagneticField> {
    let model = model_by_epoch_year(row.model)?;
    let [height, sin_phi, cos_phi, sin_lambda, cos_lambda] = lent(row);
    if row.date.fract() == 0.0 {
        let year = row.date as i32;
        let set = Set::of(model);
        return field(
            height, sin_phi, cos_phi, sin_lambda, cos_lambda, year, 1, &set,
        )
        .ok();
    }
    let offset = (row.date - f64::from(row.model)) as f32;
    let there = Geocentric::of(height, sin_phi, cos_phi, sin_lambda, cos_lambda);
    let lists = Lists::Degree12([&model.g, &model.h, &model.g_dot, &model.h_dot]);
    let (x, y, z) = there.field_at_offset(lists, offset);
    let error_model = *error_model_by_epoch_year(row.model)?;
    Some(GeomagneticField {
        x,
        y,
        z,
        error_model,
    })
}

/// Compares every row of the text and prints the differences. Gives the number of rows that could
/// not be read, were refused, or differ by more than is allowed.
pub fn compare(text: &str) -> usize {
    let mut rows = 0;
    let mut failed = 0;
    let mut largest = [0.0f64; 7];
    for line in text.lines() {
        if line.trim().is_empty() || line.starts_with('#') {
            continue;
        }
        rows += 1;
        let found = parse_row(line).and_then(|row| Some((field_of(&row)?, row)));
        let Some((field, row)) = found else {
            println!("no field: {line}");
            failed += 1;
            continue;
        };
        let (x, y, z) = (f64::from(field.x), f64::from(field.y), f64::from(field.z));
        let (h, f) = (f64::from(field.h()), f64::from(field.f()));
        let declination = y.atan2(x).to_degrees();
        let inclination = z.atan2(h).to_degrees();
        let ours = [declination, inclination, h, x, y, z, f];
        let mut said = String::new();
        let mut bad = false;
        for (i, name) in NAMES.iter().enumerate() {
            let difference = ours[i] - row.listed[i];
            largest[i] = largest[i].max(difference.abs());
            bad |= difference.is_nan() || difference.abs() > ALLOWED[i];
            said += &format!(" {name} {difference:+.4}");
        }
        let place = (row.height_km, row.latitude_deg, row.longitude_deg);
        println!(
            "{} {} {} {} {}:{said}{}",
            row.model,
            row.date,
            place.0,
            place.1,
            place.2,
            if bad { " TOO LARGE" } else { "" }
        );
        failed += usize::from(bad);
    }
    let mut said = String::new();
    for (i, name) in NAMES.iter().enumerate() {
        said += &format!(" {name} {:.4}", largest[i]);
    }
    println!("largest:{said}");
    println!("{rows} rows, {failed} failed");
    failed
}

/// The rows as lines for the program replay, which says `within` where each of X, Y and Z lies
/// within 0.1 nT of the listed value. Gives nothing where a row cannot be read.
pub fn lines(text: &str) -> Option<Vec<u8>> {
    let mut out = Vec::new();
    let mut model_in_force = 0;
    for line in text.lines() {
        if line.trim().is_empty() || line.starts_with('#') {
            continue;
        }
        let row = parse_row(line)?;
        if row.model != model_in_force {
            put_set(&mut out, &Set::of(model_by_epoch_year(row.model)?));
            out.push(b'\n');
            model_in_force = row.model;
        }
        let hex = |numbers: &[f32]| -> String {
            numbers
                .iter()
                .map(|x| format!(" {:08x}", x.to_bits()))
                .collect()
        };
        let date = if row.date.fract() == 0.0 {
            format!(" {} 1", row.date)
        } else {
            hex(&[(row.date - f64::from(row.model)) as f32])
        };
        let word = if row.date.fract() == 0.0 {
            "ROW"
        } else {
            "MID"
        };
        let listed: Vec<f32> = row.listed[3..6].iter().map(|x| *x as f32).collect();
        let said = format!(
            "{word}{}{date}{} = within\n",
            hex(&lent(&row)),
            hex(&listed)
        );
        out.extend_from_slice(said.as_bytes());
    }
    Some(out)
}
