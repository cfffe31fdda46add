//! Measures our sines, cosines and directions. The script `run` says how it is used.
mod beside;
mod directions;
mod fields;
mod largest;
mod library;
mod pairs;
mod samples;

use std::env;
use std::process::ExitCode;
use std::time::Instant;

/// A measure gives whether all is as it should be.
type Measure = fn() -> bool;

/// What can be measured, by its name.
const PARTS: [(&str, Measure); 3] = [
    ("pairs", pairs::measure),
    ("directions", directions::measure),
    ("fields", fields::measure),
];

fn main() -> ExitCode {
    let words: Vec<String> = env::args().skip(1).collect();
    let known = |word: &String| PARTS.iter().any(|(name, _)| name == word);
    if !words.iter().all(known) {
        eprintln!("angles [pairs] [directions] [fields]");
        return ExitCode::from(2);
    }
    let mut good = true;
    for (name, measure) in PARTS {
        if words.is_empty() || words.iter().any(|word| word == name) {
            println!("\n---- {name}");
            let began = Instant::now();
            good &= measure();
            println!("{:.0} s", began.elapsed().as_secs_f64());
        }
    }
    if good {
        ExitCode::SUCCESS
    } else {
        println!("angles: not all is as it should be");
        ExitCode::FAILURE
    }
}
