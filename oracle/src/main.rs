//! The oracle: the Rust side of the comparison. README.md says how it is used.
use oracle::cases::{write_cases, Kind, KINDS, NAMED_KINDS};
use oracle::{published, replay, roots, south};
use std::env;
use std::fs;
use std::io::{self, BufReader, BufWriter, ErrorKind};
use std::process::ExitCode;

const USAGE: &str = "\
oracle answer                        answers the case lines of standard input
oracle cases SEED COUNT [KIND ...]   writes COUNT case lines with their answers
                                     (SUM FIELD EPOCH STR GV SQRT BAD DEC WHOLE COF; none named: all
                                     of these; and FLIST ULIST TRIG DECL DIR FDEG SOUTH SREAD SWRITE
                                     RATES SUM13 FIELD13 FLIST13 FDEG13 RATES13 IGRF IRATES, where they are
                                     named)
oracle south                         counts the answered GV lines of standard input, those that are
                                     not as the crate has them, and of these those that are -180
                                     there and 180 here
oracle roots                         compares the root on all 2^31 patterns, two threads
oracle published FILE                compares the published test values
oracle rows FILE                     writes them as lines for the program replay";

const BUFFER: usize = 1 << 16;

fn usage() -> ExitCode {
    eprintln!("{USAGE}");
    ExitCode::from(2)
}

fn kind_of(name: &str) -> Option<Kind> {
    KINDS
        .iter()
        .chain(&NAMED_KINDS)
        .find(|(_, known, _)| *known == name)
        .map(|(kind, _, _)| *kind)
}

/// A reader that has seen enough closes the pipe: that is no fault.
fn ended(result: io::Result<()>) -> ExitCode {
    match result {
        Err(error) if error.kind() != ErrorKind::BrokenPipe => {
            eprintln!("oracle: {error}");
            ExitCode::from(2)
        }
        _ => ExitCode::SUCCESS,
    }
}

fn run_cases(seed: &str, count: &str, names: &[&str]) -> ExitCode {
    let (Ok(seed), Ok(count)) = (seed.parse(), count.parse()) else {
        return usage();
    };
    let kinds: Option<Vec<Kind>> = if names.is_empty() {
        Some(KINDS.iter().map(|(kind, _, _)| *kind).collect())
    } else {
        names.iter().map(|name| kind_of(name)).collect()
    };
    let Some(kinds) = kinds else {
        return usage();
    };
    let mut output = BufWriter::with_capacity(BUFFER, io::stdout().lock());
    ended(write_cases(seed, count, &kinds, &mut output))
}

fn main() -> ExitCode {
    let words: Vec<String> = env::args().skip(1).collect();
    let words: Vec<&str> = words.iter().map(String::as_str).collect();
    match words[..] {
        ["answer"] => {
            let mut input = BufReader::with_capacity(BUFFER, io::stdin().lock());
            let mut output = BufWriter::with_capacity(BUFFER, io::stdout().lock());
            ended(replay::answer(&mut input, &mut output))
        }
        ["cases", seed, count, ref names @ ..] => run_cases(seed, count, names),
        ["south"] => {
            let mut input = BufReader::with_capacity(BUFFER, io::stdin().lock());
            ended(south::beside_crate(&mut input).map(|beside| {
                println!("{} {} {}", beside.answers, beside.unlike, beside.south);
            }))
        }
        ["roots"] => match roots::compare_all() {
            0 => ExitCode::SUCCESS,
            _ => ExitCode::FAILURE,
        },
        ["rows", path] => match fs::read_to_string(path)
            .ok()
            .and_then(|t| published::lines(&t))
        {
            Some(lines) => ended(io::Write::write_all(&mut io::stdout().lock(), &lines)),
            None => usage(),
        },
        ["published", file] => match fs::read_to_string(file) {
            Ok(text) if published::compare(&text) == 0 => ExitCode::SUCCESS,
            Ok(_) => ExitCode::FAILURE,
            Err(error) => {
                eprintln!("oracle: {file}: {error}");
                ExitCode::from(2)
            }
        },
        _ => usage(),
    }
}
