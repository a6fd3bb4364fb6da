//! The arguments of the program.
use crate::row::{self, Row};
use std::path::PathBuf;

/// How the program is called.
pub const USAGE: &str = "\
usage: speed [--rounds N] [--no-instructions | --emulated] [FOLDER]
       speed once ROW

Measures reading, an adding merge, writing and the nightly pass, N rounds of all contestants in turn, and writes report.md, ratios.svg and
scaling.svg into FOLDER, or into build/speed of the repository.
  --rounds N          so many rounds of every row
  --no-instructions   does without valgrind, which counts instructions
  --emulated          does without it too, and the report says that an emulator ran the program
  once ROW            has each contestant do a part of a row's pool once, and compares the answers; ROW is such as
                      reading/mixed/ample/1024 or merging/one-byte/exact/higher/disjoint/1024";

/// The rounds of a run that does not say.
const ROUNDS: usize = 101;

/// The folder of a run that does not say.
const FOLDER: &str = concat!(env!("CARGO_MANIFEST_DIR"), "/../../build/speed");

/// What a run is measured with: the clock and valgrind, the clock alone, or the clock in an emulator.
#[derive(Clone, Copy, Debug, PartialEq, Eq)]
pub enum Means {
    Counted,
    Timed,
    Emulated,
}

/// A run, or a row done once.
#[derive(Debug, PartialEq, Eq)]
pub enum Arguments {
    Run { rounds: usize, means: Means, folder: PathBuf },
    Once(Row),
}

/// The arguments, or what is wrong with them.
pub fn parse(given: &[String]) -> Result<Arguments, String> {
    if let [once, name] = given {
        if once == "once" {
            return row::find(name).map(Arguments::Once).ok_or(format!("{name} is no row"));
        }
    }
    let (mut rounds, mut means, mut folder) = (ROUNDS, Means::Counted, None);
    let mut rest = given.iter();
    while let Some(word) = rest.next() {
        match word.as_str() {
            "--rounds" => rounds = number(rest.next().ok_or("--rounds needs a number")?)?,
            "--no-instructions" => means = Means::Timed,
            "--emulated" => means = Means::Emulated,
            "once" => return Err("once needs a row".into()),
            _ if word.starts_with('-') || word.is_empty() => return Err(format!("'{word}' is not known")),
            _ if folder.is_some() => return Err(format!("'{word}' is a folder too many")),
            _ => folder = Some(PathBuf::from(word)),
        }
    }
    Ok(Arguments::Run { rounds, means, folder: folder.unwrap_or(FOLDER.into()) })
}

/// A number of rounds.
fn number(given: &str) -> Result<usize, String> {
    match given.parse() {
        Ok(rounds) if rounds > 0 => Ok(rounds),
        _ => Err(format!("{given} is no number of rounds")),
    }
}
