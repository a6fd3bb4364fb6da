//! The arguments of the program.
use crate::question::CALLS;

/// How the program is called.
pub const USAGE: &str = "\
usage: differential [--rounds N] [--seed S] [--only CALL] [--first]
       differential vectors

Compares every call of the static library, and of the crate over it, with the original Rust: boundaries, random questions, histories, and
all strings of up to 3 bytes by all five readers. The original has no repair and no totals; these calls are compared with models.
  --rounds N   so many rounds of random questions; a round has 32 of them, and every eighth a history and one of totals
  --seed S     the number that decides them; `time` takes the clock's
  --only CALL  compares only this call (totals_replace with its histories), or only `histories`
  --first      stops at the first difference
  vectors      writes the list of stored answers to standard output
Status: 0 no difference but intended ones, 1 a difference, 2 other arguments than these.";

/// The rounds of a run that does not say.
const ROUNDS: u64 = 10_000;

/// The seed of a run that does not say.
pub const SEED: u64 = 20_261_115;

/// What a run is held to.
#[derive(Clone, Copy, Debug, PartialEq, Eq)]
pub enum Only {
    /// The call of this number.
    Call(usize),
    Histories,
}

/// A run, or the list of stored answers.
#[derive(Debug, PartialEq, Eq)]
pub enum Arguments {
    Vectors,
    Run { rounds: u64, seed: u64, only: Option<Only>, first: bool },
}

/// The arguments, or what is wrong with them.
pub fn parse(given: &[String]) -> Result<Arguments, String> {
    if given == ["vectors"] {
        return Ok(Arguments::Vectors);
    }
    let (mut rounds, mut seed, mut only, mut first) = (ROUNDS, SEED, None, false);
    let mut rest = given.iter();
    while let Some(name) = rest.next() {
        let mut value = || rest.next().ok_or(format!("{name} needs a value"));
        match name.as_str() {
            "--rounds" => rounds = number(value()?)?,
            "--seed" => seed = seed_of(value()?)?,
            "--only" => only = Some(call(value()?)?),
            "--first" => first = true,
            _ => return Err(format!("{name} is not known")),
        }
    }
    Ok(Arguments::Run { rounds, seed, only, first })
}

fn number(given: &str) -> Result<u64, String> {
    given.parse().map_err(|_| format!("{given} is not a number from 0 to {}", u64::MAX))
}

fn seed_of(given: &str) -> Result<u64, String> {
    if given != "time" {
        return number(given);
    }
    let since = std::time::SystemTime::now().duration_since(std::time::UNIX_EPOCH);
    since.map(|since| since.as_nanos() as u64).map_err(|error| error.to_string())
}

fn call(given: &str) -> Result<Only, String> {
    if given == "histories" {
        return Ok(Only::Histories);
    }
    let names: Vec<_> = CALLS.into_iter().filter(|name| !name.is_empty()).collect();
    let place = CALLS.iter().position(|name| !name.is_empty() && *name == given);
    place.map(|place| Only::Call(place + 1)).ok_or(format!("{given} is no call; they are {}", names.join(", ")))
}
