//! The differential run. `differential --help` prints how it is called.
use differential::arguments::{self, Arguments};
use differential::run::Run;
use differential::{stages, summary, vectors};
use std::process::ExitCode;

fn main() -> ExitCode {
    let given: Vec<String> = std::env::args().skip(1).collect();
    if given.iter().any(|name| name == "--help") {
        println!("{}", arguments::USAGE);
        return ExitCode::SUCCESS;
    }
    match arguments::parse(&given) {
        Err(wrong) => {
            eprintln!("differential: {wrong}\n{}", arguments::USAGE);
            ExitCode::from(2)
        }
        Ok(Arguments::Vectors) => {
            print!("{}", vectors::list(arguments::SEED));
            ExitCode::SUCCESS
        }
        Ok(Arguments::Run { rounds, seed, only, first }) => {
            println!("seed {seed}, {rounds} rounds");
            let mut run = Run::new(only, first);
            stages::all(&mut run, rounds, seed);
            ExitCode::from(u8::from(!summary::print(&run)))
        }
    }
}
