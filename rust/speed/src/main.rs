//! The benchmark. `speed --help` prints how it is called.
use speed::arguments::{self, Arguments};
use speed::{measure, run};
use std::process::ExitCode;

/// Does what the arguments say; an error is told by its words.
fn act(arguments: Arguments) -> Result<(), String> {
    match arguments {
        Arguments::Run { rounds, means, folder } => run::run(rounds, means, &folder),
        Arguments::Once(row) => measure::once(&row).map(|records| println!("{records} records")),
    }
}

fn main() -> ExitCode {
    let given: Vec<String> = std::env::args().skip(1).collect();
    if given.iter().any(|word| word == "--help") {
        println!("{}", arguments::USAGE);
        return ExitCode::SUCCESS;
    }
    match arguments::parse(&given).and_then(act) {
        Ok(()) => ExitCode::SUCCESS,
        Err(words) => {
            eprintln!("speed: {words}");
            ExitCode::FAILURE
        }
    }
}
