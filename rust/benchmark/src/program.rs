//! The arguments and the end of a program that measures.
use std::env;
use std::process::ExitCode;

/// Does what the arguments say; an error is told by its words, behind the program's name.
pub fn ended(name: &str, run: impl Fn(&[&str]) -> Result<(), String>) -> ExitCode {
    let given: Vec<String> = env::args().skip(1).collect();
    let given: Vec<&str> = given.iter().map(String::as_str).collect();
    match run(&given) {
        Ok(()) => ExitCode::SUCCESS,
        Err(words) => {
            eprintln!("{name}: {words}");
            ExitCode::FAILURE
        }
    }
}

/// A number of rounds, which is not 0.
pub fn rounds(word: &str) -> Result<usize, String> {
    match word.parse() {
        Ok(rounds) if rounds > 0 => Ok(rounds),
        _ => Err(format!("{word} is no number of rounds")),
    }
}

/// Prints how a program is called.
pub fn help(usage: &str) -> Result<(), String> {
    println!("{usage}");
    Ok(())
}
