//! A run: all rows measured, the report and the plots written.
use crate::arguments::Means;
use crate::measure::measure;
use crate::plot;
use crate::report;
use crate::row;
use std::fs;
use std::path::Path;
use std::time::Instant;

/// Measures every row and writes the report into a folder. What is at is told on standard error.
pub fn run(rounds: usize, means: Means, folder: &Path) -> Result<(), String> {
    fs::create_dir_all(folder).map_err(|error| format!("the folder {} cannot be made: {error}", folder.display()))?;
    let start = Instant::now();
    let rows = row::all();
    let mut measured = Vec::new();
    for (place, row) in rows.iter().enumerate() {
        eprintln!("{:4} s: row {} of {}: {}", start.elapsed().as_secs(), place + 1, rows.len(), row.name());
        measured.push(measure(row, rounds, means == Means::Counted)?);
    }
    let run = report::Run { rounds, means, seconds: start.elapsed().as_secs() };
    write(folder, "report.md", &report::whole(&run, &measured))?;
    write(folder, "ratios.svg", &plot::ratios::plot(&measured))?;
    write(folder, "scaling.svg", &plot::scaling::plot(&measured))?;
    println!("{}", report::last(&measured));
    Ok(())
}

/// Writes a file.
fn write(folder: &Path, name: &str, text: &str) -> Result<(), String> {
    let file = folder.join(name);
    fs::write(&file, text).map_err(|error| format!("{} cannot be written: {error}", file.display()))
}
