//! Instructions that functions execute, as valgrind's callgrind counts them.
use std::env;
use std::fs;
use std::process::{Command, Stdio};

/// Runs this program once more under callgrind with some arguments, and gives the instructions of each function named, with those of its calls.
pub fn instructions<const N: usize>(arguments: &[&str], functions: [&str; N]) -> Result<[u64; N], String> {
    let program = env::current_exe().map_err(|error| format!("this program is not found: {error}"))?;
    let file = env::temp_dir().join(format!("callgrind.{}", std::process::id()));
    let mut command = Command::new("valgrind");
    command.args(["--tool=callgrind", "--compress-strings=no", "--compress-pos=no"]);
    command.arg(format!("--callgrind-out-file={}", file.display()));
    command.args(functions.map(|name| format!("--toggle-collect={name}")));
    let run = command.arg(program).args(arguments).stdin(Stdio::null()).output();
    let run = run.map_err(|error| format!("valgrind did not start: {error}"))?;
    let report = fs::read_to_string(&file).unwrap_or_default();
    let _ = fs::remove_file(&file);
    if !run.status.success() || report.is_empty() {
        return Err(format!("valgrind failed: {}", String::from_utf8_lossy(&run.stderr)));
    }
    Ok(functions.map(|name| counted(&report, name)))
}

/// The instructions of one function in callgrind's report: the second numbers of the lines between its name and the next.
fn counted(report: &str, function: &str) -> u64 {
    let heading = format!("fn={function}");
    let mut within = false;
    let mut count = 0;
    for line in report.lines() {
        if line.starts_with("fn=") {
            within = line == heading;
        } else if within && line.starts_with(|first: char| first.is_ascii_digit()) {
            count += line.split(' ').nth(1).and_then(|number| number.parse::<u64>().ok()).unwrap_or(0);
        }
    }
    count
}
