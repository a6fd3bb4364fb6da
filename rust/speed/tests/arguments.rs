//! What the program takes, and what it refuses.
use speed::arguments::{parse, Arguments, Means};
use speed::row;
use std::collections::BTreeSet;
use std::path::PathBuf;

fn parsed(words: &str) -> Result<Arguments, String> {
    parse(&words.split_whitespace().map(String::from).collect::<Vec<_>>())
}

#[test]
fn a_run() {
    let run = |rounds, means, folder: &str| Ok(Arguments::Run { rounds, means, folder: PathBuf::from(folder) });
    assert_eq!(parsed("--rounds 7 here"), run(7, Means::Counted, "here"));
    assert_eq!(parsed("here --no-instructions --rounds 7"), run(7, Means::Timed, "here"));
    assert_eq!(parsed("--emulated here --rounds 7"), run(7, Means::Emulated, "here"));
    assert!(matches!(parsed(""), Ok(Arguments::Run { rounds: 101, means: Means::Counted, .. })));
}

#[test]
fn every_row_has_its_name() {
    let rows = row::all();
    let names: BTreeSet<String> = rows.iter().map(row::Row::name).collect();
    assert_eq!(names.len(), 3 * 2 + 3 * 2 + 3 * 2 * 2 * 3 + 3 * 3 + 10);
    assert_eq!(names.len(), rows.len());
    for row in rows {
        assert_eq!(parsed(&format!("once {}", row.name())), Ok(Arguments::Once(row)));
    }
}

#[test]
fn refused() {
    for words in ["--rounds", "--rounds 0", "--rounds x", "--rounds -1", "--round 3", "-h", "one two", "once", "once x", "once x y"] {
        assert!(parsed(words).is_err(), "{words}");
    }
}
