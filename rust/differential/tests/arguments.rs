//! Arguments that are taken, and ones that are not.
use differential::arguments::{parse, Arguments, Only, SEED};

fn parsed(given: &str) -> Result<Arguments, String> {
    parse(&given.split_whitespace().map(String::from).collect::<Vec<_>>())
}

#[test]
fn good_arguments() {
    let run = parsed("--rounds 7 --seed 9 --only split_value_removed_bytes --first");
    assert_eq!(run, Ok(Arguments::Run { rounds: 7, seed: 9, only: Some(Only::Call(26)), first: true }));
    assert!(matches!(parsed(""), Ok(Arguments::Run { seed: SEED, only: None, first: false, .. })));
    assert!(matches!(parsed("--seed time"), Ok(Arguments::Run { .. })));
    assert!(matches!(parsed("--only histories"), Ok(Arguments::Run { only: Some(Only::Histories), .. })));
    assert_eq!(parsed("vectors"), Ok(Arguments::Vectors));
}

#[test]
fn bad_arguments() {
    for given in ["--rounds", "--rounds -1", "--rounds x", "--seed", "--seed now", "--only", "--only split", "--other", "vectors now", "7"]
    {
        assert!(parsed(given).is_err(), "{given}");
    }
    // a call that is there no more, by its name and by its empty place
    assert!(parsed("--only split_storage_removed_bytes").is_err());
    assert!(parse(&["--only".into(), "".into()]).is_err());
}
