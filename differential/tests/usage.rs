//! A wrong argument of `differential/run` or `benchmark/run` is answered by the usage line and exit status 2, and nothing
//! is run.

use std::process::Command;

#[track_caller]
fn is_refused(script: &str, words: &[&str]) {
    let path = format!("{}/../{script}", env!("CARGO_MANIFEST_DIR"));
    let output = Command::new(path).args(words).output().unwrap();
    let said = String::from_utf8_lossy(&output.stderr).into_owned();
    assert_eq!(output.status.code(), Some(2), "{script} {words:?}: {said}");
    assert!(said.starts_with(&format!("usage: {script} ")) && said.lines().count() == 1, "{said}");
    assert!(output.stdout.is_empty());
}

#[test]
fn differential() {
    for seconds in ["0", "00", "", "-1", "1.5", "x", "45s", " 45", "--help", "10000000000"] {
        is_refused("differential/run", &[seconds]);
        is_refused("differential/run", &[seconds, "7"]);
    }
    for seed in ["", "-7", "x", "7x", "0x7", "99999999999999999999"] {
        is_refused("differential/run", &["1", seed]);
    }
    is_refused("differential/run", &["1", "7", "7"]);
}

#[test]
fn benchmark() {
    is_refused("benchmark/run", &["--help"]);
    is_refused("benchmark/run", &["200"]);
}
