//! The program as a whole, on the archive that it is linked with.

use std::process::{Command, Output};

fn arith_check(arguments: &[&str]) -> Output {
    Command::new(env!("CARGO_BIN_EXE_arith-check"))
        .args(arguments)
        .output()
        .expect("the program starts")
}

fn last_line(output: &[u8]) -> String {
    let text = String::from_utf8_lossy(output);
    text.lines().last().unwrap_or_default().to_string()
}

#[test]
fn a_range_that_agrees_ends_well() {
    let output = arith_check(&["root", "--from", "3f800000", "--to", "3f8000ff"]);
    assert_eq!(last_line(&output.stdout), "root: 256 patterns, 0 differ");
    assert_eq!(output.status.code(), Some(0));
}

#[test]
fn the_fused_line_names_count_and_seed() {
    let output = arith_check(&["fused", "--count", "1", "--seed", "7", "--threads", "1"]);
    assert_eq!(
        last_line(&output.stdout),
        "fused: 262144 triples, 0 differ (seed 7)"
    );
    assert_eq!(output.status.code(), Some(0));
}

#[test]
fn a_wrong_line_is_answered_with_the_usage() {
    let output = arith_check(&["root", "--form", "0"]);
    assert_eq!(output.status.code(), Some(2));
    assert!(output.stdout.is_empty());
    assert!(String::from_utf8_lossy(&output.stderr).contains("usage:"));
}
