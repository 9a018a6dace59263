//! The comparison of streams finds the reference equal to itself, and a program that
//! does not answer is unequal.

use std::process::Command;

fn streams_pass(arguments: &[&str]) -> bool {
    let output = Command::new(env!("CARGO_BIN_EXE_streams")).args(arguments).output();
    output.expect("the comparison runs").status.success()
}

fn passes(arguments: &[&str]) -> bool {
    let output = Command::new(env!("CARGO_BIN_EXE_differential")).args(arguments).output();
    output.expect("the comparison runs").status.success()
}

#[test]
fn a_program_that_does_not_answer_is_unequal() {
    assert!(!passes(&["--patience", "1", "--", env!("CARGO_BIN_EXE_reference_balance")]));
}

#[test]
fn the_references_statement_is_equal_to_itself() {
    let program = env!("CARGO_BIN_EXE_reference_statement");
    assert!(streams_pass(&["statement", "--streams", "200", "--", program]));
}

#[test]
fn the_references_salvage_is_equal_to_itself() {
    let program = env!("CARGO_BIN_EXE_reference_salvage");
    assert!(streams_pass(&["salvage", "--streams", "300", "--", program]));
}

#[test]
fn a_program_that_prints_balances_is_unequal() {
    for kind in ["statement", "salvage"] {
        assert!(!streams_pass(&[kind, "--", env!("CARGO_BIN_EXE_reference_balance")]));
    }
}
