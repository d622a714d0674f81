//! The comparison finds no difference in the reference itself, and finds each seeded fault.

use reference::compare::fault_names;
use std::process::{Command, Output};

/// Segments are left out where a fault, by its name, is not one of theirs.
fn compare(fault: Option<&str>) -> Output {
    let of_segments = fault.is_none_or(|name| name.starts_with("segment-"));
    let segments = if of_segments { "1200" } else { "0" };
    let mut command = Command::new(env!("CARGO_BIN_EXE_compare"));
    command.args(["--first", "1000", "600", segments, "1000"]).env_remove("LHRS_FAULT");
    command.envs(fault.map(|name| ("LHRS_FAULT", name)));
    command.output().expect("compare runs")
}

fn last_line(output: &Output) -> String {
    String::from_utf8_lossy(&output.stdout).lines().last().unwrap_or_default().into()
}

#[test]
fn no_fault_no_difference() {
    let output = compare(None);
    assert!(output.status.success());
    assert!(last_line(&output).ends_with(" calls, 0 differences"));
}

#[test]
fn each_fault_is_found() {
    for fault in fault_names() {
        let output = compare(Some(fault));
        assert_eq!(output.status.code(), Some(1), "{fault}");
        let line = last_line(&output);
        assert!(line.starts_with("compared: up to a difference, "), "{fault}");
        assert!(!line.ends_with(" 0 differences"), "{fault}");
    }
}
