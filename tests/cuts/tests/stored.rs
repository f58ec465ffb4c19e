//! What the program prints is what its file `stdout` has.

use std::process::Command;

#[test]
fn stored() {
    let output = Command::new(env!("CARGO_BIN_EXE_cuts")).output().expect("the program runs");
    assert!(output.status.success(), "{}", String::from_utf8_lossy(&output.stderr));
    assert_eq!(String::from_utf8_lossy(&output.stdout), include_str!("../stdout"));
}
