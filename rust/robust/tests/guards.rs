//! The guards end a process that touches a byte beside a buffer.

#![cfg(target_os = "linux")]

use std::os::unix::process::ExitStatusExt;
use std::process::{Command, Output};

const SEGMENTATION_FAULT: i32 = 11;

fn touch(edge: &str, access: &str) -> Output {
    Command::new(env!("CARGO_BIN_EXE_robust"))
        .args(["touch", edge, access])
        .output()
        .expect("it runs")
}

#[test]
fn a_byte_beside_a_buffer_ends_the_process() {
    for edge in ["end", "start"] {
        for access in ["read", "write"] {
            let status = touch(edge, access).status;
            assert_eq!(status.signal(), Some(SEGMENTATION_FAULT), "{edge} {access}");
        }
    }
}

#[test]
fn a_sealed_file_can_only_be_read() {
    let status = touch("sealed", "write").status;
    assert_eq!(status.signal(), Some(SEGMENTATION_FAULT));
    assert_eq!(touch("sealed", "read").stdout, b"touched 7\n");
}

#[test]
fn a_byte_inside_does_not() {
    let told = |access| String::from_utf8_lossy(&touch("inside", access).stdout).to_string();
    assert_eq!(told("read"), "touched 7\n");
    assert_eq!(told("write"), "touched 1\n");
}
