//! The listing program, run as a process.

use std::ffi::OsStr;
use std::io::{self, Write};
use std::process::{Command, Stdio};

/// What the program prints of this input.
pub fn printed(program: &OsStr, input: &[u8]) -> io::Result<String> {
    let mut child = Command::new(program)
        .stdin(Stdio::piped())
        .stdout(Stdio::piped())
        .spawn()?;
    // The program may stop reading before the end of its input.
    let _ = child.stdin.take().map(|mut stdin| stdin.write_all(input));
    let output = child.wait_with_output()?;
    Ok(String::from_utf8_lossy(&output.stdout).into_owned())
}
