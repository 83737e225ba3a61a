//! What the tests share: the repository's programs, and the inputs that its gate replays through them.

// each test uses some of it
#![allow(dead_code)]

use std::{
    fs,
    io::Write,
    path::{Path, PathBuf},
    process::{Command, Stdio},
    thread,
};

fn root() -> PathBuf {
    Path::new(env!("CARGO_MANIFEST_DIR")).join("../..")
}

/// The input that the gate replays through a program.
pub fn stored(program: &str) -> Vec<u8> {
    fs::read(root().join("crates").join(program).join("stdin")).unwrap()
}

/// A file that the gate lays beside a program.
pub fn data(program: &str, name: &str) -> Vec<u8> {
    fs::read(root().join("crates").join(program).join("data").join(name)).unwrap()
}

/// What a program prints in a folder with these files.
pub fn printed_in(program: &str, files: &[(&str, &[u8])]) -> Vec<u8> {
    let dir = std::env::temp_dir().join(format!("chanrelout-{program}-{}", std::process::id()));
    fs::create_dir_all(&dir).unwrap();
    for (name, text) in files {
        fs::write(dir.join(name), text).unwrap();
    }
    let run = fs::canonicalize(root().join("run")).unwrap();
    let output = Command::new(run).arg(program).current_dir(&dir).stderr(Stdio::inherit()).output().unwrap();
    fs::remove_dir_all(&dir).unwrap();
    assert!(output.status.success(), "{program}: {}", output.status);
    output.stdout
}

/// What a program prints for an input.
pub fn printed_by(program: &str, input: &[u8]) -> Vec<u8> {
    let mut child =
        Command::new(root().join("run")).arg(program).stdin(Stdio::piped()).stdout(Stdio::piped()).spawn().unwrap();
    let mut stdin = child.stdin.take().unwrap();
    let input = input.to_vec();
    // a program may end before all is read
    let writer = thread::spawn(move || drop(stdin.write_all(&input)));
    let output = child.wait_with_output().unwrap();
    writer.join().unwrap();
    assert!(output.status.success(), "{program}: {}", output.status);
    output.stdout
}

/// The lines of a text, without their newlines.
pub fn split(text: &[u8]) -> Vec<Vec<u8>> {
    let mut lines: Vec<_> = text.split(|&byte| byte == b'\n').map(<[u8]>::to_vec).collect();
    if lines.last().map_or(false, Vec::is_empty) {
        lines.pop();
    }
    lines
}
