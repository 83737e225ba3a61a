//! A program run over a text, with the time that it took.

use std::{
    fs::File,
    io::{Seek, SeekFrom, Write},
    mem::MaybeUninit,
    process::{Command, Stdio},
    time::Duration,
};

#[repr(C)]
#[derive(Clone, Copy)]
struct Time {
    seconds: i64,
    microseconds: i64,
}

/// Linux's `struct rusage` on 64-bit processors.
#[repr(C)]
struct Usage {
    user: Time,
    system: Time,
    others: [i64; 14],
}

extern "C" {
    fn wait4(pid: i32, status: *mut i32, options: i32, usage: *mut Usage) -> i32;
}

/// Feeds a text to a program; what it prints is thrown away. Gives the processor's time, in the program and for it in
/// the kernel.
pub fn time(emulator: &[String], program: &str, text: &[u8]) -> Duration {
    let mut words = emulator.iter().map(String::as_str).chain([program]);
    let mut command = Command::new(words.next().expect("a program"));
    command.args(words).stdin(input(text)).stdout(Stdio::null());
    let child = command.spawn().expect("the program starts");
    let mut status = 0;
    let mut usage = MaybeUninit::<Usage>::zeroed();
    // SAFETY: wait4 writes a status and a `struct rusage`; zeros are one already.
    let (waited, usage) = unsafe {
        let waited = wait4(child.id() as i32, &mut status, 0, usage.as_mut_ptr());
        (waited, usage.assume_init())
    };
    assert_eq!((waited, status), (child.id() as i32, 0), "{program} failed");
    duration(usage.user) + duration(usage.system)
}

fn duration(time: Time) -> Duration {
    Duration::from_secs(time.seconds as u64) + Duration::from_micros(time.microseconds as u64)
}

/// The text in a file without a name.
fn input(text: &[u8]) -> File {
    let path = std::env::temp_dir().join(format!("bench-{}", std::process::id()));
    let mut file = File::options().read(true).write(true).create(true).truncate(true).open(&path).expect("a file");
    std::fs::remove_file(&path).expect("the file goes");
    file.write_all(text).expect("room for the lines");
    file.seek(SeekFrom::Start(0)).expect("the start");
    file
}
