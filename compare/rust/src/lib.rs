//! call.rs of wgsl-types 0.3.2 behind a reader of document 01's lines.
//!
//! The builtins are the crate's own src/builtin/call.rs, compiled unchanged from docs/src. The other modules here
//! stand in for those of the crate that are not at hand; each says what it had to decide.

// call.rs asks for the feature naga-ext, which is not here.
#![allow(unknown_lints, unexpected_cfgs)]

mod builtin;
mod conv;
mod error;
mod inst;
mod lines;
mod ops;
mod ty;

pub use error::Error;
pub use inst::Instance;
pub use lines::{read_call, write_answer, Call};
pub use ty::Type;

use std::cell::Cell;
use std::panic::{self, AssertUnwindSafe};

/// Shader compilation stage, as in the crate's lib.rs.
#[derive(Clone, Copy, Debug, PartialEq, Eq)]
#[allow(dead_code)]
pub enum ShaderStage {
    Const,
    Override,
    Exec,
}

thread_local! {
    /// Whether call.rs is at work: its panics are answers and not to be told.
    static FOLDING: Cell<bool> = Cell::new(false);
}

/// Keeps quiet about the panics of call.rs, and tells all others.
pub fn quiet_panics() {
    let told = panic::take_hook();
    panic::set_hook(Box::new(move |info| {
        if !FOLDING.with(Cell::get) {
            told(info);
        }
    }));
}

/// What a call gives, or none where call.rs panics.
pub fn fold(call: &Call) -> Option<Result<Instance, Error>> {
    FOLDING.with(|folding| folding.set(true));
    let folded = panic::catch_unwind(AssertUnwindSafe(|| call.fold()));
    FOLDING.with(|folding| folding.set(false));
    folded.ok()
}

/// A line's answer, without a newline.
pub fn answer(line: &[u8], out: &mut Vec<u8>) {
    let call = match read_call(line) {
        Some(call) => call,
        None => return out.extend_from_slice(b"refused"),
    };
    match fold(&call) {
        Some(Ok(value)) => write_answer(&value, out),
        Some(Err(_)) => out.extend_from_slice(b"refused"),
        None => out.extend_from_slice(b"panic"),
    }
}
