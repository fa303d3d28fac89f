//! A second implementation of the job program `gridjob`, in plain Rust.
//!
//! It is written from `docs/SPEC.md` alone and shares no line with the first one, so that the
//! two can be compared byte by byte and timed against each other.
//!
//! | module | what it holds |
//! |---|---|
//! | [`refusal`] | every refusal, its number and its places |
//! | [`machine`] | the grid of cells |
//! | [`calibration`] | the values of each cell, the times of links |
//! | [`route`] | paths and the two route rules |
//! | [`gate`] | kinds, gates, timings |
//! | [`plan`] | a plan and its judging |
//! | [`listing`] | operations, the routed CNOT, the listing |
//! | [`job`] | the job with its calls |
//! | [`text`] | command lines in, reply lines out |
//! | [`session`] | the job program over a stream of bytes |
//! | [`register`] | gate registers: phase, parity, amplitude |
//! | [`random`] | pseudo-random numbers |
//! | [`draft`] | random lawful jobs |
//! | [`script`] | random inputs of the job program |
//!
//! The package has two programs:
//!
//! - `second` is the job program: commands on standard input, replies on standard output;
//! - `differ PROGRAM [COUNT] [SEED]` makes random scripts, gives each to PROGRAM and to this
//!   library and compares the replies; `differ --write SEED` prints the script of one seed.
//!
//! Both are built by `cargo build --release` and then stand in `target/release/`.
//!
//! ```
//! let mut replies = Vec::new();
//! second::answer(b"o 3 1 2\nC 0 1\ne\n", &mut replies).unwrap();
//! assert_eq!(replies, b"ok 3\nok 0\nok 1\n");
//! ```

pub mod calibration;
pub mod draft;
pub mod gate;
pub mod job;
pub mod listing;
pub mod machine;
pub mod plan;
pub mod random;
pub mod refusal;
pub mod register;
pub mod route;
pub mod script;
pub mod session;
pub mod text;

use std::io::{self, Write};

/// Answers a whole input: writes the replies to all its lines.
pub fn answer(input: &[u8], output: &mut impl Write) -> io::Result<()> {
    let mut session = session::Session::new();
    session.feed(input, output)?;
    session.finish(output)
}
