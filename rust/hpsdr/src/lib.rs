//! Frames of the HPSDR USB Data Protocol 1.58, read and written: those that a radio sends for one to eight receivers
//! ([`Status`], [`Samples`], [`layout`]), those that a host sends to it ([`Host`], [`Builder`]), and the reader that finds
//! radio frames in a stream of bytes ([`frames`], [`Stream`]), with a plain one to hold against it, which reads a short
//! recording at once ([`read_at_once`]). [`explain`] tells why a byte of such a recording was thrown out.
//!
//! A program that prints the peak of each receiver in a recording of three, which comes on standard input:
//!
//! ```
#![doc = include_str!("../examples/recording.rs")]
//! ```
//!
//! A recording's last frame is not among them unless sync follows it: see [`Frames`]. `examples/peaks.rs` counts what was
//! refused, skipped and held, too.
//!
//! The work is done by the proved library behind the header `hpsdr.h`. Every call checks for itself, and works or
//! gives one of nine [refusals](Refusal); after a refusal everything that was lent holds what it held before.
//! [`Status::read_transfer`] goes frame by frame, and there this holds from the refused frame on: see [`Stopped`]. A
//! refusal of what stands in a frame says which byte it was, or which code, bit or level.
//!
//! The library's archive, `libhpsdr.a`, is linked from the folder that the environment variable `HPSDR_ARCHIVE` names at
//! build time; or from `target/archive` of the repository, where `./install` makes it; or from where pkg-config finds it
//! installed.

#![deny(missing_docs)]
#![deny(clippy::undocumented_unsafe_blocks)]

mod builder;
mod cells;
mod choices;
mod frames;
mod host;
mod layout;
mod plain;
pub mod raw;
mod refusal;
mod samples;
mod status;
mod stream;
mod transfer;
mod why;

pub use builder::Builder;
pub use choices::{
    Antenna, Attenuator, Boards, Jack, Microphone, Relay, Source10, Source122, Speed,
};
pub use frames::{frames, Frames};
pub use host::Host;
pub use layout::{layout, Row};
pub use plain::{read_at_once, PlainReading};
pub use refusal::{Cause, Refusal};
pub use samples::Samples;
pub use status::{Status, Word};
pub use stream::{Counts, Stream};
pub use transfer::Stopped;
pub use why::{explain, Reason};

/// Bytes of a frame.
pub const FRAME: usize = 512;
/// The most numbers of I and Q that a radio frame has: those of 8 receivers.
pub const MOST_IQ: usize = 160;
/// The most microphone values that a radio frame has: those of 1 receiver.
pub const MOST_MIC: usize = 63;
/// The most frames that a transfer has: as many as a stream hands out in one call.
pub const MOST_FRAMES: usize = 8;
/// Numbers of a host frame: L, R, I, Q, 63 times.
///
/// A caller gives a build its L, R, I and Q in this order, and in the frame its I stands in the bytes drawn as Q and its Q
/// in those drawn as I, because toward the radio the protocol has I and Q reversed relative to receive, a historical bug
/// that it keeps; a read swaps them back. Whether the program that built a frame has swapped them, no reader can know from
/// its bytes: where it has not, a read gives them exchanged.
pub const AUDIO: usize = 252;
/// The most bytes that a piece may have.
pub const PIECE_MOST: usize = 4096;
/// The most bytes that an input which is [read at once](read_at_once) or [explained](explain) may have.
pub const INPUT_MOST: usize = 65_536;
/// The least bytes that a stream's output must have.
pub const OUTPUT_LEAST: usize = 4096;
