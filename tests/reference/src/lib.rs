//! An independent implementation of the frames and the stream reader that
//! document 01 (the scope) defines, with the requests T-01 (transfers), T-02
//! (the place of a refusal), T-03 (I and Q toward the radio are swapped), T-07
//! (host word 10), T-08 (levels are twelve bits), T-10 (a plain reader) and
//! T-05 (why a byte was thrown out).
//!
//! Every refusal is `Err` of a [`Refusal`], which has the scope's number and,
//! for 6, 7 and 8, says its place:
//!
//! | No. | Name |
//! |---|---|
//! | 1 | BAD_STATE |
//! | 2 | BAD_COUNT |
//! | 3 | LENGTH |
//! | 4 | SHORT_BUFFER |
//! | 5 | STREAM_FULL |
//! | 6 | NO_SYNC |
//! | 7 | PADDING |
//! | 8 | RESERVED |
//! | 9 | RANGE |
//!
//! The first that holds is the answer, and after it every lent slice and
//! record is as it was. In a transfer both are true from the refused frame on.

#![forbid(unsafe_code)]
#![warn(missing_docs)]

mod bits;
mod frame;
mod host;
mod plain;
mod radio;
mod refusal;
mod stream;
mod transfer;
mod why;

pub use frame::{row, Row};
pub use host::{build, host_read, Builder, Host};
pub use plain::{plain_read, PlainReading, INPUT_MOST};
pub use radio::{radio_read, radio_write, Status};
pub use refusal::{Cause, Refusal};
pub use stream::{Stream, MOST};
pub use transfer::{radio_read_transfer, Stopped};
pub use why::{explain, Reason};
