//! What became of one byte of an input, and why, as request T-05 has it.

use crate::frame::{sync_standing, FRAME, SYNC};
use crate::plain::INPUT_MOST;
use crate::refusal::Refusal;
use crate::stream::WINDOW;

/// What became of a byte under the reading from place 0. One of these is true
/// of every byte.
#[derive(Clone, Copy, Debug, PartialEq, Eq)]
pub enum Reason {
    /// It was handed out.
    Inside {
        /// The place at which its frame begins.
        start: usize,
    },
    /// It was skipped: sync does not stand at its place.
    NearSync {
        /// The first of the bytes 0 to 2 of that sync that is not 7F.
        byte: usize,
    },
    /// It was skipped: sync stands at its place, and not 512 bytes later.
    FarSync {
        /// The first of the bytes 0 to 2 of the later sync that is not 7F.
        byte: usize,
    },
    /// It is held: the reading ends at it or before it.
    Held,
}

/// Why a window's first byte is skipped; none if the window begins a good
/// frame.
fn skipped(window: &[u8; WINDOW]) -> Option<Reason> {
    let (near, far) = (sync_standing(window), sync_standing(&window[FRAME..]));
    if near < SYNC.len() {
        Some(Reason::NearSync { byte: near })
    } else if far < SYNC.len() {
        Some(Reason::FarSync { byte: far })
    } else {
        None
    }
}

/// Reads the input from its first byte on, up to the byte at `place`.
///
/// Refused: 3 if the input is above [`INPUT_MOST`], 9 if the place is not below
/// its length.
pub fn explain(input: &[u8], place: usize) -> Result<Reason, Refusal> {
    if input.len() > INPUT_MOST {
        return Err(Refusal::Length);
    }
    if place >= input.len() {
        return Err(Refusal::Range);
    }
    let mut reached = 0;
    while let Some(window) = input[reached..].first_chunk::<WINDOW>() {
        let (reason, step) = match skipped(window) {
            Some(reason) => (reason, 1),
            None => (Reason::Inside { start: reached }, FRAME),
        };
        if place < reached + step {
            return Ok(reason);
        }
        reached += step;
    }
    Ok(Reason::Held)
}
