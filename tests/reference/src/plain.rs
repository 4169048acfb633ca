//! The plain reader: a whole input at once, place by place, as request T-10
//! has it.

use crate::frame::FRAME;
use crate::refusal::Refusal;
use crate::stream::{begins_good_frame, WINDOW};

/// The most bytes an input may have.
pub const INPUT_MOST: usize = 65_536;

/// What became of the bytes of an input.
#[derive(Clone, Copy, Debug, PartialEq, Eq)]
pub struct PlainReading {
    /// Frames handed out.
    pub frames: usize,
    /// One-byte steps taken.
    pub skipped: usize,
    /// Bytes left at the end of the input: one too few to settle a place, or
    /// fewer.
    pub left: usize,
}

/// Reads the input from its first byte on. The good frames stand at the start
/// of `output`.
///
/// Refused: 3 if the input is above [`INPUT_MOST`], 4 if the output is shorter
/// than the input.
pub fn plain_read(input: &[u8], output: &mut [u8]) -> Result<PlainReading, Refusal> {
    if input.len() > INPUT_MOST {
        return Err(Refusal::Length);
    }
    if output.len() < input.len() {
        return Err(Refusal::ShortBuffer);
    }
    let (mut place, mut frames, mut skipped) = (0, 0, 0);
    while let Some(window) = input[place..].first_chunk::<WINDOW>() {
        if begins_good_frame(window) {
            output[FRAME * frames..][..FRAME].copy_from_slice(&window[..FRAME]);
            frames += 1;
            place += FRAME;
        } else {
            skipped += 1;
            place += 1;
        }
    }
    Ok(PlainReading {
        frames,
        skipped,
        left: input.len() - place,
    })
}
