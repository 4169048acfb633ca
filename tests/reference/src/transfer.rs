//! A transfer: 1 to 8 radio frames, one after another, as request T-01 has it.

use crate::frame::{row, FRAME};
use crate::radio::{radio_read, Status};
use crate::refusal::Refusal;

/// The refusal that ended the reading of a transfer, and the frames that
/// stay read.
#[derive(Clone, Copy, Debug, PartialEq, Eq)]
pub struct Stopped {
    /// The refusal. A place in it is one of the refused frame.
    pub refusal: Refusal,
    /// How many frames were read before it: the refused frame's index, from 0.
    pub frames: usize,
}

/// How many I/Q and microphone values a frame has, if nothing is wrong with
/// the call as a whole.
fn values_of_a_frame(
    input: &[u8],
    receivers: usize,
    iq: &[i32],
    mic: &[i16],
) -> Result<(usize, usize), Refusal> {
    let slots = row(receivers)?.slots;
    let frames = input.len() / FRAME;
    if frames * FRAME != input.len() || !(1..=8).contains(&frames) {
        return Err(Refusal::Length);
    }
    let samples = 2 * receivers * slots;
    if iq.len() < frames * samples || mic.len() < frames * slots {
        return Err(Refusal::ShortBuffer);
    }
    Ok((samples, slots))
}

/// Reads the frames of the input in order, each by a single read, its values
/// after those of the frame before. `Ok` is their number.
///
/// Refused before any frame is read: 2 for a receiver count not 1 to 8, 3 for
/// an input that is not 1 to 8 times 512 bytes, 4 for a sample slice too short
/// for all frames. Then the first refused frame's own, where the reading ends.
pub fn radio_read_transfer(
    input: &[u8],
    receivers: usize,
    iq: &mut [i32],
    mic: &mut [i16],
    status: &mut Status,
) -> Result<usize, Stopped> {
    let stopped = |refusal, frames| Stopped { refusal, frames };
    let (samples, slots) =
        values_of_a_frame(input, receivers, iq, mic).map_err(|refusal| stopped(refusal, 0))?;
    let values = iq.chunks_mut(samples).zip(mic.chunks_mut(slots));
    let mut frames = 0;
    for (frame, (iq, mic)) in input.chunks(FRAME).zip(values) {
        radio_read(frame, receivers, iq, mic, status)
            .map_err(|refusal| stopped(refusal, frames))?;
        frames += 1;
    }
    Ok(frames)
}
