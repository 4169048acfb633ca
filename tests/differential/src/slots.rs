//! The slots of a frame from the host. Besides the reference's word on every call, request T-03 is stated
//! directly, of what was put in.

use crate::host::AUDIO;
use crate::model::Parts;

const PAYLOAD: usize = 8;

/// The byte at which a number begins: I in the bytes drawn as Q, and Q in those drawn as I.
fn place(number: usize) -> usize {
    let drawn = match number % 4 {
        2 => number + 1,
        3 => number - 1,
        _ => number,
    };
    PAYLOAD + 2 * drawn
}

/// T-03: after an accepted call each number stands at its place.
pub fn check(returned: u64, frame: &[u8], audio: &[i16]) -> Result<(), String> {
    if Parts::of(returned).answer != 0 {
        return Ok(());
    }
    let stands = |number| i16::from_be_bytes([0, 1].map(|low| frame[place(number) + low]));
    match (0..AUDIO).find(|&number| stands(number) != audio[number]) {
        None => Ok(()),
        Some(number) => Err(format!(
            "T-03: number {number} is {}, and {} stands at byte {}",
            audio[number],
            stands(number),
            place(number)
        )),
    }
}

fn pairs_differ<T: PartialEq>(cells: &[T], size: usize) -> bool {
    let mut pairs = cells.chunks_exact(2 * size);
    pairs.all(|pair| pair[..size] != pair[size..])
}

/// Whether in every slot of the frame L and R differ, and I and Q, so that a swap shows.
pub fn frame_shows(frame: &[u8]) -> bool {
    pairs_differ(&frame[PAYLOAD..], 2)
}

/// The same of numbers that are sent.
pub fn numbers_show(audio: &[i16]) -> bool {
    pairs_differ(&audio[..AUDIO], 1)
}
