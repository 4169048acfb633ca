//! Bytes for the stream reader and the plain one: good frames, damaged ones, imitated sync and noise.

use crate::case::Draw;
use crate::twist::{FRAME, SYNC};

/// A frame whose payload is noise, or sync all through.
pub fn frame(draw: &mut Draw) -> Vec<u8> {
    let mut frame = match draw.random.one_in(6) {
        true => vec![0x7f; FRAME],
        false => draw.random.bytes(FRAME),
    };
    frame[..SYNC.len()].copy_from_slice(&SYNC);
    frame
}

/// Bytes most of which are 7F, so that runs of one, two, three and more are everywhere.
pub fn near_sync(length: usize, draw: &mut Draw) -> Vec<u8> {
    let mut bytes = draw.random.bytes(length);
    for byte in &mut bytes {
        if *byte > 40 {
            *byte = 0x7f;
        }
    }
    bytes
}

fn part(draw: &mut Draw) -> Vec<u8> {
    match draw.random.below(12) {
        0 => SYNC.to_vec(),
        1 => vec![0x7f; 1 + draw.random.below(5)],
        2 => vec![0x7f; draw.random.below(1100)],
        3 => {
            let length = draw.random.below(700);
            near_sync(length, draw)
        }
        4 => {
            let length = draw.random.below(900);
            draw.random.bytes(length)
        }
        5 => {
            let mut damaged = frame(draw);
            damaged[draw.random.below(SYNC.len())] ^= 1 << draw.random.below(8);
            damaged
        }
        6 => {
            let mut cut = frame(draw);
            cut.truncate(draw.random.below(FRAME));
            cut
        }
        _ => frame(draw),
    }
}

/// As many bytes of such parts, one after another; it begins at any place of the first.
pub fn text(length: usize, draw: &mut Draw) -> Vec<u8> {
    let before = draw.random.pick(&[0, 0, draw.turn % FRAME]);
    let mut text = Vec::with_capacity(length + before + 1100);
    while text.len() < before + length {
        text.extend(part(draw));
    }
    text.truncate(before + length);
    text.split_off(before)
}

pub fn frames(count: usize, draw: &mut Draw) -> Vec<u8> {
    (0..count).flat_map(|_| frame(draw)).collect()
}

/// Frames of which no two neighbours both have their sync.
fn damaged_frames(length: usize, draw: &mut Draw) -> Vec<u8> {
    let mut frames = frames(length / FRAME + 1, draw);
    for first in (FRAME..frames.len()).step_by(2 * FRAME) {
        frames[first + draw.random.below(SYNC.len())] ^= 1 << draw.random.below(8);
    }
    frames.truncate(length);
    frames
}

/// As many bytes of one kind.
pub fn stretch(length: usize, draw: &mut Draw) -> Vec<u8> {
    match draw.random.below(6) {
        0 => vec![0x7f; length],
        1 => near_sync(length, draw),
        2 => text(length, draw),
        3 => damaged_frames(length, draw),
        _ => draw.random.bytes(length),
    }
}

/// Bytes up to a place, and there a frame and sync: good, or with the given one of their bytes wrong.
pub fn laid(place: usize, wrong: Option<&usize>, draw: &mut Draw) -> Vec<u8> {
    let mut bytes = stretch(place, draw);
    bytes.extend(frame(draw));
    bytes.extend(SYNC);
    if let Some(byte) = wrong {
        bytes[place + byte] ^= 1 << draw.random.below(8);
    }
    bytes
}
