//! The plain reader: by document 01's rule, and held against the stream reader.

mod common;
#[path = "common/noise.rs"]
mod noise;
#[path = "common/pieces.rs"]
mod pieces;
#[path = "common/recording.rs"]
mod recording;

use hpsdr::{read_at_once, PlainReading, FRAME, INPUT_MOST};
use noise::mostly_sync;
use pieces::{read_in_pieces, CUTTINGS};
use recording::{numbered, recording};

/// The frames of an input, and its reading, into an output that is a little longer.
fn read(input: &[u8]) -> (Vec<u8>, PlainReading) {
    let mut output = vec![0xEE; input.len() + 5];
    let reading = read_at_once(input, &mut output).unwrap();
    let untouched = output.split_off(FRAME * reading.frames);
    assert!(untouched.iter().all(|&byte| byte == 0xEE));
    (output, reading)
}

/// Frames, skipped and left, and that the frames are these.
fn gives(input: &[u8], frames: &[[u8; FRAME]], skipped: usize, left: usize) {
    let reading = PlainReading {
        frames: frames.len(),
        skipped,
        left,
    };
    assert_eq!(read(input), (frames.concat(), reading));
}

/// So many bytes with sync at these places.
fn with_sync(length: usize, places: &[usize]) -> Vec<u8> {
    let mut bytes = vec![0x11; length];
    for &place in places {
        bytes[place..place + 3].fill(0x7F);
    }
    bytes
}

/// Rows j, k and l of document 01, and nothing at all.
#[test]
fn rows() {
    gives(&[], &[], 0, 0);
    gives(&with_sync(514, &[0]), &[], 0, 514);
    let frame = with_sync(FRAME, &[0]).try_into().unwrap();
    gives(&with_sync(515, &[0, 512]), &[frame], 0, 3);
    gives(&with_sync(515, &[0]), &[], 1, 514);
}

/// Place 0 has 7F 7F 7F, and 512 bytes later stands the frame's last byte.
#[test]
fn stray_sync_byte_before_a_frame() {
    let bytes = [&[0x7F], numbered(1).as_slice(), &[0x7F; 3]].concat();
    gives(&bytes, &[numbered(1)], 1, 3);
}

/// The 40 and the 300 bytes are skipped, the last three left.
#[test]
fn a_damaged_recording() {
    let frames = [1, 2, 3, 4, 5, 6].map(numbered);
    gives(&recording(), &frames, 340, 3);
}

/// The last frame is left unless sync follows it.
#[test]
fn the_last_frame() {
    let two = [numbered(1), numbered(2)].concat();
    gives(&two, &[numbered(1)], 0, 512);
    let and_sync = [two.as_slice(), &[0x7F; 3]].concat();
    gives(&and_sync, &[numbered(1), numbered(2)], 0, 3);
}

/// 128 frames, of which the last has no sync after it; and without their first byte.
#[test]
fn the_longest_input() {
    let frames: Vec<_> = (128..=255).map(numbered).collect();
    let input = frames.concat();
    assert_eq!(input.len(), INPUT_MOST);
    gives(&input, &frames[..127], 0, 512);
    gives(&input[1..], &frames[1..127], 511, 512);
    gives(&[0; INPUT_MOST], &[], 65_022, 514);
}

/// Frames, skipped bytes and left-over bytes are those of a fresh stream, in whatever pieces.
fn as_a_stream(input: &[u8]) {
    let (frames, reading) = read(input);
    let left = &input[input.len() - reading.left..];
    for sizes in CUTTINGS {
        let (fed, stream) = read_in_pieces(input, sizes);
        let (length, counts) = (input.len(), stream.counts);
        assert!(frames == fed, "{length} bytes in pieces of {sizes:?}");
        assert_eq!(counts.frames, reading.frames as u64);
        assert_eq!(counts.skipped, reading.skipped as u64);
        assert_eq!(counts.held, reading.left as u64);
        assert_eq!(&stream.held[..reading.left], left);
    }
}

#[test]
fn as_a_stream_in_every_cutting() {
    as_a_stream(&recording());
    as_a_stream(&recording().repeat(19));
    let noise = mostly_sync(INPUT_MOST);
    let (_, reading) = read(&noise);
    assert!(reading.frames > 50 && reading.skipped > 50, "{reading:?}");
    as_a_stream(&noise);
    for length in (0..2200).step_by(31) {
        as_a_stream(&noise[length..2 * length]);
    }
}
