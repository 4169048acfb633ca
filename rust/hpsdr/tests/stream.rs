//! The stream reader, whatever pieces its bytes come in.

mod common;
#[path = "common/pieces.rs"]
mod pieces;
#[path = "common/recording.rs"]
mod recording;

use hpsdr::{Counts, Stream, OUTPUT_LEAST};
use pieces::{read_in_pieces, CUTTINGS};
use recording::{numbered, recording};

#[test]
fn same_in_every_cutting() {
    let expected_frames = [1, 2, 3, 4, 5, 6].map(numbered).concat();
    let mut held = [0; 514];
    held[..3].fill(0x7F);
    // The 40 and the 300 bytes are skipped, the last three held.
    let counts = Counts {
        held: 3,
        frames: 6,
        skipped: 340,
        total: 6 * 512 + 40 + 300 + 3,
    };
    for sizes in CUTTINGS {
        let (frames, stream) = read_in_pieces(&recording(), sizes);
        assert!(frames == expected_frames, "pieces of {sizes:?}");
        assert_eq!(stream, Stream { counts, held }, "pieces of {sizes:?}");
    }
}

#[test]
fn eight_frames_of_one_call() {
    let all: Vec<u8> = (1..=9).flat_map(numbered).chain([0x7F, 0x7F]).collect();
    let (first, second) = all.split_at(514);
    assert_eq!(second.len(), 4096);
    let (mut stream, mut output) = (Stream::fresh(), [0; OUTPUT_LEAST]);
    assert_eq!(stream.feed(first, &mut output), Ok(0));
    assert_eq!(stream.feed(second, &mut output), Ok(8));
    assert_eq!(output[..], all[..4096]);
    assert_eq!(stream.held, all[4096..]);
}

#[test]
fn stray_sync_byte_before_a_frame() {
    let bytes = [&[0x7F], numbered(1).as_slice(), &[0x7F; 3]].concat();
    let (mut stream, mut output) = (Stream::fresh(), [0; OUTPUT_LEAST]);
    assert_eq!(stream.feed(&bytes, &mut output), Ok(1));
    assert_eq!(output[..512], numbered(1));
    assert_eq!(stream.counts.skipped, 1);
}
