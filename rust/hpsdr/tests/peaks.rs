//! What the example prints.

mod common;
#[allow(dead_code)]
#[path = "../examples/peaks.rs"]
mod peaks;

use std::io::ErrorKind;

/// A frame of zeros but for these bytes from this place on.
fn frame_with(place: usize, bytes: &[u8]) -> Vec<u8> {
    let mut frame = common::frame([0; 5]);
    frame[place..place + bytes.len()].copy_from_slice(bytes);
    frame.to_vec()
}

/// Twelve frames of three receivers, of which the second has damaged padding and the third is cut to 300 bytes, and the
/// first eleven bytes of one more.
fn recording() -> Vec<u8> {
    // 100 and -200; 8,388,607 and 0; -8,388,608 and 0.
    let first = [
        0, 0, 100, 0xFF, 0xFF, 0x38, 0x7F, 0xFF, 0xFF, 0, 0, 0, 0x80, 0, 0,
    ];
    let mut damaged = frame_with(8, &[0x7F, 0xFF, 0xFF]);
    damaged[511] = 1;
    let mut recording = [frame_with(8, &first), damaged].concat();
    recording.extend(&frame_with(8, &[0x7F, 0xFF, 0xFF])[..300]);
    recording.extend(common::frame([0; 5]).repeat(8));
    // In the last slot, -70,000 for the first.
    recording.extend(frame_with(8 + 24 * 20, &[0xFE, 0xEE, 0x90]));
    recording.extend(&frame_with(8, &[0x7F, 0xFF, 0xFF])[..11]);
    recording
}

fn printed(receivers: usize) -> String {
    let mut printed = Vec::new();
    peaks::print_peaks(receivers, recording().as_slice(), &mut printed).unwrap();
    String::from_utf8(printed).unwrap()
}

#[test]
fn of_three_receivers() {
    let expected = "\
receiver 1: peak 70000
receiver 2: peak 8388607
receiver 3: peak 8388608
frames read 10, frames refused 1, bytes skipped 300, bytes held 11
";
    assert_eq!(printed(3), expected);
}

/// One receiver has no padding, so the second frame counts.
#[test]
fn of_one_receiver() {
    let expected = "\
receiver 1: peak 8388607
frames read 11, frames refused 0, bytes skipped 300, bytes held 11
";
    let got = printed(1);
    assert_eq!(got, expected);
}

#[test]
fn of_no_count() {
    for receivers in [0, 9, 300] {
        let got = peaks::print_peaks(receivers, recording().as_slice(), Vec::new());
        let error = got.unwrap_err();
        assert_eq!(error.kind(), ErrorKind::Other);
        assert_eq!(error.to_string(), "the receiver count is not 1 to 8");
    }
}
