//! The slips that look right, each caught.

mod common;

use common::*;
use reference::*;

/// By the stream reader, and by the plain one, which must give the same.
fn read_whole(bytes: &[u8]) -> (Vec<u8>, Stream) {
    let mut stream = Stream::fresh();
    let frames = feed_in_pieces(&mut stream, bytes, MOST);
    let left = stream.held[..stream.count].to_vec();
    assert_eq!(read_at_once(bytes), (frames.clone(), stream.skipped, left));
    (frames, stream)
}

#[test]
fn one_sync_is_no_boundary() {
    let junk = [1, 2, 0x7F, 0x7F, 0x7F, 6, 7, 8, 9, 10];
    let mut second = filled(22);
    second[100..103].copy_from_slice(&SYNC);
    let good = [filled(11), second].concat();
    let (frames, stream) = read_whole(&[&junk, &good[..], &SYNC].concat());
    assert_eq!(frames, good);
    assert_eq!((stream.skipped, stream.count), (10, 3));
}

#[test]
fn a_stray_7f_before_a_frame_is_skipped_alone() {
    let (frames, stream) = read_whole(&[&[0x7F], &filled(11)[..], &SYNC].concat());
    assert_eq!(frames, filled(11));
    assert_eq!((stream.skipped, stream.count), (1, 3));
}

#[test]
fn a_stray_7f_passes_if_the_frame_ends_in_7f() {
    let mut first = filled(11);
    first[511] = 0x7F;
    let bytes = [&[0x7F], &first[..], &SYNC].concat();
    let (frames, stream) = read_whole(&bytes);
    assert_eq!(frames, bytes[..512]);
    assert_eq!((stream.skipped, stream.count), (0, 4));
}

#[test]
fn samples_keep_their_sign_and_all_their_bits() {
    let mut frame = frame([0; 5]);
    frame[8..16].copy_from_slice(&[0xFF, 0x00, 0x00, 0x01, 0x02, 0x03, 0xFF, 0xFE]);
    let (mut iq, mut mic) = ([0; 126], [0; 63]);
    radio_read(&frame, 1, &mut iq, &mut mic, &mut Status::fresh()).unwrap();
    assert_eq!((iq[0], iq[1], mic[0]), (-65_536, 66_051, -2));
}

#[test]
fn the_host_address_is_bits_7_to_1() {
    for address in 0..=127 {
        assert_eq!(host_word([address << 1, 0, 0, 0, 0]).1, address);
        let (host, read) = host_word([address << 1 | 1, 0, 0, 0, 0]);
        assert_eq!((read, host.mox), (address, true));
    }
}

#[test]
fn inputs_are_active_when_their_bit_is_zero() {
    assert_eq!(radio_word([0, 0b0001_1110, 0, 0, 0]).0.io, [false; 4]);
    assert_eq!(radio_word([0, 0b1110_0001, 0, 0, 0]).0.io, [true; 4]);
    let (status, _) = radio_word([0, 0b0000_0010, 0, 0, 0]);
    assert_eq!(status.io, [false, true, true, true]);
}

#[test]
fn a_failed_test_skips_one_byte_only() {
    let good = [filled(11), filled(22)].concat();
    for lost in 1..512 {
        let (frames, stream) = read_whole(&[&good[lost..512], &good, &SYNC].concat());
        assert_eq!(frames, good);
        assert_eq!(stream.skipped, 512 - lost as u64);
    }
}
