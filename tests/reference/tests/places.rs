//! The place that a refusal says, as request T-02 has it, and T-08 of a level.

mod common;

use common::*;
use reference::Cause::*;
use reference::Refusal::*;
use reference::*;

/// A frame in which these bytes have that value.
fn damaged(control: [u8; 5], bytes: &[usize], value: u8) -> [u8; 512] {
    let mut frame = frame(control);
    bytes.iter().for_each(|&byte| frame[byte] = value);
    frame
}

fn read_radio(receivers: usize, frame: [u8; 512]) -> Result<u8, Refusal> {
    let (mut iq, mut mic) = ([0; 160], [0; 63]);
    radio_read(&frame, receivers, &mut iq, &mut mic, &mut Status::fresh())
}

fn read_host(frame: [u8; 512]) -> Result<u8, Refusal> {
    read_host_into(&mut Host::fresh(), &frame)
}

#[test]
fn the_first_sync_byte_that_is_not_7f() {
    let cases: [(&[usize], usize); 7] = [
        (&[0], 0),
        (&[1], 1),
        (&[2], 2),
        (&[0, 1], 0),
        (&[0, 2], 0),
        (&[1, 2], 1),
        (&[0, 1, 2], 0),
    ];
    for (wrong, byte) in cases {
        for value in [0x00, 0x7E, 0x80, 0xFF] {
            let frame = damaged([0; 5], wrong, value);
            for receivers in 1..=8 {
                assert_eq!(read_radio(receivers, frame), Err(NoSync { byte }));
            }
            assert_eq!(read_host(frame), Err(NoSync { byte }));
        }
    }
}

/// The first padding byte of each count that has some, one in the middle, and
/// the last.
const PADDING: [(usize, [usize; 3]); 6] = [
    (3, [508, 510, 511]),
    (4, [502, 506, 511]),
    (5, [488, 500, 511]),
    (6, [502, 507, 511]),
    (7, [492, 501, 511]),
    (8, [508, 509, 511]),
];

#[test]
fn the_first_padding_byte_that_is_not_zero() {
    for (receivers, [first, middle, last]) in PADDING {
        let cases: [(&[usize], usize); 7] = [
            (&[first], first),
            (&[middle], middle),
            (&[last], last),
            (&[first, middle], first),
            (&[first, last], first),
            (&[middle, last], middle),
            (&[first, middle, last], first),
        ];
        for (wrong, byte) in cases {
            let read = read_radio(receivers, damaged([0; 5], wrong, 1));
            assert_eq!(read, Err(Padding { byte }));
        }
        let before = damaged([0; 5], &[first - 1], 1);
        assert_eq!(read_radio(receivers, before), Ok(0));
    }
}

#[test]
fn every_two_padding_bytes() {
    for (receivers, _, _, padding) in TABLE {
        for byte in 512 - padding..512 {
            for behind in byte + 1..512 {
                let read = read_radio(receivers, damaged([0; 5], &[behind, byte], 0x80));
                assert_eq!(read, Err(Padding { byte }));
            }
        }
    }
}

#[test]
fn the_first_cause() {
    let cases = [
        ([0, 0x0C, 0, 0, 0], Source10),
        ([0, 0, 0, 0, 0x03], Relay),
        ([0, 0x0C, 0, 0, 0x03], Source10),
        ([1, 0xFF, 0xFF, 0xFF, 0xFF], Source10),
        ([1, 0xF3, 0xFF, 0xFF, 0xFF], Relay),
        ([0x12, 0, 0, 0, 0x80], Word9C4Bit7),
        ([0x13, 0xFF, 0xFF, 0xFF, 0xFF], Word9C4Bit7),
        ([0x14, 0x80, 0, 0, 0], Word10C1Bit7),
        ([0x15, 0xFF, 0xFF, 0xFF, 0xFF], Word10C1Bit7),
    ];
    for (control, cause) in cases {
        assert_eq!(read_host(frame(control)), Err(Reserved { cause }));
        let no_sync = read_host(damaged(control, &[2], 0));
        assert_eq!(no_sync, Err(NoSync { byte: 2 }));
    }
}

#[test]
fn sync_is_named_before_padding() {
    let frame = damaged([0; 5], &[1, 508], 1);
    assert_eq!(read_radio(8, frame), Err(NoSync { byte: 1 }));
}

#[test]
fn sync_and_padding_are_named_before_a_level() {
    let wide = [0x08, 0xFF, 0xFF, 0xFF, 0xFF];
    let no_sync = damaged(wide, &[2, 511], 0x80);
    assert_eq!(read_radio(3, no_sync), Err(NoSync { byte: 2 }));
    let padding = damaged(wide, &[511], 0x80);
    assert_eq!(read_radio(3, padding), Err(Padding { byte: 511 }));
    // Without padding, byte 511 is a microphone sample's.
    let cause = Ain5;
    assert_eq!(read_radio(2, padding), Err(Reserved { cause }));
}

/// Eight frames in which these two bytes are wrong.
fn read_transfer(receivers: usize, wrong: [usize; 2]) -> Result<usize, Stopped> {
    read_transfer_of([0; 5], receivers, wrong)
}

fn read_transfer_of(
    control: [u8; 5],
    receivers: usize,
    wrong: [usize; 2],
) -> Result<usize, Stopped> {
    let mut input = frame(control).repeat(8);
    wrong.into_iter().for_each(|byte| input[byte] = 0x80);
    let (mut iq, mut mic) = ([0; 8 * 160], [0; 8 * 63]);
    radio_read_transfer(&input, receivers, &mut iq, &mut mic, &mut Status::fresh())
}

/// The index of the refused frame, from 0, stands beside its place.
#[test]
fn a_place_in_each_frame_of_a_transfer() {
    for frames in 0..8 {
        let start = 512 * frames;
        for byte in 0..3 {
            let refusal = NoSync { byte };
            let got = read_transfer(1, [start + byte, 7 * 512 + 2]);
            assert_eq!(got, Err(Stopped { refusal, frames }));
        }
        for (receivers, places) in PADDING {
            for byte in places {
                let refusal = Padding { byte };
                let got = read_transfer(receivers, [start + byte, 7 * 512 + 511]);
                assert_eq!(got, Err(Stopped { refusal, frames }));
            }
        }
    }
}

/// C1 is byte 4 of a frame, and C3 byte 6.
#[test]
fn a_level_in_each_frame_of_a_transfer() {
    let words = [
        (0x08, [Ain5, Ain1]),
        (0x10, [Ain2, Ain3]),
        (0x18, [Ain4, Ain6]),
    ];
    for (c0, causes) in words {
        for (byte, cause) in [4, 6].into_iter().zip(causes) {
            for frames in 0..8 {
                for receivers in 1..=8 {
                    let wrong = [512 * frames + byte, 7 * 512 + byte];
                    let got = read_transfer_of([c0, 0, 0, 0, 0], receivers, wrong);
                    let refusal = Reserved { cause };
                    assert_eq!(got, Err(Stopped { refusal, frames }));
                }
            }
        }
    }
}

#[test]
fn the_numbers_stay() {
    let (byte, cause) = (0, Relay);
    let refusals = [
        BadState,
        BadCount,
        Length,
        ShortBuffer,
        StreamFull,
        NoSync { byte },
        Padding { byte },
        Reserved { cause },
        Range,
    ];
    assert_eq!(refusals.map(Refusal::number), [1, 2, 3, 4, 5, 6, 7, 8, 9]);
}
