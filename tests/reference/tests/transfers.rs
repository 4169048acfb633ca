//! Transfers: where each frame's values stand, where the reading stops, and
//! what it then leaves.

mod common;

use common::*;
use reference::*;

/// A call on eight frames of one receiver, with room for one value more of
/// each kind than they have. Frame k, from 1, carries word 1 with AIN5 at k;
/// its first I is k and its last microphone sample -k.
struct Call {
    input: Vec<u8>,
    iq: Vec<i32>,
    mic: Vec<i16>,
    status: Status,
}

fn numbered_frame(k: u8) -> [u8; 512] {
    let mut frame = frame([0x08, 0, k, 0, 0]);
    frame[10] = k;
    frame[510..].copy_from_slice(&(-i16::from(k)).to_be_bytes());
    frame
}

fn eight_frames() -> Call {
    Call {
        input: (1..=8).flat_map(numbered_frame).collect(),
        iq: vec![77; 8 * 126 + 1],
        mic: vec![77; 8 * 63 + 1],
        status: Status::fresh(),
    }
}

impl Call {
    fn run(&mut self) -> Result<usize, Stopped> {
        let Call { input, iq, mic, .. } = self;
        radio_read_transfer(input, 1, iq, mic, &mut self.status)
    }

    /// The first so many frames are read, and nothing past them is changed.
    fn check(&self, frames: usize) {
        let (iq, past) = self.iq.split_at(126 * frames);
        assert!(past.iter().all(|&value| value == 77));
        let (mic, past) = self.mic.split_at(63 * frames);
        assert!(past.iter().all(|&value| value == 77));
        for (k, (iq, mic)) in (1..).zip(iq.chunks(126).zip(mic.chunks(63))) {
            assert_eq!((iq[0], &iq[1..]), (k, &[0; 125][..]));
            assert_eq!((i32::from(mic[62]), &mic[..62]), (-k, &[0; 62][..]));
        }
        let after = Status {
            ain5: frames as u16,
            ..Status::fresh()
        };
        assert_eq!(self.status, after);
    }
}

#[test]
fn every_number_of_frames() {
    for frames in 1..=8 {
        let mut call = eight_frames();
        call.input.truncate(512 * frames);
        assert_eq!(call.run(), Ok(frames));
        call.check(frames);
    }
}

#[test]
fn stops_at_every_frame() {
    let (cause, other) = (Cause::Ain5, Cause::Ain1);
    let faults = [
        (1, 0x00, Refusal::NoSync { byte: 1 }),
        (4, 0x10, Refusal::Reserved { cause }),
        (6, 0x80, Refusal::Reserved { cause: other }),
    ];
    for (byte, value, refusal) in faults {
        for frames in 0..8 {
            let mut call = eight_frames();
            call.input[512 * frames + byte] = value;
            // The keys of a refused frame are not kept either.
            call.input[512 * frames + 3] |= 7;
            assert_eq!(call.run(), Err(Stopped { refusal, frames }));
            call.check(frames);
        }
    }
}

/// The third frame's refusal is the answer, although the fourth's has a lower
/// number; and its word is not kept.
#[test]
fn the_first_refused_frame_is_the_answer() {
    let mut input: Vec<u8> = (1..=4).flat_map(numbered_frame).collect();
    for padding in input.chunks_mut(512).map(|frame| &mut frame[508..]) {
        padding.fill(0);
    }
    input[2 * 512 + 508] = 1;
    input[3 * 512] = 0;
    let mut status = Status::fresh();
    let got = radio_read_transfer(&input, 3, &mut [0; 600], &mut [0; 100], &mut status);
    let (refusal, frames) = (Refusal::Padding { byte: 508 }, 2);
    assert_eq!(got, Err(Stopped { refusal, frames }));
    assert_eq!(status.ain5, 2);
}

#[test]
fn each_frame_is_read_on_the_record_before() {
    let words = [[0x0F, 1, 2, 3, 4], [0x20, 3, 5, 7, 9], [0x28, 1, 1, 1, 1]];
    let input: Vec<u8> = words.into_iter().flat_map(frame).collect();
    let mut status = Status::fresh();
    let got = radio_read_transfer(&input, 1, &mut [0; 378], &mut [0; 189], &mut status);
    assert_eq!(got, Ok(3));
    let told = Status {
        ain5: 0x0102,
        ain1: 0x0304,
        overflow: [true; 4],
        versions: [1, 2, 3, 4],
        ..Status::fresh()
    };
    assert_eq!(status, told);
}

#[test]
fn lengths() {
    for length in 0..=9 * 512 + 1 {
        let mut call = eight_frames();
        call.input.resize(length, 0);
        let frames = length / 512;
        if length % 512 == 0 && (1..=8).contains(&frames) {
            assert_eq!(call.run(), Ok(frames));
        } else {
            let (refusal, frames) = (Refusal::Length, 0);
            assert_eq!(call.run(), Err(Stopped { refusal, frames }));
            call.check(0);
        }
    }
}
