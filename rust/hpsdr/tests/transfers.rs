//! Transfers of 1 to 8 frames: each is as many single reads, up to the first refused frame.

mod common;
#[path = "common/levels.rs"]
mod levels;

use common::frame;
use hpsdr::{layout, Cause, Refusal, Row, Status, Stopped, FRAME, MOST_FRAMES};
use levels::high_levels;
use std::error::Error;
use std::io;

/// Frames of a number of receivers that carry words 0 to 4 in turn, none with a level above 4,095. No two have the same
/// samples.
fn frames(count: usize, row: Row) -> Vec<u8> {
    let numbered = |at: usize| {
        let number = at as u8;
        let mut one = frame([((number % 5) << 3) | (number % 8), number, 0x12, 0x04, 0x56]);
        for (place, byte) in one[8..FRAME - row.padding].iter_mut().enumerate() {
            *byte = (place * 7 + at * 29) as u8;
        }
        one
    };
    (0..count).flat_map(numbered).collect()
}

/// The record, I and Q, and microphone values, before a call and after it.
#[derive(Clone, Debug, PartialEq)]
struct Lent {
    status: Status,
    iq: Vec<i32>,
    mic: Vec<i16>,
}

impl Lent {
    /// A little more than so many frames need.
    fn for_frames(count: usize, receivers: usize, row: Row) -> Lent {
        Lent {
            status: Status::fresh(),
            iq: vec![7_777_777; count * 2 * receivers * row.slots + 3],
            mic: vec![-7_777; count * row.slots + 3],
        }
    }

    fn read_transfer(&mut self, input: &[u8], receivers: usize) -> Result<usize, Stopped> {
        let Lent { status, iq, mic } = self;
        status.read_transfer(input, receivers, iq, mic)
    }

    /// Reads one frame after another by single reads.
    fn read_singly(&mut self, input: &[u8], receivers: usize, row: Row) {
        let values = 2 * receivers * row.slots;
        for (at, frame) in input.chunks(FRAME).enumerate() {
            let (iq, mic) = (&mut self.iq[at * values..], &mut self.mic[at * row.slots..]);
            self.status.read(frame, receivers, iq, mic).unwrap();
        }
    }
}

#[test]
fn as_many_single_reads() {
    for receivers in 1..=8 {
        let row = layout(receivers).unwrap();
        for count in 1..=MOST_FRAMES {
            let input = frames(count, row);
            let mut at_once = Lent::for_frames(count, receivers, row);
            let mut singly = at_once.clone();
            assert_eq!(at_once.read_transfer(&input, receivers), Ok(count));
            singly.read_singly(&input, receivers, row);
            assert_eq!(at_once, singly, "{count} frames of {receivers}");
        }
    }
}

/// Damages each of eight frames in turn, and then more of what stands from that frame on.
fn stops_at_each(
    receivers: usize,
    refusal: Refusal,
    damage: impl Fn(&mut [u8]),
    more: impl Fn(&mut [u8]),
) {
    let row = layout(receivers).unwrap();
    let whole = frames(MOST_FRAMES, row);
    for frames in 0..MOST_FRAMES {
        let at = FRAME * frames;
        let mut damaged = whole.clone();
        damage(&mut damaged[at..]);
        let mut worse = damaged.clone();
        more(&mut worse[at..]);
        for input in [damaged, worse] {
            let mut stopped = Lent::for_frames(MOST_FRAMES, receivers, row);
            let mut before = stopped.clone();
            let got = stopped.read_transfer(&input, receivers);
            assert_eq!(got, Err(Stopped { refusal, frames }));
            before.read_singly(&whole[..at], receivers, row);
            assert_eq!(stopped, before, "after {frames} frames of {receivers}");
        }
    }
}

/// At one byte of a frame: alone, then with all behind it up to an end, and with the whole frame behind.
fn stops_at_each_byte(receivers: usize, byte: usize, end: usize, refusal: Refusal) {
    let damage = |rest: &mut [u8]| rest[byte] ^= 0x80;
    let more = |rest: &mut [u8]| {
        rest[byte + 1..end].fill(0xFF);
        let behind = &mut rest[FRAME..];
        behind.iter_mut().take(FRAME).for_each(|byte| *byte = 0xFF);
    };
    stops_at_each(receivers, refusal, damage, more);
}

#[test]
fn stops_at_a_frame_without_sync() {
    for receivers in 1..=8 {
        (0..3).for_each(|byte| stops_at_each_byte(receivers, byte, 3, Refusal::NoSync { byte }));
    }
}

#[test]
fn stops_at_a_frame_with_damaged_padding() {
    for receivers in 3..=8 {
        let padding = layout(receivers).unwrap().padding;
        for byte in FRAME - padding..FRAME {
            stops_at_each_byte(receivers, byte, FRAME, Refusal::Padding { byte });
        }
    }
}

/// Each of eight frames has a level above 4,095 in turn, with all keys: alone, then with the one in C3 and C4 too, and
/// with all behind it damaged.
#[test]
fn stops_at_a_frame_with_a_level_above_4095() {
    let levels = [
        ([1 << 3 | 7, 0x10, 0, 0, 1], Cause::Ain5),
        ([1 << 3 | 7, 0, 1, 0x10, 0], Cause::Ain1),
        ([2 << 3 | 7, 0x20, 0, 0, 1], Cause::Ain2),
        ([2 << 3 | 7, 0, 1, 0x40, 0], Cause::Ain3),
        ([3 << 3 | 7, 0x80, 0, 0, 1], Cause::Ain4),
        ([3 << 3 | 7, 0, 1, 0xF0, 0], Cause::Ain6),
    ];
    for receivers in 1..=8 {
        for (control, cause) in levels {
            stops_at_each_level(receivers, control, Refusal::Reserved { cause });
        }
    }
}

fn stops_at_each_level(receivers: usize, control: [u8; 5], refusal: Refusal) {
    let damage = |rest: &mut [u8]| rest[3..8].copy_from_slice(&control);
    let more = |rest: &mut [u8]| {
        rest[6] |= 0x10;
        rest[FRAME..].fill(0xFF);
    };
    stops_at_each(receivers, refusal, damage, more);
}

/// A record whose levels no frame has, and words that do not carry them, with every bit: all are read, and the levels
/// stay. Then words 1 to 3 with the greatest levels there are.
#[test]
fn high_levels_of_the_record() {
    let high = high_levels();
    let read = |addresses: [u8; 3], high_byte| {
        let control = |address| [address << 3, high_byte, 0xFF, high_byte, 0xFF];
        let input = addresses.map(|address| frame(control(address))).concat();
        let mut status = high;
        let got = status.read_transfer(&input, 1, &mut [0; 3 * 126], &mut [0; 3 * 63]);
        assert_eq!(got, Ok(3), "words {addresses:?}");
        status
    };
    for first in 5..30 {
        assert_eq!(read([first, first + 1, first + 2], 0xFF), high);
    }
    let after = read([0, 4, 31], 0xFF);
    assert_eq!((after.main, after.board4), (255, 127));
    assert_eq!((after.ain5, after.ain1, after.ain2), (4096, 40_000, 8191));
    assert_eq!((after.ain3, after.ain4, after.ain6), (65_535, 4097, 32_768));

    let after = read([1, 2, 3], 0x0F);
    let greatest = Status {
        ain5: 4095,
        ain1: 4095,
        ain2: 4095,
        ain3: 4095,
        ain4: 4095,
        ain6: 4095,
        ..Status::fresh()
    };
    assert_eq!(after, greatest);
}

/// In one frame sync and padding are tested before a level.
#[test]
fn order_in_the_refused_frame() {
    let row = layout(3).unwrap();
    let mut input = frames(4, row);
    input[3 * FRAME + 3..][..3].copy_from_slice(&[1 << 3, 0x9C, 0x40]);
    (input[3 * FRAME + 2], input[3 * FRAME + 509]) = (0, 1);
    let stops = |input: &[u8], refusal| {
        let got = Lent::for_frames(4, 3, row).read_transfer(input, 3);
        let frames = 3;
        assert_eq!(got, Err(Stopped { refusal, frames }));
    };
    stops(&input, Refusal::NoSync { byte: 2 });
    input[3 * FRAME + 2] = 0x7F;
    stops(&input, Refusal::Padding { byte: 509 });
    input[3 * FRAME + 509] = 0;
    let cause = Cause::Ain5;
    stops(&input, Refusal::Reserved { cause });
}

/// The number of the later refusal is lower.
#[test]
fn the_first_refused_frame_decides() {
    let row = layout(3).unwrap();
    let mut input = frames(5, row);
    input[2 * FRAME + 511] = 1;
    input[3 * FRAME] = 0;
    let got = Lent::for_frames(5, 3, row).read_transfer(&input, 3);
    let (refusal, frames) = (Refusal::Padding { byte: 511 }, 2);
    assert_eq!(got, Err(Stopped { refusal, frames }));
}

/// The refused frame's byte is this one of the input.
#[test]
fn place_in_the_input() {
    let row = layout(5).unwrap();
    let mut input = frames(6, row);
    input[4 * FRAME + 500] = 0xA5;
    let got = Lent::for_frames(6, 5, row).read_transfer(&input, 5);
    let Err(Stopped {
        refusal: Refusal::Padding { byte },
        frames,
    }) = got
    else {
        panic!("{got:?}");
    };
    assert_eq!((frames, byte, input[FRAME * frames + byte]), (4, 500, 0xA5));
}

fn refused_whole(input: &[u8], receivers: usize, (iq, mic): (usize, usize), refusal: Refusal) {
    let mut lent = Lent {
        status: Status::fresh(),
        iq: vec![7; iq],
        mic: vec![8; mic],
    };
    let given = lent.clone();
    let got = lent.read_transfer(input, receivers);
    let frames = 0;
    assert_eq!(got, Err(Stopped { refusal, frames }));
    assert_eq!(lent, given);
}

/// Each case mends one more thing than the one before. The input's first frame is good.
#[test]
fn order_before_any_frame() {
    let mut input = frames(3, layout(3).unwrap());
    input[FRAME] = 0;
    for receivers in [0, 9, 256 + 3, (1 << 32) + 3, usize::MAX] {
        refused_whole(&input[1..], receivers, (0, 0), Refusal::BadCount);
    }
    refused_whole(&input[1..], 3, (0, 0), Refusal::Length);
    for lengths in [(449, 75), (450, 74), (150, 25), (0, 0)] {
        refused_whole(&input, 3, lengths, Refusal::ShortBuffer);
    }
}

#[test]
fn lengths() {
    let mut nine = frames(9, layout(1).unwrap());
    nine.push(0);
    for length in 0..=nine.len() {
        let (input, room) = (&nine[..length], (9 * 126, 9 * 63));
        let frames = length / FRAME;
        if length % FRAME != 0 || !(1..=MOST_FRAMES).contains(&frames) {
            refused_whole(input, 1, room, Refusal::Length);
            continue;
        }
        let mut lent = Lent::for_frames(frames, 1, layout(1).unwrap());
        assert_eq!(lent.read_transfer(input, 1), Ok(frames));
    }
}

fn says(refusal: Refusal, frames: usize, text: &str) {
    let stopped = Stopped { refusal, frames };
    assert_eq!(stopped.to_string(), text);
    assert_eq!(io::Error::from(stopped).to_string(), text);
    assert_eq!(Box::<dyn Error>::from(stopped).to_string(), text);
}

#[test]
fn texts_of_a_refused_frame() {
    let sync = |byte| Refusal::NoSync { byte };
    says(sync(0), 0, "sync byte 0 of frame 0 is not 7F");
    says(sync(1), 3, "sync byte 1 of frame 3 is not 7F");
    says(sync(2), 7, "sync byte 2 of frame 7 is not 7F");
    let padding = |byte| Refusal::Padding { byte };
    says(padding(488), 0, "padding byte 488 of frame 0 is not zero");
    says(padding(509), 3, "padding byte 509 of frame 3 is not zero");
    says(padding(511), 7, "padding byte 511 of frame 7 is not zero");
}

/// A cause of a host frame, which no transfer has, says no frame.
#[test]
fn texts_of_a_cause() {
    let texts = [
        (Cause::Ain5, 3, "level AIN5 of frame 3 is above 4,095"),
        (Cause::Ain1, 0, "level AIN1 of frame 0 is above 4,095"),
        (Cause::Ain2, 1, "level AIN2 of frame 1 is above 4,095"),
        (Cause::Ain3, 2, "level AIN3 of frame 2 is above 4,095"),
        (Cause::Ain4, 4, "level AIN4 of frame 4 is above 4,095"),
        (Cause::Ain6, 7, "level AIN6 of frame 7 is above 4,095"),
        (
            Cause::Word10C1Bit7,
            1,
            "word 10's C1 bit 7 is set, which is unassigned",
        ),
    ];
    for (cause, frames, text) in texts {
        says(Refusal::Reserved { cause }, frames, text);
    }
}

#[test]
fn texts_of_a_refused_input() {
    let length = "the frame is not 512 bytes, the transfer is not 1 to 8 times 512, the piece is above 4,096, \
                  or the input is above 65,536";
    let short = "a sample slice is shorter than needed, a stream's output is under 4,096 bytes, \
                 or the output is shorter than the input";
    says(Refusal::BadCount, 0, "the receiver count is not 1 to 8");
    says(Refusal::Length, 0, length);
    says(Refusal::ShortBuffer, 0, short);
}
