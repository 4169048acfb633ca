//! The stream reader under free cutting.

mod common;

use common::*;
use reference::*;

const CUTS: [usize; 8] = [1, 2, 511, 512, 513, 514, 515, 4096];

/// Frame number `i`, without 7F outside its sync.
fn good_frame(i: u8) -> Vec<u8> {
    let mut bytes: Vec<u8> = (0..512_usize).map(|k| (k % 97) as u8 + i).collect();
    bytes[..3].copy_from_slice(&SYNC);
    bytes
}

fn good_frames(numbers: std::ops::Range<u8>) -> Vec<u8> {
    numbers.flat_map(good_frame).collect()
}

#[test]
fn a_damaged_middle_costs_what_stands_between() {
    // Frame 11's second sync is damaged, so it goes with the 412 bytes that
    // are left of frame 12.
    let mut damaged = good_frame(12)[..412].to_vec();
    damaged[0] = 0x7E;
    let tail = &good_frame(29)[..100];
    let before = good_frames(0..12);
    let bytes = [&before[..], &damaged, &good_frames(13..29), tail].concat();
    let expected = [good_frames(0..11), good_frames(13..29)].concat();
    for size in CUTS {
        let mut stream = Stream::fresh();
        let frames = feed_in_pieces(&mut stream, &bytes, size);
        assert!(frames == expected, "pieces of {size}");
        assert_eq!((stream.frames, stream.skipped), (27, 512 + 412));
        assert_eq!((stream.count, &stream.held[..100]), (100, tail));
        assert_eq!(stream.total, 28 * 512 + 412 + 100);
    }
}

#[test]
fn a_piece_can_hand_out_eight_frames() {
    let bytes = [good_frames(0..9), SYNC.to_vec()].concat();
    let mut stream = Stream::fresh();
    let mut output = [0; MOST];
    assert_eq!(stream.feed(&bytes[..514], &mut output), Ok(0));
    assert_eq!(stream.feed(&bytes[514..4610], &mut output), Ok(8));
    assert_eq!(output[..], bytes[..4096]);
    assert_eq!(stream.feed(&bytes[4610..], &mut output), Ok(1));
    assert_eq!(output[..512], bytes[4096..4608]);
    assert_eq!(output[512..], bytes[512..4096]);
}

/// Frames, lost bytes, stray bytes and runs of 7F in no fixed order.
fn rough_stream(noise: &mut Noise) -> Vec<u8> {
    let mut bytes = Vec::new();
    for _ in 0..noise.below(40) {
        let i = noise.below(20) as u8;
        match noise.below(6) {
            0 => bytes.resize(bytes.len() + noise.below(600), 0x7F),
            1 => bytes.extend(noise.bytes(20)),
            2 => bytes.truncate(bytes.len().saturating_sub(noise.below(30))),
            _ => bytes.extend(good_frame(i)),
        }
    }
    bytes
}

#[test]
fn every_cutting_reads_the_same() {
    let mut noise = Noise(5);
    for _ in 0..40 {
        let bytes = rough_stream(&mut noise);
        let (frames, skipped, left) = read_at_once(&bytes);
        let random = 1 + noise.below(4096);
        for size in CUTS.into_iter().chain([3, 100, 1027, 1028, 1029, random]) {
            let mut stream = Stream::fresh();
            assert!(feed_in_pieces(&mut stream, &bytes, size) == frames);
            assert_eq!(stream.frames * 512, frames.len() as u64);
            assert_eq!(stream.skipped, skipped);
            assert_eq!(stream.held[..stream.count], left[..]);
            assert_eq!(stream.total, bytes.len() as u64);
        }
    }
}

/// A sound record whose held bytes need not come from any reading.
fn record_holding(held: &[u8], frames: u64, skipped: u64) -> Stream {
    let mut stream = Stream::fresh();
    stream.held[..held.len()].copy_from_slice(held);
    stream.count = held.len();
    (stream.frames, stream.skipped) = (frames, skipped);
    stream.total = 512 * frames + skipped + held.len() as u64;
    assert!(stream.sound());
    stream
}

#[test]
fn reading_goes_on_from_every_sound_record() {
    let mut noise = Noise(6);
    let mut source = good_frames(0..10);
    source[700] = 0;
    for start in (0..1100).step_by(7) {
        for count in [0, 1, 2, 3, 257, 511, 512, 513, 514] {
            let held = &source[start..start + count];
            let mut stream = record_holding(held, 1000, 77);
            let length = noise.below(3500);
            let whole = &source[start..start + count + length];
            let (frames, skipped, left) = read_at_once(whole);
            let mut output = [0xEE; MOST + 1];
            let answer = stream.feed(&whole[count..], &mut output);
            assert_eq!(answer, Ok(frames.len() / 512));
            assert_eq!(output[..frames.len()], frames[..]);
            assert!(output[frames.len()..].iter().all(|&cell| cell == 0xEE));
            let handed = frames.len() as u64 / 512;
            let expected = record_holding(&left, 1000 + handed, 77 + skipped);
            assert_eq!(stream, expected);
        }
    }
}

#[test]
fn the_total_may_reach_2_to_the_48_and_not_pass_it() {
    let mut stream = record_holding(&[], 0, (1 << 48) - 10);
    let before = stream;
    let refused = stream.feed(&[1; 11], &mut [0; MOST]);
    assert_eq!(refused, Err(Refusal::StreamFull));
    assert_eq!(stream, before);
    assert_eq!(stream.feed(&[1; 10], &mut [0; MOST]), Ok(0));
    assert_eq!((stream.total, stream.count), (1 << 48, 10));
    assert_eq!(stream.feed(&[], &mut [0; MOST]), Ok(0));
    let refused = stream.feed(&[1], &mut [0; MOST]);
    assert_eq!(refused, Err(Refusal::StreamFull));
    let passed = Stream {
        skipped: (1 << 48) + 1,
        total: (1 << 48) + 1,
        ..Stream::fresh()
    };
    assert!(!passed.sound());
}

#[test]
fn counts_that_agree_only_when_wrapped_are_unsound() {
    let fresh = Stream::fresh();
    let wrapped = [
        // 512 * 2^55 is 2^64.
        (1 << 55, 0, 0),
        ((1 << 55) + 1, 0, 512),
        // 512 * (2^55 - 1) + 512 is 2^64.
        ((1 << 55) - 1, 512, 0),
        (1, u64::MAX - 511, 0),
        (u64::MAX, 512, 0),
        (u64::MAX, u64::MAX, u64::MAX),
    ];
    for (frames, skipped, total) in wrapped {
        let stream = Stream {
            frames,
            skipped,
            total,
            ..fresh
        };
        assert!(!stream.sound());
    }
    let count_wraps = Stream {
        skipped: u64::MAX,
        count: 1,
        ..fresh
    };
    assert!(!count_wraps.sound());
}
