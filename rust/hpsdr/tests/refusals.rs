//! Each refusal of each call, and that it leaves everything as it was.

mod common;

use common::frame;
use hpsdr::{
    explain, layout, read_at_once, Builder, Cause, Host, Refusal, Samples, Status, Stream, Word,
    AUDIO,
};
use std::error::Error;
use std::io;

/// None is 1 to 8. Two would be 3 if they were cut to 8 or to 32 bits.
const BAD_COUNTS: [usize; 7] = [0, 9, 255, 256 + 3, 300, (1 << 32) + 3, usize::MAX];

fn refused_read(frame: &[u8], receivers: usize, iq: usize, mic: usize, refusal: Refusal) {
    let given = Status {
        board3: 200,
        ..Status::fresh()
    };
    let (mut status, mut iq, mut mic) = (given, vec![7; iq], vec![8; mic]);
    let got = status.read(frame, receivers, &mut iq, &mut mic);
    assert_eq!(got, Err(refusal));
    assert_eq!(status, given);
    assert!(iq.iter().all(|&value| value == 7));
    assert!(mic.iter().all(|&value| value == 8));
    if refusal != Refusal::ShortBuffer {
        refused_read_frame(frame, receivers, refusal);
    }
}

/// The same with room for any samples, which hold those of an earlier frame: two receivers, all 0 but the first I.
fn refused_read_frame(bad: &[u8], receivers: usize, refusal: Refusal) {
    let mut earlier = frame([0; 5]);
    earlier[10] = 7;
    let (mut status, mut samples) = (Status::fresh(), Samples::fresh());
    status.read_frame(&earlier, 2, &mut samples).unwrap();
    let given = status;
    assert_eq!(
        status.read_frame(bad, receivers, &mut samples),
        Err(refusal)
    );
    assert_eq!((status, samples.receivers()), (given, 2));
    assert_eq!(samples.iq()[0], 7);
    assert_eq!(samples.iq()[1..], [0; 143]);
    assert_eq!(samples.mic(), [0; 36]);
}

#[test]
fn radio_read() {
    let good = frame([0x0F, 1, 2, 3, 4]);
    for receivers in BAD_COUNTS {
        refused_read(&good, receivers, 160, 63, Refusal::BadCount);
    }
    refused_read(&good[..511], 1, 126, 63, Refusal::Length);
    refused_read(
        &[good.as_slice(), &[0]].concat(),
        1,
        126,
        63,
        Refusal::Length,
    );
    refused_read(&[], 1, 0, 0, Refusal::Length);
    refused_read(&good, 1, 125, 63, Refusal::ShortBuffer);
    refused_read(&good, 1, 126, 62, Refusal::ShortBuffer);
    refused_read(&good, 8, 159, 10, Refusal::ShortBuffer);
}

/// Every choice of bytes of sync that are wrong, and the first of them.
const WRONG_SYNCS: [(&[usize], usize); 7] = [
    (&[0], 0),
    (&[1], 1),
    (&[2], 2),
    (&[0, 1], 0),
    (&[0, 2], 0),
    (&[1, 2], 1),
    (&[0, 1, 2], 0),
];

fn each_wrong_sync(good: [u8; 512], refused: impl Fn(&[u8], Refusal)) {
    for (wrong, byte) in WRONG_SYNCS {
        for value in [0, 0x7E, 0xFF] {
            let mut unsynced = good;
            wrong.iter().for_each(|&place| unsynced[place] = value);
            refused(&unsynced, Refusal::NoSync { byte });
        }
    }
}

#[test]
fn every_sync_byte_of_the_radio() {
    for receivers in 1..=8 {
        each_wrong_sync(frame([0x0F, 1, 2, 3, 4]), |unsynced, refusal| {
            refused_read(unsynced, receivers, 160, 63, refusal);
        });
    }
}

#[test]
fn every_sync_byte_of_the_host() {
    each_wrong_sync(frame([0x01, 0x0C, 0, 0, 0x03]), |unsynced, refusal| {
        refused_host_read(unsynced, AUDIO, refusal);
    });
}

/// Padding begins at this byte, for each number of receivers that has padding.
const PADDING: [(usize, usize); 6] = [(3, 508), (4, 502), (5, 488), (6, 502), (7, 492), (8, 508)];

/// The frame's samples are 1 up to the padding.
fn padded(first: usize) -> [u8; 512] {
    let mut padded = frame([0x0F, 1, 2, 3, 4]);
    padded[8..first].fill(1);
    padded
}

/// The first of them is named, also where another one behind it is not 0.
#[test]
fn every_padding_byte() {
    for (receivers, first) in PADDING {
        for byte in first..512 {
            let mut padded = padded(first);
            padded[byte] = 0x80;
            let refusal = Refusal::Padding { byte };
            refused_read(&padded, receivers, 160, 25, refusal);
            for behind in byte + 1..512 {
                padded[behind] = 1;
                refused_read(&padded, receivers, 160, 25, refusal);
                padded[behind] = 0;
            }
        }
    }
}

/// The first, the middle one and the last by their numbers, all that follow being 0xFF.
#[test]
fn padding_bytes_by_hand() {
    let bytes = [
        (3, [508, 510, 511]),
        (4, [502, 507, 511]),
        (5, [488, 500, 511]),
        (6, [502, 507, 511]),
        (7, [492, 502, 511]),
        (8, [508, 510, 511]),
    ];
    for (receivers, bytes) in bytes {
        for byte in bytes {
            let mut padded = frame([0; 5]);
            padded[byte..].fill(0xFF);
            refused_read(&padded, receivers, 160, 25, Refusal::Padding { byte });
        }
    }
}

type LevelOf = fn(&mut Status) -> &mut u16;

/// The levels in C1 and C2 and in C3 and C4 of words 1 to 3.
const LEVELS: [[(Cause, LevelOf); 2]; 3] = [
    [
        (Cause::Ain5, |status| &mut status.ain5),
        (Cause::Ain1, |status| &mut status.ain1),
    ],
    [
        (Cause::Ain2, |status| &mut status.ain2),
        (Cause::Ain3, |status| &mut status.ain3),
    ],
    [
        (Cause::Ain4, |status| &mut status.ain4),
        (Cause::Ain6, |status| &mut status.ain6),
    ],
];

/// A frame that carries a word with two levels, with DOT, DASH and PTT.
fn with_levels(word: u8, first: u16, second: u16) -> [u8; 512] {
    let ([c1, c2], [c3, c4]) = (first.to_be_bytes(), second.to_be_bytes());
    frame([word << 3 | 7, c1, c2, c3, c4])
}

/// Every value of the four bits above, alone, with all the bits below, and with the least of the other level's four.
#[test]
fn every_level_above_4095() {
    for (word, [(first, _), (second, _)]) in (1..).zip(LEVELS) {
        let refused = |levels: (u16, u16), cause| {
            let frame = with_levels(word, levels.0, levels.1);
            refused_read(&frame, 1, 126, 63, Refusal::Reserved { cause });
        };
        for bits in 1..16 {
            for level in [bits << 12, bits << 12 | 0x0FFF] {
                refused((level, 0), first);
                refused((level, 4095), first);
                refused((level, 4096), first);
                refused((0, level), second);
                refused((4095, level), second);
                refused((4096, level), first);
            }
        }
    }
}

/// By their numbers: 40,000 is 9C 40.
#[test]
fn levels_by_hand() {
    let cases = [
        ([0x08, 0x9C, 0x40, 0, 0], Cause::Ain5),
        ([0x08, 0, 0, 0x9C, 0x40], Cause::Ain1),
        ([0x0F, 0x9C, 0x40, 0x9C, 0x40], Cause::Ain5),
        ([0x10, 0x10, 0x00, 0, 0], Cause::Ain2),
        ([0x10, 0x0F, 0xFF, 0x10, 0x00], Cause::Ain3),
        ([0x18, 0x1F, 0xFF, 0x0F, 0xFF], Cause::Ain4),
        ([0x18, 0x0F, 0xFF, 0xFF, 0xFF], Cause::Ain6),
    ];
    for (control, cause) in cases {
        let refusal = Refusal::Reserved { cause };
        refused_read(&frame(control), 1, 126, 63, refusal);
        assert_eq!(refusal.number(), 8);
    }
    let got = Status::fresh().read_frame(&frame(cases[0].0), 1, &mut Samples::fresh());
    assert_eq!(got.unwrap_err().to_string(), "level AIN5 is above 4,095");
}

/// A record of one high level after another: a frame that is refused for its own leaves it.
#[test]
fn a_level_above_4095_into_a_record_of_such() {
    for (_, level) in LEVELS.as_flattened() {
        let mut given = Status::fresh();
        *level(&mut given) = 65_535;
        for (word, [_, (cause, _)]) in (1..).zip(LEVELS) {
            let (mut status, mut samples) = (given, Samples::fresh());
            let got = status.read_frame(&with_levels(word, 1, 4096), 1, &mut samples);
            assert_eq!((got, status), (Err(Refusal::Reserved { cause }), given));
        }
    }
}

/// Whatever C0 to C4 are, no level above 4,095 comes out of reads into a record that began fresh.
#[test]
fn no_level_above_4095_after_any_read() {
    let (mut status, mut samples) = (Status::fresh(), Samples::fresh());
    let (mut state, mut taken, mut refused): (u32, u32, u32) = (1, 0, 0);
    let mut noise = |mask: u8| {
        state = state.wrapping_mul(1_664_525).wrapping_add(1_013_904_223);
        (state >> 24) as u8 & mask
    };
    for _ in 0..20_000 {
        let control = [0x3F, 0x1F, 0xFF, 0x1F, 0xFF].map(&mut noise);
        match status.read_frame(&frame(control), 1, &mut samples) {
            Ok(_) => taken += 1,
            Err(_) => refused += 1,
        }
        for (_, level) in LEVELS.as_flattened() {
            assert!(*level(&mut status) <= 4095, "after {control:X?}");
        }
    }
    assert!(taken > 1000 && refused > 1000, "{taken} and {refused}");
}

/// The first that holds is given, each case mending one more thing than the one before.
#[test]
fn order_of_a_read() {
    let mut bad = with_levels(3, 4096, 65_535);
    (bad[1], bad[510]) = (0, 1);
    refused_read(&bad[..511], 9, 0, 0, Refusal::BadCount);
    refused_read(&bad[..511], 3, 0, 0, Refusal::Length);
    refused_read(&bad, 3, 0, 0, Refusal::ShortBuffer);
    refused_read(&bad, 3, 150, 25, Refusal::NoSync { byte: 1 });
    bad[1] = 0x7F;
    refused_read(&bad, 3, 150, 25, Refusal::Padding { byte: 510 });
    bad[510] = 0;
    let cause = Cause::Ain4;
    refused_read(&bad, 3, 150, 25, Refusal::Reserved { cause });
    bad[4] = 0x0F;
    let cause = Cause::Ain6;
    refused_read(&bad, 3, 150, 25, Refusal::Reserved { cause });
}

fn refused_write(
    status: Status,
    (word, receivers): (Word, usize),
    (iq, mic): (&[i32], &[i16]),
    frame: usize,
    refusal: Refusal,
) {
    let mut frame = vec![0xEE; frame];
    let got = status.write(word, receivers, iq, mic, &mut frame);
    assert_eq!(got, Err(refusal));
    assert!(frame.iter().all(|&byte| byte == 0xEE));
}

#[test]
fn radio_write() {
    let fresh = Status::fresh();
    let (iq, mic) = ([0; 126], [0; 63]);
    let both = (iq.as_slice(), mic.as_slice());
    let one = (Word::Inputs, 1);
    for receivers in BAD_COUNTS {
        let word = (Word::Inputs, receivers);
        refused_write(fresh, word, both, 512, Refusal::BadCount);
    }
    refused_write(fresh, one, both, 511, Refusal::Length);
    refused_write(fresh, one, both, 513, Refusal::Length);
    refused_write(fresh, one, (&iq[1..], &mic), 512, Refusal::ShortBuffer);
    refused_write(fresh, one, (&iq, &mic[1..]), 512, Refusal::ShortBuffer);
    for address in [5, 31, 255] {
        let word = (Word::Unlisted(address), 1);
        refused_write(fresh, word, both, 512, Refusal::Range);
    }
}

#[test]
fn radio_write_of_values_that_do_not_fit() {
    let fresh = Status::fresh();
    let mic = [0; 63];
    for (at, value) in [(0, 8_388_608), (125, -8_388_609), (64, i32::MIN)] {
        let mut iq = [0; 126];
        iq[at] = value;
        refused_write(fresh, (Word::Inputs, 1), (&iq, &mic), 512, Refusal::Range);
    }
    let board1 = Status {
        board1: 128,
        ..fresh
    };
    let board2 = Status {
        board2: 255,
        ..fresh
    };
    let board3 = Status {
        board3: 128,
        ..fresh
    };
    let board4 = Status {
        board4: 255,
        ..fresh
    };
    for status in [board1, board2, board3, board4] {
        let word = (Word::Inputs, 1);
        refused_write(status, word, (&[0; 126], &mic), 512, Refusal::Range);
    }
}

/// Whichever word is written.
#[test]
fn radio_write_of_levels_that_do_not_fit() {
    for (_, level) in LEVELS.as_flattened() {
        for value in [4096, 8191, 40_000, 65_535] {
            let mut status = Status::fresh();
            *level(&mut status) = value;
            for word in (0..5).map(Word::of) {
                let both = ([0; 126].as_slice(), [0; 63].as_slice());
                refused_write(status, (word, 1), both, 512, Refusal::Range);
            }
        }
    }
}

#[test]
fn samples_past_the_needed_are_not_tested() {
    let mut iq = [0; 127];
    iq[126] = i32::MAX;
    let got = Status::fresh().write(Word::Inputs, 1, &iq, &[0; 63], &mut [0; 512]);
    assert_eq!(got, Ok(()));
}

fn refused_host_read(frame: &[u8], audio: usize, refusal: Refusal) {
    let given = Host {
        outputs: 255,
        receivers: 0,
        line_in_gain: 255,
        word10_c2_top: 255,
        ..Host::fresh()
    };
    let (mut host, mut audio) = (given, vec![7; audio]);
    assert_eq!(host.read(frame, &mut audio), Err(refusal));
    assert_eq!(host, given);
    assert!(audio.iter().all(|&number| number == 7));
}

#[test]
fn host_read() {
    let good = frame([0x01, 0, 0, 0, 0]);
    refused_host_read(&good[1..], AUDIO, Refusal::Length);
    refused_host_read(&[good.as_slice(), &[0]].concat(), AUDIO, Refusal::Length);
    refused_host_read(&good, AUDIO - 1, Refusal::ShortBuffer);
}

/// Each alone and with every other bit of its word; of source and relay the source is named.
#[test]
fn every_cause() {
    let causes = [
        ([0x01, 0x0C, 0, 0, 0], Cause::Source10),
        ([0x01, 0, 0, 0, 0x03], Cause::Relay),
        ([0x13, 0, 0, 0, 0x80], Cause::Word9C4Bit7),
        ([0x15, 0x80, 0, 0, 0], Cause::Word10C1Bit7),
        ([0x00, 0x0C, 0, 0, 0x03], Cause::Source10),
        ([0x00, 0xFF, 0xFF, 0xFF, 0xFF], Cause::Source10),
        ([0x00, 0xFF, 0xFF, 0xFF, 0xFE], Cause::Source10),
        ([0x00, 0xFB, 0xFF, 0xFF, 0xFF], Cause::Relay),
        ([0x00, 0xF7, 0xFF, 0xFF, 0xFF], Cause::Relay),
        ([0x12, 0xFF, 0xFF, 0xFF, 0xFF], Cause::Word9C4Bit7),
        ([0x14, 0xFF, 0xFF, 0xFF, 0xFF], Cause::Word10C1Bit7),
    ];
    for (control, cause) in causes {
        refused_host_read(&frame(control), AUDIO, Refusal::Reserved { cause });
    }
}

/// The first that holds is given, each case mending one more thing than the one before.
#[test]
fn order_of_a_host_read() {
    let mut bad = frame([0, 0x0C, 0, 0, 0x03]);
    bad[2] = 0x7E;
    refused_host_read(&bad[..511], 0, Refusal::Length);
    refused_host_read(&bad, 0, Refusal::ShortBuffer);
    refused_host_read(&bad, AUDIO, Refusal::NoSync { byte: 2 });
    bad[2] = 0x7F;
    let cause = Cause::Source10;
    refused_host_read(&bad, AUDIO, Refusal::Reserved { cause });
    bad[4] = 0;
    let cause = Cause::Relay;
    refused_host_read(&bad, AUDIO, Refusal::Reserved { cause });
}

fn refused_build(builder: Builder, audio: usize, frame: usize, refusal: Refusal) {
    let (mut after, mut frame) = (builder, vec![0xEE; frame]);
    assert_eq!(after.build(&vec![0; audio], &mut frame), Err(refusal));
    assert_eq!(after, builder);
    assert!(frame.iter().all(|&byte| byte == 0xEE));
}

#[test]
fn build() {
    let fresh = Builder::fresh();
    for turn in [11, 255] {
        refused_build(Builder { turn, ..fresh }, 0, 0, Refusal::BadState);
    }
    refused_build(fresh, AUDIO, 511, Refusal::Length);
    refused_build(fresh, AUDIO, 513, Refusal::Length);
    refused_build(fresh, AUDIO - 1, 512, Refusal::ShortBuffer);
}

type NumberOf = fn(&mut Host) -> &mut u8;

/// Whichever word is due.
#[test]
fn build_of_numbers_that_do_not_fit() {
    let numbers: [(NumberOf, &[u8]); 4] = [
        (|host| &mut host.outputs, &[128, 255]),
        (|host| &mut host.receivers, &[0, 9, 255]),
        (|host| &mut host.line_in_gain, &[32, 255]),
        (|host| &mut host.word10_c2_top, &[8, 255]),
    ];
    for turn in 0..=10 {
        for (number, values) in numbers {
            for &value in values {
                let mut builder = Builder {
                    turn,
                    ..Builder::fresh()
                };
                *number(&mut builder.host) = value;
                refused_build(builder, AUDIO, 512, Refusal::Range);
            }
        }
    }
}

fn refused_feed(stream: &Stream, piece: usize, output: usize, refusal: Refusal) {
    let (mut after, mut output) = (stream.clone(), vec![0xEE; output]);
    assert_eq!(after.feed(&vec![0x7F; piece], &mut output), Err(refusal));
    assert_eq!(&after, stream);
    assert!(output.iter().all(|&byte| byte == 0xEE));
}

#[test]
fn feed() {
    let fresh = Stream::fresh();
    refused_feed(&fresh, 4097, 4096, Refusal::Length);
    refused_feed(&fresh, 4096, 4095, Refusal::ShortBuffer);
    let mut full = Stream::fresh();
    full.counts.total = (1 << 48) - 1;
    full.counts.skipped = full.counts.total;
    assert!(full.sound());
    refused_feed(&full, 2, 4096, Refusal::StreamFull);
    assert_eq!(full.feed(&[0], &mut [0; 4096]), Ok(0));
    refused_feed(&full, 1, 4096, Refusal::StreamFull);
}

#[test]
fn unsound_streams() {
    let mut too_many_held = Stream::fresh();
    (too_many_held.counts.held, too_many_held.counts.total) = (515, 515);
    let mut byte_past_the_held = Stream::fresh();
    byte_past_the_held.held[0] = 1;
    let mut too_long = Stream::fresh();
    too_long.counts.total = (1 << 48) + 1;
    too_long.counts.skipped = too_long.counts.total;
    let mut unequal = Stream::fresh();
    unequal.counts.total = 1;
    // 512 times this is 2^64, which is not 0.
    let mut wrapped = Stream::fresh();
    wrapped.counts.frames = 1 << 55;
    for stream in [
        too_many_held,
        byte_past_the_held,
        too_long,
        unequal,
        wrapped,
    ] {
        assert!(!stream.sound());
        refused_feed(&stream, 0, 4096, Refusal::BadState);
        refused_feed(&stream, 4097, 0, Refusal::BadState);
    }
}

/// In bytes that are all 7F a frame begins every 512.
fn refused_at_once(input: usize, output: usize, refusal: Refusal) {
    let mut output = vec![0xEE; output];
    assert_eq!(read_at_once(&vec![0x7F; input], &mut output), Err(refusal));
    assert!(output.iter().all(|&byte| byte == 0xEE));
}

#[test]
fn at_once() {
    for output in [0, 65_536, 65_537, 70_000] {
        refused_at_once(65_537, output, Refusal::Length);
    }
    refused_at_once(1_000_000, 1_000_000, Refusal::Length);
    for (input, output) in [(1, 0), (515, 514), (515, 512), (65_536, 65_535)] {
        refused_at_once(input, output, Refusal::ShortBuffer);
    }
}

/// A longer input first, whatever the place. Two places would be 0 if they were cut to 16 or to 32 bits.
#[test]
fn explained() {
    let bytes = vec![0x7F; 65_537];
    for place in [0, 65_535, 65_536, 65_537, usize::MAX] {
        assert_eq!(explain(&bytes, place), Err(Refusal::Length));
    }
    for length in [0, 1, 514, 515, 65_535, 65_536] {
        for place in [length, length + 1, 65_536, 1 << 32, usize::MAX] {
            assert_eq!(explain(&bytes[..length], place), Err(Refusal::Range));
        }
    }
}

fn says(refusal: Refusal, number: u8, text: &str) {
    assert_eq!(refusal.number(), number);
    assert_eq!(refusal.to_string(), text);
    assert_eq!(Box::<dyn Error>::from(refusal).to_string(), text);
    assert_eq!(io::Error::from(refusal).to_string(), text);
}

#[test]
fn numbers_and_texts_without_a_place() {
    let unsound = "the stream record is unsound, or the turn is above 10";
    let length = "the frame is not 512 bytes, the transfer is not 1 to 8 times 512, the piece is above 4,096, \
                  or the input is above 65,536";
    let short = "a sample slice is shorter than needed, a stream's output is under 4,096 bytes, \
                 or the output is shorter than the input";
    says(Refusal::BadState, 1, unsound);
    says(Refusal::BadCount, 2, "the receiver count is not 1 to 8");
    says(Refusal::Length, 3, length);
    says(Refusal::ShortBuffer, 4, short);
    let full = "more than 2^48 bytes would have been fed";
    says(Refusal::StreamFull, 5, full);
    let range = "a value to be written does not fit, or the place is not below the input's length";
    says(Refusal::Range, 9, range);
}

#[test]
fn numbers_and_texts_with_a_byte() {
    let sync = |byte| Refusal::NoSync { byte };
    says(sync(0), 6, "sync byte 0 is not 7F");
    says(sync(1), 6, "sync byte 1 is not 7F");
    says(sync(2), 6, "sync byte 2 is not 7F");
    let padding = |byte| Refusal::Padding { byte };
    says(padding(488), 7, "padding byte 488 is not zero");
    says(padding(509), 7, "padding byte 509 is not zero");
    says(padding(511), 7, "padding byte 511 is not zero");
}

#[test]
fn numbers_and_texts_with_a_cause() {
    let causes = [
        (
            Cause::Source10,
            "the 10 MHz source has the unassigned code 3",
        ),
        (Cause::Relay, "the transmit relay has the unassigned code 3"),
        (
            Cause::Word9C4Bit7,
            "word 9's C4 bit 7 is set, which is unassigned",
        ),
        (
            Cause::Word10C1Bit7,
            "word 10's C1 bit 7 is set, which is unassigned",
        ),
        (Cause::Ain5, "level AIN5 is above 4,095"),
        (Cause::Ain1, "level AIN1 is above 4,095"),
        (Cause::Ain2, "level AIN2 is above 4,095"),
        (Cause::Ain3, "level AIN3 is above 4,095"),
        (Cause::Ain4, "level AIN4 is above 4,095"),
        (Cause::Ain6, "level AIN6 is above 4,095"),
    ];
    for (number, (cause, text)) in (1..).zip(causes) {
        assert_eq!(cause.number(), number);
        assert_eq!(cause.to_string(), text);
        says(Refusal::Reserved { cause }, 8, text);
    }
}

/// What a caller does with a byte.
#[test]
fn the_byte_is_an_index_of_the_frame() {
    let mut bad = frame([0; 5]);
    bad[509] = 0xA5;
    let got = Status::fresh().read_frame(&bad, 3, &mut Samples::fresh());
    let Err(Refusal::Padding { byte }) = got else {
        panic!("{got:?}");
    };
    assert_eq!(bad[byte], 0xA5);
}

#[test]
fn layout_counts() {
    for receivers in BAD_COUNTS {
        assert_eq!(layout(receivers), Err(Refusal::BadCount));
    }
}
