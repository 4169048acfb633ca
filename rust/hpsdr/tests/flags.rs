//! Every flag of both records by itself, both ways: one bit of a word is one flag of a fresh record. So too the choice
//! and the numbers of word 10, and the bits of each level.

mod common;

use common::frame;
use hpsdr::{Builder, Host, Jack, Status, Word, AUDIO};

type FlagOf<R> = fn(&mut R) -> &mut bool;
type NumberOf = fn(&mut Host) -> &mut u8;
type LevelOf = fn(&mut Status) -> &mut u16;

/// C0 to C4, and the flag. An input is active where its bit is 0, so its flag goes from true to false.
const STATUS_FLAGS: [([u8; 5], FlagOf<Status>); 14] = [
    ([1 << 2, 0, 0, 0, 0], |status| &mut status.dot),
    ([1 << 1, 0, 0, 0, 0], |status| &mut status.dash),
    ([1, 0, 0, 0, 0], |status| &mut status.ptt),
    ([0, 1, 0, 0, 0], |status| &mut status.adc1),
    ([0, 1 << 1, 0, 0, 0], |status| &mut status.io1),
    ([0, 1 << 2, 0, 0, 0], |status| &mut status.io2),
    ([0, 1 << 3, 0, 0, 0], |status| &mut status.io3),
    ([0, 1 << 4, 0, 0, 0], |status| &mut status.io4),
    ([0, 1 << 5, 0, 0, 0], |status| &mut status.pll),
    ([0, 1 << 6, 0, 0, 0], |status| &mut status.toggle),
    ([4 << 3, 1, 0, 0, 0], |status| &mut status.adc1),
    ([4 << 3, 0, 1, 0, 0], |status| &mut status.adc2),
    ([4 << 3, 0, 0, 1, 0], |status| &mut status.adc3),
    ([4 << 3, 0, 0, 0, 1], |status| &mut status.adc4),
];

const HOST_FLAGS: [([u8; 5], FlagOf<Host>); 38] = [
    ([1, 0, 0, 0, 0], |host| &mut host.mox),
    ([0, 0, 1, 0, 0], |host| &mut host.class_e),
    ([0, 0, 0, 1 << 2, 0], |host| &mut host.preamp),
    ([0, 0, 0, 1 << 3, 0], |host| &mut host.dither),
    ([0, 0, 0, 1 << 4, 0], |host| &mut host.random),
    ([0, 0, 0, 1 << 7, 0], |host| &mut host.rx_out),
    ([0, 0, 0, 0, 1 << 2], |host| &mut host.duplex),
    ([0, 0, 0, 0, 1 << 6], |host| &mut host.time_stamp),
    ([0, 0, 0, 0, 1 << 7], |host| &mut host.common_frequency),
    ([9 << 1, 0, 1, 0, 0], |host| &mut host.mic_boost),
    ([9 << 1, 0, 1 << 1, 0, 0], |host| &mut host.line_in),
    ([9 << 1, 0, 1 << 2, 0, 0], |host| &mut host.apollo_filter),
    ([9 << 1, 0, 1 << 3, 0, 0], |host| &mut host.apollo_tuner),
    ([9 << 1, 0, 1 << 4, 0, 0], |host| &mut host.auto_tune),
    ([9 << 1, 0, 1 << 5, 0, 0], |host| &mut host.filter_board),
    ([9 << 1, 0, 1 << 6, 0, 0], |host| &mut host.manual_filters),
    ([9 << 1, 0, 1 << 7, 0, 0], |host| &mut host.vna),
    ([9 << 1, 0, 0, 1, 0], |host| &mut host.high_pass_13),
    ([9 << 1, 0, 0, 1 << 1, 0], |host| &mut host.high_pass_20),
    ([9 << 1, 0, 0, 1 << 2, 0], |host| &mut host.high_pass_9_5),
    ([9 << 1, 0, 0, 1 << 3, 0], |host| &mut host.high_pass_6_5),
    ([9 << 1, 0, 0, 1 << 4, 0], |host| &mut host.high_pass_1_5),
    ([9 << 1, 0, 0, 1 << 5, 0], |host| &mut host.bypass),
    ([9 << 1, 0, 0, 1 << 6, 0], |host| &mut host.amplifier_6m),
    ([9 << 1, 0, 0, 1 << 7, 0], |host| &mut host.tr_disabled),
    ([9 << 1, 0, 0, 0, 1], |host| &mut host.low_pass_30_20),
    ([9 << 1, 0, 0, 0, 1 << 1], |host| &mut host.low_pass_60_40),
    ([9 << 1, 0, 0, 0, 1 << 2], |host| &mut host.low_pass_80),
    ([9 << 1, 0, 0, 0, 1 << 3], |host| &mut host.low_pass_160),
    ([9 << 1, 0, 0, 0, 1 << 4], |host| &mut host.low_pass_6),
    ([9 << 1, 0, 0, 0, 1 << 5], |host| &mut host.low_pass_12_10),
    ([9 << 1, 0, 0, 0, 1 << 6], |host| &mut host.low_pass_17_15),
    ([10 << 1, 1, 0, 0, 0], |host| &mut host.rx_preamps[0]),
    ([10 << 1, 1 << 1, 0, 0, 0], |host| &mut host.rx_preamps[1]),
    ([10 << 1, 1 << 2, 0, 0, 0], |host| &mut host.rx_preamps[2]),
    ([10 << 1, 1 << 3, 0, 0, 0], |host| &mut host.rx_preamps[3]),
    ([10 << 1, 1 << 5, 0, 0, 0], |host| &mut host.mic_bias),
    ([10 << 1, 1 << 6, 0, 0, 0], |host| {
        &mut host.mic_ptt_disabled
    }),
];

/// The word and the byte of it where a level begins.
const LEVELS: [(u8, usize, LevelOf); 6] = [
    (1, 1, |status| &mut status.ain5),
    (1, 3, |status| &mut status.ain1),
    (2, 1, |status| &mut status.ain2),
    (2, 3, |status| &mut status.ain3),
    (3, 1, |status| &mut status.ain4),
    (3, 3, |status| &mut status.ain6),
];

/// The byte of word 10 and the lowest bit of it where a number stands, and the most that its bits hold.
const WORD_10_NUMBERS: [(usize, u8, u8, NumberOf); 4] = [
    (2, 0, 31, |host| &mut host.line_in_gain),
    (2, 5, 7, |host| &mut host.word10_c2_top),
    (3, 0, 255, |host| &mut host.word10_c3),
    (4, 0, 255, |host| &mut host.word10_c4),
];

/// The word read into a fresh record gives the status record, and the status record gives the word.
fn status_both_ways(control: [u8; 5], expected: Status) {
    let mut status = Status::fresh();
    let got = status.read(&frame(control), 1, &mut [0; 126], &mut [0; 63]);
    assert!(got.is_ok());
    assert_eq!(status, expected, "{control:X?}");

    let (word, mut written) = (Word::of(control[0] >> 3), [0xEE; 512]);
    let got = expected.write(word, 1, &[0; 126], &[0; 63], &mut written);
    assert_eq!((got, written), (Ok(()), frame(control)));
}

#[test]
fn status_flags() {
    for (control, flag) in STATUS_FLAGS {
        let mut expected = Status::fresh();
        *flag(&mut expected) ^= true;
        status_both_ways(control, expected);
    }
}

/// Each of the twelve bits alone, and all of them. What is above them is refused: see `refusals.rs`.
#[test]
fn levels() {
    for (word, byte, level) in LEVELS {
        for value in (0..12).map(|bit| 1 << bit).chain([4095]) {
            let (mut control, mut expected) = ([word << 3, 0, 0, 0, 0], Status::fresh());
            control[byte..byte + 2].copy_from_slice(&u16::to_be_bytes(value));
            *level(&mut expected) = value;
            status_both_ways(control, expected);
        }
    }
}

/// The word read into a fresh record gives the host record, and the host record gives the word.
fn host_both_ways(control: [u8; 5], expected: Host) {
    let mut host = Host::fresh();
    assert!(host.read(&frame(control), &mut [0; AUDIO]).is_ok());
    assert_eq!(host, expected, "{control:X?}");

    let (turn, mut written) = (control[0] >> 1, [0xEE; 512]);
    let mut builder = Builder { host, turn };
    let got = builder.build(&[0; AUDIO], &mut written);
    assert_eq!((got, written), (Ok(()), frame(control)));
}

#[test]
fn host_flags() {
    for (control, flag) in HOST_FLAGS {
        let mut expected = Host::fresh();
        *flag(&mut expected) ^= true;
        host_both_ways(control, expected);
    }
}

#[test]
fn jack() {
    for (code, orion_jack) in (0..).zip([Jack::PttToRing, Jack::PttToTip]) {
        let expected = Host {
            orion_jack,
            ..Host::fresh()
        };
        host_both_ways([10 << 1, code << 4, 0, 0, 0], expected);
    }
}

#[test]
fn numbers_of_word_10() {
    for (byte, bit, most, number) in WORD_10_NUMBERS {
        for value in 0..=most {
            let (mut control, mut expected) = ([10 << 1, 0, 0, 0, 0], Host::fresh());
            control[byte] = value << bit;
            *number(&mut expected) = value;
            host_both_ways(control, expected);
        }
    }
}
