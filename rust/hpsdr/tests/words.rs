//! Every field of both records, against the bytes of its word.

// The digits of a byte are grouped by its fields.
#![allow(clippy::unusual_byte_groupings)]

mod common;
#[path = "common/levels.rs"]
mod levels;

use common::frame;
use hpsdr::{
    Antenna, Attenuator, Boards, Builder, Host, Jack, Microphone, Relay, Source10, Source122,
    Speed, Status, Word, AUDIO,
};
use levels::high_levels;

const STATUS: Status = Status {
    dot: true,
    dash: false,
    ptt: true,
    adc1: true,
    adc2: false,
    adc3: true,
    adc4: true,
    io1: false,
    io2: true,
    io3: true,
    io4: false,
    pll: true,
    toggle: false,
    mercury: 0x12,
    penelope: 0x34,
    main: 0xFF,
    ain5: 0x0102,
    ain1: 0x0304,
    ain2: 0x0506,
    ain3: 0x0708,
    ain4: 0x090A,
    ain6: 0x0FFE,
    board1: 127,
    board2: 1,
    board3: 2,
    board4: 64,
};

/// Its words: C0 is the address and DOT, PTT; word 0's C1 is ADC 1, IO1 and IO4 (inactive), PLL.
const STATUS_WORDS: [[u8; 5]; 5] = [
    [0x05, 0b0011_0011, 0x12, 0x34, 0xFF],
    [0x0D, 0x01, 0x02, 0x03, 0x04],
    [0x15, 0x05, 0x06, 0x07, 0x08],
    [0x1D, 0x09, 0x0A, 0x0F, 0xFE],
    [0x25, 0xFF, 0x02, 0x05, 0x81],
];

const HOST: Host = Host {
    mox: true,
    speed: Speed::Khz384,
    source10: Source10::Mercury,
    source122: Source122::Penelope,
    boards: Boards::Mercury,
    microphone: Microphone::Penelope,
    class_e: false,
    outputs: 0x55,
    attenuator: Attenuator::Db10,
    preamp: true,
    dither: false,
    random: true,
    antenna: Antenna::Rx2,
    rx_out: false,
    relay: Relay::Tx3,
    duplex: false,
    receivers: 8,
    time_stamp: true,
    common_frequency: false,
    transmitter: 0x0102_0304,
    frequencies: [
        0x1112_1314,
        0x2122_2324,
        0x3132_3334,
        0x4142_4344,
        0x5152_5354,
        0x6162_6364,
        0xFFFE_FDFC,
    ],
    drive: 0xA5,
    mic_boost: true,
    line_in: false,
    apollo_filter: true,
    apollo_tuner: true,
    auto_tune: false,
    filter_board: false,
    manual_filters: true,
    vna: false,
    high_pass_13: false,
    high_pass_20: true,
    high_pass_9_5: true,
    high_pass_6_5: false,
    high_pass_1_5: true,
    bypass: false,
    amplifier_6m: false,
    tr_disabled: true,
    low_pass_30_20: true,
    low_pass_60_40: false,
    low_pass_80: true,
    low_pass_160: false,
    low_pass_6: false,
    low_pass_12_10: true,
    low_pass_17_15: true,
    rx_preamps: [true, false, true, true],
    orion_jack: Jack::PttToTip,
    mic_bias: false,
    mic_ptt_disabled: true,
    line_in_gain: 19,
    word10_c2_top: 6,
    word10_c3: 0xB7,
    word10_c4: 0x8E,
};

const HOST_WORDS: [[u8; 5]; 11] = [
    [
        0x01,
        0b1_10_0_10_11,
        0b1010101_0,
        0b0_10_1_0_1_01,
        0b0_1_111_0_10,
    ],
    [0x03, 0x01, 0x02, 0x03, 0x04],
    [0x05, 0x11, 0x12, 0x13, 0x14],
    [0x07, 0x21, 0x22, 0x23, 0x24],
    [0x09, 0x31, 0x32, 0x33, 0x34],
    [0x0B, 0x41, 0x42, 0x43, 0x44],
    [0x0D, 0x51, 0x52, 0x53, 0x54],
    [0x0F, 0x61, 0x62, 0x63, 0x64],
    [0x11, 0xFF, 0xFE, 0xFD, 0xFC],
    [0x13, 0xA5, 0b0100_1101, 0b1001_0110, 0b0110_0101],
    [0x15, 0b0_1_0_1_1101, 0b110_10011, 0xB7, 0x8E],
];

#[test]
fn status_words_written() {
    for (word, control) in (0..).map(Word::of).zip(STATUS_WORDS) {
        let mut written = [0xEE; 512];
        let got = STATUS.write(word, 5, &[0; 150], &[0; 15], &mut written);
        assert_eq!(got, Ok(()));
        assert_eq!(written, frame(control), "{word:?}");
    }
}

#[test]
fn status_words_read() {
    let mut status = Status::fresh();
    for (address, control) in (0..).zip(STATUS_WORDS) {
        let got = status.read(&frame(control), 5, &mut [0; 150], &mut [0; 15]);
        assert_eq!(got, Ok(Word::of(address)));
    }
    assert_eq!(status, STATUS);
}

#[test]
fn unlisted_words_of_the_radio_set_the_keys_only() {
    for address in 5..32 {
        let mut status = STATUS;
        let control = [address << 3 | 0b010, 0xFF, 0xFF, 0xFF, 0xFF];
        let got = status.read(&frame(control), 1, &mut [0; 126], &mut [0; 63]);
        assert_eq!(got, Ok(Word::Unlisted(address)));
        let expected = Status {
            dot: false,
            dash: true,
            ptt: false,
            ..STATUS
        };
        assert_eq!(status, expected);
    }
}

/// Words 0 and 4 carry no level, and take every bit.
#[test]
fn words_without_levels_take_any_bytes() {
    let inputs = Status {
        dot: true,
        dash: true,
        ptt: true,
        adc1: true,
        io1: false,
        io2: false,
        io3: false,
        io4: false,
        pll: true,
        toggle: true,
        mercury: 255,
        penelope: 255,
        main: 255,
        ..Status::fresh()
    };
    let versions = Status {
        dot: true,
        dash: true,
        ptt: true,
        adc1: true,
        adc2: true,
        adc3: true,
        adc4: true,
        board1: 127,
        board2: 127,
        board3: 127,
        board4: 127,
        ..Status::fresh()
    };
    for (word, expected) in [(Word::Inputs, inputs), (Word::Versions, versions)] {
        let mut status = Status::fresh();
        let control = [word.address() << 3 | 7, 0xFF, 0xFF, 0xFF, 0xFF];
        let got = status.read(&frame(control), 1, &mut [0; 126], &mut [0; 63]);
        assert_eq!((got, status), (Ok(word), expected));
    }
}

/// Levels that no frame has are not a read's to refuse: they stay but for those of the word, which are 0 in the frame.
#[test]
fn high_levels_of_the_record() {
    let high = high_levels();
    for address in 0..32 {
        let (mut status, mut expected) = (high, high);
        match address {
            1 => (expected.ain5, expected.ain1) = (0, 0),
            2 => (expected.ain2, expected.ain3) = (0, 0),
            3 => (expected.ain4, expected.ain6) = (0, 0),
            _ => {}
        }
        let control = [address << 3, 0, 0, 0, 0];
        let got = status.read(&frame(control), 1, &mut [0; 126], &mut [0; 63]);
        assert_eq!((got, status), (Ok(Word::of(address)), expected));
    }
}

#[test]
fn host_words_built() {
    let mut builder = Builder {
        host: HOST,
        turn: 0,
    };
    for (turn, control) in (1..).zip(HOST_WORDS) {
        let mut written = [0xEE; 512];
        assert_eq!(builder.build(&[0; AUDIO], &mut written), Ok(()));
        assert_eq!(written, frame(control));
        let expected = Builder {
            host: HOST,
            turn: turn % 11,
        };
        assert_eq!(builder, expected);
    }
}

#[test]
fn host_words_read() {
    let mut host = Host::fresh();
    for (address, control) in (0..).zip(HOST_WORDS) {
        assert_eq!(host.read(&frame(control), &mut [0; AUDIO]), Ok(address));
    }
    assert_eq!(host, HOST);
}

#[test]
fn unlisted_words_of_the_host_set_mox_only() {
    for address in 11..128 {
        let mut host = HOST;
        let control = [address << 1, 0xFF, 0xFF, 0xFF, 0xFF];
        assert_eq!(host.read(&frame(control), &mut [0; AUDIO]), Ok(address));
        let expected = Host { mox: false, ..HOST };
        assert_eq!(host, expected);
    }
}

#[test]
fn words_0_and_10_keep_their_preamps_apart() {
    let word_0 = ([0; 5], (false, HOST.rx_preamps));
    let word_10 = ([10 << 1, 0, 0, 0, 0], (HOST.preamp, [false; 4]));
    for (control, expected) in [word_0, word_10] {
        let mut host = HOST;
        assert!(host.read(&frame(control), &mut [0; AUDIO]).is_ok());
        assert_eq!((host.preamp, host.rx_preamps), expected);
    }
}

/// Word 0 with every two-bit code at `code`, and every one-bit choice at its low bit.
fn host_of_codes(code: u8) -> Host {
    let mut host = Host::fresh();
    let low = code & 1;
    let c1 = code | code << 2 | low << 4 | code << 5 | low << 7;
    let control = [0, c1, 0, code | code << 5, code];
    assert_eq!(host.read(&frame(control), &mut [0; AUDIO]), Ok(0));
    host
}

#[test]
fn every_choice_by_its_code() {
    let first = Host {
        speed: Speed::Khz96,
        source10: Source10::Penelope,
        source122: Source122::Mercury,
        boards: Boards::Penelope,
        microphone: Microphone::Penelope,
        attenuator: Attenuator::Db10,
        antenna: Antenna::Rx1,
        relay: Relay::Tx2,
        ..Host::fresh()
    };
    let second = Host {
        speed: Speed::Khz192,
        source10: Source10::Mercury,
        boards: Boards::Mercury,
        attenuator: Attenuator::Db20,
        antenna: Antenna::Rx2,
        relay: Relay::Tx3,
        ..Host::fresh()
    };
    assert_eq!(host_of_codes(1), first);
    assert_eq!(host_of_codes(2), second);
}

#[test]
fn fourth_choices() {
    let mut host = Host::fresh();
    let control = [0, 0b0_11_0_00_11, 0, 0b0_11_0_0_0_11, 0];
    assert_eq!(host.read(&frame(control), &mut [0; AUDIO]), Ok(0));
    let expected = Host {
        speed: Speed::Khz384,
        boards: Boards::Both,
        attenuator: Attenuator::Db30,
        antenna: Antenna::Xv,
        ..Host::fresh()
    };
    assert_eq!(host, expected);
}

#[test]
fn first_choices() {
    let host = Host::fresh();
    assert_eq!(host.speed, Speed::Khz48);
    assert_eq!(host.source10, Source10::AtlasOrExcalibur);
    assert_eq!(host.source122, Source122::Penelope);
    assert_eq!(host.boards, Boards::None);
    assert_eq!(host.microphone, Microphone::Janus);
    assert_eq!(host.attenuator, Attenuator::Db0);
    assert_eq!(host.antenna, Antenna::None);
    assert_eq!(host.relay, Relay::Tx1);
    assert_eq!(host.orion_jack, Jack::PttToRing);
}

#[test]
fn audio_both_ways() {
    let mut audio: [i16; AUDIO] = std::array::from_fn(|at| (at as i32 * 259 - 32_000) as i16);
    audio[251] = -32_768;
    let mut written = [0; 512];
    assert_eq!(Builder::fresh().build(&audio, &mut written), Ok(()));
    for (slot, numbers) in written[8..].chunks_exact(8).zip(audio.chunks_exact(4)) {
        let swapped = [numbers[0], numbers[1], numbers[3], numbers[2]];
        assert_eq!(slot, swapped.map(i16::to_be_bytes).as_flattened());
    }
    let mut read = [1; AUDIO + 2];
    assert_eq!(Host::fresh().read(&written, &mut read), Ok(0));
    assert_eq!(read[..AUDIO], audio);
    assert_eq!(read[AUDIO..], [1; 2]);
}

/// A caller's I stands in the bytes drawn as Q, and its Q in those drawn as I (T-03).
#[test]
fn i_and_q_are_swapped_both_ways() {
    for slot in [0, 31, 62] {
        let (mut audio, mut drawn) = ([0; AUDIO], frame([0; 5]));
        audio[4 * slot..][..4].copy_from_slice(&[258, -259, 1286, -32_768]);
        drawn[8 + 8 * slot..][..8].copy_from_slice(&[1, 2, 0xFE, 0xFD, 0x80, 0, 5, 6]);
        let (mut written, mut read) = ([1; 512], [1; AUDIO]);
        assert_eq!(Builder::fresh().build(&audio, &mut written), Ok(()));
        assert_eq!(written, drawn);
        assert_eq!(Host::fresh().read(&drawn, &mut read), Ok(0));
        assert_eq!(read, audio);
    }
}
