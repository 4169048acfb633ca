//! Every listed word, bit by bit, both ways.

mod common;

use common::*;
use reference::*;

/// The status after `change` to a fresh one.
fn status_with(change: fn(&mut Status)) -> Status {
    let mut status = Status::fresh();
    change(&mut status);
    status
}

/// The host record after `change` to a fresh one.
fn host_with(change: fn(&mut Host)) -> Host {
    let mut host = Host::fresh();
    change(&mut host);
    host
}

type RadioCase = ([u8; 5], fn(&mut Status));

/// C0 to C4, and what they change in a fresh status.
const RADIO_CASES: [RadioCase; 24] = [
    ([0x04, 0, 0, 0, 0], |s| s.dot = true),
    ([0x02, 0, 0, 0, 0], |s| s.dash = true),
    ([0x01, 0, 0, 0, 0], |s| s.ptt = true),
    ([0, 0x01, 0, 0, 0], |s| s.overflow[0] = true),
    ([0, 0x02, 0, 0, 0], |s| s.io[0] = false),
    ([0, 0x04, 0, 0, 0], |s| s.io[1] = false),
    ([0, 0x08, 0, 0, 0], |s| s.io[2] = false),
    ([0, 0x10, 0, 0, 0], |s| s.io[3] = false),
    ([0, 0x20, 0, 0, 0], |s| s.pll = true),
    ([0, 0x40, 0, 0, 0], |s| s.toggle = true),
    ([0, 0, 0x81, 0, 0], |s| s.mercury = 0x81),
    ([0, 0, 0, 0x82, 0], |s| s.penelope = 0x82),
    ([0, 0, 0, 0, 0x83], |s| s.main = 0x83),
    ([0x08, 0x02, 0x34, 0, 0], |s| s.ain5 = 564),
    ([0x08, 0, 0, 0x02, 0x34], |s| s.ain1 = 564),
    ([0x10, 0x0F, 0xFF, 0, 0], |s| s.ain2 = 4_095),
    ([0x10, 0, 0, 0x0F, 0xFF], |s| s.ain3 = 4_095),
    ([0x18, 0x08, 0x01, 0, 0], |s| s.ain4 = 2_049),
    ([0x18, 0, 0, 0x08, 0x01], |s| s.ain6 = 2_049),
    ([0x20, 0x01, 0, 0, 0], |s| s.overflow[0] = true),
    ([0x20, 0xFE, 0, 0, 0], |s| s.versions[0] = 127),
    ([0x20, 0, 0x03, 0, 0], |s| {
        (s.overflow[1], s.versions[1]) = (true, 1)
    }),
    ([0x20, 0, 0, 0x80, 0], |s| s.versions[2] = 64),
    ([0x20, 0, 0, 0, 0x01], |s| s.overflow[3] = true),
];

#[test]
fn radio_words_set_their_fields() {
    for (control, change) in RADIO_CASES {
        let (status, address) = radio_word(control);
        assert_eq!(status, status_with(change), "{control:02X?}");
        let mut written = [0xEE; 512];
        let word = usize::from(address);
        radio_write(&status, word, 1, &[0; 126], &[0; 63], &mut written).unwrap();
        assert_eq!(written, frame(control));
    }
}

#[test]
fn word_zero_bit_7_is_ignored_and_written_as_zero() {
    let (status, _) = radio_word([0, 0x80, 0, 0, 0]);
    assert_eq!(status, Status::fresh());
}

#[test]
fn unlisted_radio_words_set_the_keys_only() {
    for address in 5..=31 {
        let (status, read) = radio_word([address << 3 | 7, 0xFF, 0xFF, 0xFF, 0xFF]);
        assert_eq!(read, address);
        let keys = status_with(|s| (s.dot, s.dash, s.ptt) = (true, true, true));
        assert_eq!(status, keys);
    }
}

#[test]
fn all_zero_words_give_a_fresh_status() {
    let mut status = Status::fresh();
    for address in 0..=4 {
        // A level has twelve ones.
        let high = match address {
            1..=3 => 0x0F,
            _ => 0xFF,
        };
        let ones = [address << 3 | 7, high, 0xFF, high, 0xFF];
        read_radio_into(&mut status, &frame(ones)).unwrap();
    }
    assert_eq!((levels(&status), status.versions), ([4_095; 6], [127; 4]));
    for address in 0..=4 {
        read_radio_into(&mut status, &frame([address << 3, 0, 0, 0, 0])).unwrap();
    }
    assert_eq!(status, Status::fresh());
}

/// The host word that `host` has at `turn`.
fn built(host: Host, turn: u8) -> [u8; 512] {
    let mut frame = [0xEE; 512];
    let mut builder = Builder { host, turn };
    build(&mut builder, &[0; 252], &mut frame).unwrap();
    frame
}

/// C0 to C4 make `expected` of a fresh record, and it is built as them again.
fn check_host_word(control: [u8; 5], expected: Host) {
    let word = control[0] >> 1;
    assert_eq!(host_word(control), (expected, word), "{control:02X?}");
    assert_eq!(built(expected, word), frame(control));
}

type HostCase = ([u8; 5], fn(&mut Host));

/// C0 to C4 of word 0, and what they change in a fresh host record.
const SETTINGS_CASES: [HostCase; 26] = [
    ([1, 0, 0, 0, 0], |h| h.mox = true),
    ([0, 0x01, 0, 0, 0], |h| h.speed = 1),
    ([0, 0x03, 0, 0, 0], |h| h.speed = 3),
    ([0, 0x04, 0, 0, 0], |h| h.source10 = 1),
    ([0, 0x08, 0, 0, 0], |h| h.source10 = 2),
    ([0, 0x10, 0, 0, 0], |h| h.source122 = 1),
    ([0, 0x20, 0, 0, 0], |h| h.boards = 1),
    ([0, 0x60, 0, 0, 0], |h| h.boards = 3),
    ([0, 0x80, 0, 0, 0], |h| h.microphone = 1),
    ([0, 0, 0x01, 0, 0], |h| h.class_e = true),
    ([0, 0, 0xFE, 0, 0], |h| h.outputs = 127),
    ([0, 0, 0, 0x02, 0], |h| h.attenuator = 2),
    ([0, 0, 0, 0x04, 0], |h| h.preamp = true),
    ([0, 0, 0, 0x08, 0], |h| h.dither = true),
    ([0, 0, 0, 0x10, 0], |h| h.random = true),
    ([0, 0, 0, 0x40, 0], |h| h.antenna = 2),
    ([0, 0, 0, 0x60, 0], |h| h.antenna = 3),
    ([0, 0, 0, 0x80, 0], |h| h.rx_out = true),
    ([0, 0, 0, 0, 0x01], |h| h.relay = 1),
    ([0, 0, 0, 0, 0x02], |h| h.relay = 2),
    ([0, 0, 0, 0, 0x04], |h| h.duplex = true),
    ([0, 0, 0, 0, 0x08], |h| h.receivers = 2),
    ([0, 0, 0, 0, 0x38], |h| h.receivers = 8),
    ([0, 0, 0, 0, 0x40], |h| h.timestamp = true),
    ([0, 0, 0, 0, 0x80], |h| h.common = true),
    ([0, 0, 0, 0, 0], |_| {}),
];

#[test]
fn host_settings_set_their_fields() {
    for (control, change) in SETTINGS_CASES {
        check_host_word(control, host_with(change));
    }
}

#[test]
fn host_frequencies_go_to_their_own_receiver() {
    let hertz = [0x12, 0x34, 0x56, 0x78];
    for word in 1..=8_u8 {
        let [a, b, c, d] = hertz;
        let mut expected = Host::fresh();
        match word {
            1 => expected.transmitter = 305_419_896,
            _ => expected.frequencies[usize::from(word) - 2] = 305_419_896,
        }
        check_host_word([word << 1, a, b, c, d], expected);
    }
}

#[test]
fn host_filters_set_their_fields() {
    check_host_word([0x12, 0xAB, 0, 0, 0], host_with(|h| h.drive = 0xAB));
    for place in 0..8 {
        let mut expected = Host::fresh();
        expected.controls[place] = true;
        check_host_word([0x12, 0, 1 << place, 0, 0], expected);
        let mut expected = Host::fresh();
        expected.high_pass[place] = true;
        check_host_word([0x12, 0, 0, 1 << place, 0], expected);
    }
    for place in 0..7 {
        let mut expected = Host::fresh();
        expected.low_pass[place] = true;
        check_host_word([0x12, 0, 0, 0, 1 << place], expected);
    }
}

/// What word 10 with every assigned bit set changes.
fn fill_inputs(host: &mut Host) {
    host.rx_preamps = [true; 4];
    host.orion_jack = 1;
    (host.mic_bias, host.mic_ptt_disabled) = (true, true);
    (host.line_in_gain, host.word10_c2_top) = (31, 7);
    (host.word10_c3, host.word10_c4) = (255, 255);
}

/// C0 to C4 of word 10, and what they change in a fresh host record.
const INPUTS_CASES: [HostCase; 20] = [
    ([0x14, 0, 0, 0, 0], |_| {}),
    ([0x15, 0, 0, 0, 0], |h| h.mox = true),
    ([0x14, 0x01, 0, 0, 0], |h| h.rx_preamps[0] = true),
    ([0x14, 0x02, 0, 0, 0], |h| h.rx_preamps[1] = true),
    ([0x14, 0x04, 0, 0, 0], |h| h.rx_preamps[2] = true),
    ([0x14, 0x08, 0, 0, 0], |h| h.rx_preamps[3] = true),
    ([0x14, 0x10, 0, 0, 0], |h| h.orion_jack = 1),
    ([0x14, 0x20, 0, 0, 0], |h| h.mic_bias = true),
    ([0x14, 0x40, 0, 0, 0], |h| h.mic_ptt_disabled = true),
    ([0x14, 0, 0x01, 0, 0], |h| h.line_in_gain = 1),
    ([0x14, 0, 0x02, 0, 0], |h| h.line_in_gain = 2),
    ([0x14, 0, 0x04, 0, 0], |h| h.line_in_gain = 4),
    ([0x14, 0, 0x08, 0, 0], |h| h.line_in_gain = 8),
    ([0x14, 0, 0x10, 0, 0], |h| h.line_in_gain = 16),
    ([0x14, 0, 0x1F, 0, 0], |h| h.line_in_gain = 31),
    ([0x14, 0, 0x20, 0, 0], |h| h.word10_c2_top = 1),
    ([0x14, 0, 0x40, 0, 0], |h| h.word10_c2_top = 2),
    ([0x14, 0, 0x80, 0, 0], |h| h.word10_c2_top = 4),
    ([0x14, 0, 0xE0, 0, 0], |h| h.word10_c2_top = 7),
    ([0x14, 0x7F, 0xFF, 0xFF, 0xFF], fill_inputs),
];

#[test]
fn host_inputs_set_their_fields() {
    for (control, change) in INPUTS_CASES {
        check_host_word(control, host_with(change));
    }
    for place in 0..8 {
        let mut expected = Host::fresh();
        expected.word10_c3 = 1 << place;
        check_host_word([0x14, 0, 0, 1 << place, 0], expected);
        let mut expected = Host::fresh();
        expected.word10_c4 = 1 << place;
        check_host_word([0x14, 0, 0, 0, 1 << place], expected);
    }
}

#[test]
fn words_0_and_10_leave_each_others_fields_alone() {
    let (preamp, inputs) = (host_with(|h| h.preamp = true), host_with(fill_inputs));
    let mut both = inputs;
    both.preamp = true;
    let cases = [
        (preamp, [0x14, 0x7F, 0xFF, 0xFF, 0xFF], both),
        (both, [0x14, 0, 0, 0, 0], preamp),
        (inputs, [0, 0, 0, 0x04, 0], both),
        (both, [0, 0, 0, 0, 0], inputs),
    ];
    for (before, control, after) in cases {
        let mut host = before;
        read_host_into(&mut host, &frame(control)).unwrap();
        assert_eq!(host, after, "{control:02X?}");
    }
    assert_eq!(built(inputs, 0), frame([0, 0, 0, 0, 0]));
    assert_eq!(built(preamp, 10), frame([0x14, 0, 0, 0, 0]));
}

#[test]
fn unlisted_host_words_set_mox_only() {
    for address in 11..=127 {
        for (before, mox, fill) in [(Host::fresh(), 1, 0xFF), (busy_host(), 0, 0)] {
            let control = [address << 1 | mox, fill, fill, fill, fill];
            let mut host = before;
            assert_eq!(read_host_into(&mut host, &frame(control)), Ok(address));
            let mut expected = before;
            expected.mox = mox == 1;
            assert_eq!(host, expected);
        }
    }
}

#[test]
fn all_zero_words_give_a_fresh_host() {
    let mut host = Host::fresh();
    for word in 0..=10 {
        let (c1, c4) = match word {
            0 => (0xFB, 0xFE),
            9 => (0xFF, 0x7F),
            10 => (0x7F, 0xFF),
            _ => (0xFF, 0xFF),
        };
        read_host_into(&mut host, &frame([word << 1 | 1, c1, 0xFF, 0xFF, c4])).unwrap();
    }
    assert_eq!(host, full_host());
    for word in 0..=10 {
        read_host_into(&mut host, &frame([word << 1, 0, 0, 0, 0])).unwrap();
    }
    assert_eq!(host, Host::fresh());
}
