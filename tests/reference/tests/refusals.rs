//! Every refusal of every call, in every company, and nothing changed by it.

mod common;

use common::*;
use reference::Cause::*;
use reference::Refusal::*;
use reference::*;

#[derive(Clone, Debug, PartialEq)]
struct RadioCall {
    receivers: usize,
    word: usize,
    frame: Vec<u8>,
    iq: Vec<i32>,
    mic: Vec<i16>,
    status: Status,
}

/// A call with slices of just the needed length; three receivers have padding.
fn good_radio_call() -> RadioCall {
    radio_call_of([0x27, 0xFF, 0xFF, 0xFF, 0xFF])
}

fn radio_call_of(control: [u8; 5]) -> RadioCall {
    RadioCall {
        receivers: 3,
        word: 4,
        frame: frame(control).to_vec(),
        iq: vec![77; 150],
        mic: vec![77; 25],
        status: Status::fresh(),
    }
}

fn run_radio_read(call: &mut RadioCall) -> Option<Refusal> {
    let RadioCall { frame, iq, mic, .. } = call;
    radio_read(frame, call.receivers, iq, mic, &mut call.status).err()
}

fn run_transfer(call: &mut RadioCall) -> Option<Refusal> {
    let RadioCall { frame, iq, mic, .. } = call;
    let got = radio_read_transfer(frame, call.receivers, iq, mic, &mut call.status);
    got.err().map(|stopped| {
        assert_eq!(stopped.frames, 0);
        stopped.refusal
    })
}

fn run_radio_write(call: &mut RadioCall) -> Option<Refusal> {
    let RadioCall {
        status, iq, mic, ..
    } = call;
    radio_write(status, call.word, call.receivers, iq, mic, &mut call.frame).err()
}

/// Words 1 to 3 with each level at its most and all three keys set, and what is
/// wrong with either level.
const LEVELS: [([u8; 5], [Fault<RadioCall>; 2]); 3] = [
    (
        [0x0F, 0x0F, 0xFF, 0x0F, 0xFF],
        [
            (Reserved { cause: Ain5 }, |c| c.frame[4] = 0x10),
            (Reserved { cause: Ain1 }, |c| c.frame[6] = 0x80),
        ],
    ),
    (
        [0x17, 0x0F, 0xFF, 0x0F, 0xFF],
        [
            (Reserved { cause: Ain2 }, |c| c.frame[4] = 0x20),
            (Reserved { cause: Ain3 }, |c| c.frame[6] = 0x10),
        ],
    ),
    (
        [0x1F, 0x0F, 0xFF, 0x0F, 0xFF],
        [
            (Reserved { cause: Ain4 }, |c| c.frame[4] = 0xFF),
            (Reserved { cause: Ain6 }, |c| c.frame[6] = 0x40),
        ],
    ),
];

#[test]
fn radio_read_refuses_in_order() {
    let faults: [Fault<RadioCall>; 13] = [
        (Padding { byte: 508 }, |c| c.frame[508] = 1),
        (Padding { byte: 509 }, |c| c.frame[509] = 0xFF),
        (Padding { byte: 510 }, |c| c.frame[510] = 2),
        (Padding { byte: 511 }, |c| c.frame[511] = 0x80),
        (NoSync { byte: 0 }, |c| c.frame[0] = 0x7E),
        (NoSync { byte: 1 }, |c| c.frame[1] = 0xFF),
        (NoSync { byte: 2 }, |c| c.frame[2] = 0),
        (ShortBuffer, |c| c.iq.truncate(149)),
        (ShortBuffer, |c| c.mic.truncate(24)),
        (Length, |c| c.frame.truncate(511)),
        (Length, |c| c.frame.resize(513, 0)),
        (BadCount, |c| c.receivers = 0),
        (BadCount, |c| c.receivers = 9),
    ];
    check_every_set(&good_radio_call(), run_radio_read, &faults);
    for (control, levels) in LEVELS {
        let faults = [&levels[..], &faults].concat();
        check_every_set(&radio_call_of(control), run_radio_read, &faults);
    }
}

/// Two frames, and slices of just the needed length. What is wrong with a
/// frame is wrong with the first.
#[test]
fn a_transfer_refuses_in_order() {
    let good = |one: RadioCall| RadioCall {
        frame: one.frame.repeat(2),
        iq: one.iq.repeat(2),
        mic: one.mic.repeat(2),
        ..one
    };
    let faults: [Fault<RadioCall>; 14] = [
        (Padding { byte: 508 }, |c| c.frame[508] = 1),
        (Padding { byte: 511 }, |c| c.frame[511] = 1),
        (NoSync { byte: 0 }, |c| c.frame[0] = 0),
        (NoSync { byte: 2 }, |c| c.frame[2] = 0),
        (ShortBuffer, |c| c.iq.truncate(299)),
        (ShortBuffer, |c| c.iq.truncate(150)),
        (ShortBuffer, |c| c.mic.truncate(49)),
        (ShortBuffer, |c| c.mic.truncate(25)),
        (Length, |c| c.frame.resize(9 * 512, 0)),
        (Length, |c| c.frame.resize(1025, 0)),
        (Length, |c| c.frame.truncate(1023)),
        (Length, |c| c.frame.clear()),
        (BadCount, |c| c.receivers = 0),
        (BadCount, |c| c.receivers = 9),
    ];
    check_every_set(&good(good_radio_call()), run_transfer, &faults);
    let (control, levels) = LEVELS[1];
    let faults = [&levels[..], &faults].concat();
    check_every_set(&good(radio_call_of(control)), run_transfer, &faults);
}

#[test]
fn radio_write_refuses_in_order() {
    let faults: [Fault<RadioCall>; 14] = [
        (Range, |c| c.status.ain5 = 4_096),
        (Range, |c| c.status.ain6 = 65_535),
        (Range, |c| c.iq[0] = 8_388_608),
        (Range, |c| c.iq[149] = -8_388_609),
        (Range, |c| c.status.versions[0] = 128),
        (Range, |c| c.status.versions[3] = 255),
        (Range, |c| c.word = 5),
        (Range, |c| c.word = usize::MAX),
        (ShortBuffer, |c| c.iq.truncate(149)),
        (ShortBuffer, |c| c.mic.truncate(24)),
        (Length, |c| c.frame.truncate(511)),
        (Length, |c| c.frame.resize(513, 0)),
        (BadCount, |c| c.receivers = 0),
        (BadCount, |c| c.receivers = 9),
    ];
    for word in 0..=4 {
        let mut good = good_radio_call();
        good.word = word;
        check_every_set(&good, run_radio_write, &faults);
    }
}

#[test]
fn radio_read_refuses_every_padding_byte() {
    for (receivers, _, _, padding) in TABLE {
        for place in 512 - padding..512 {
            let mut frame = frame([0; 5]);
            frame[place] = 1;
            let (mut iq, mut mic, mut status) = ([3; 200], [3; 100], Status::fresh());
            let answer = radio_read(&frame, receivers, &mut iq, &mut mic, &mut status);
            assert_eq!(answer, Err(Padding { byte: place }));
            assert_eq!((iq, mic), ([3; 200], [3; 100]));
        }
    }
}

#[test]
fn radio_write_needs_no_sync_and_no_zero_padding_before() {
    let mut call = good_radio_call();
    call.frame = vec![0xEE; 512];
    assert_eq!(run_radio_write(&mut call), None);
    assert_eq!(call.frame[..3], SYNC);
    assert_eq!(call.frame[508..], [0; 4]);
}

#[test]
fn samples_past_the_needed_are_not_tested() {
    let mut call = good_radio_call();
    call.iq.push(i32::MAX);
    assert_eq!(run_radio_write(&mut call), None);
}

#[test]
fn samples_at_the_limits_are_accepted() {
    let mut call = good_radio_call();
    (call.iq[0], call.iq[149]) = (8_388_607, -8_388_608);
    call.status = Status {
        versions: [127; 4],
        ..status_of([4_095; 6])
    };
    assert_eq!(run_radio_write(&mut call), None);
    assert_eq!(call.frame[8..11], [0x7F, 0xFF, 0xFF]);
    assert_eq!(call.frame[503..506], [0x80, 0, 0]);
}

#[derive(Clone, Debug, PartialEq)]
struct HostCall {
    builder: Builder,
    frame: Vec<u8>,
    audio: Vec<i16>,
}

fn good_host_call(control: [u8; 5], turn: u8) -> HostCall {
    let host = Host::fresh();
    HostCall {
        builder: Builder { host, turn },
        frame: frame(control).to_vec(),
        audio: vec![77; 252],
    }
}

fn run_host_read(call: &mut HostCall) -> Option<Refusal> {
    host_read(&call.frame, &mut call.audio, &mut call.builder.host).err()
}

fn run_build(call: &mut HostCall) -> Option<Refusal> {
    build(&mut call.builder, &call.audio, &mut call.frame).err()
}

fn reserved(cause: Cause) -> Refusal {
    Reserved { cause }
}

type ReservedCase = ([u8; 5], [Fault<HostCall>; 2]);

#[test]
fn host_read_refuses_in_order() {
    let words: [ReservedCase; 3] = [
        (
            [0x01, 0xF3, 0xFF, 0xFF, 0xFC],
            [
                (reserved(Source10), |c| c.frame[4] = 0x0C),
                (reserved(Relay), |c| c.frame[7] = 0x03),
            ],
        ),
        (
            [0x13, 0xFF, 0xFF, 0xFF, 0x7F],
            [
                (reserved(Word9C4Bit7), |c| c.frame[7] |= 0x80),
                (reserved(Word9C4Bit7), |c| c.frame[7] = 0x80),
            ],
        ),
        (
            [0x15, 0x7F, 0xFF, 0xFF, 0xFF],
            [
                (reserved(Word10C1Bit7), |c| c.frame[4] |= 0x80),
                (reserved(Word10C1Bit7), |c| c.frame[4] = 0x80),
            ],
        ),
    ];
    let others: [Fault<HostCall>; 6] = [
        (NoSync { byte: 0 }, |c| c.frame[0] = 0x7E),
        (NoSync { byte: 1 }, |c| c.frame[1] = 0xFF),
        (NoSync { byte: 2 }, |c| c.frame[2] = 0),
        (ShortBuffer, |c| c.audio.truncate(251)),
        (Length, |c| c.frame.truncate(511)),
        (Length, |c| c.frame.resize(513, 0)),
    ];
    for (control, reserved) in words {
        let faults = [&reserved[..], &others].concat();
        check_every_set(&good_host_call(control, 0), run_host_read, &faults);
    }
}

#[test]
fn unassigned_codes_are_refused_in_their_own_word_only() {
    for address in (1..=127).filter(|address| ![9, 10].contains(address)) {
        let control = [address << 1, 0xFF, 0xFF, 0xFF, 0xFF];
        assert_eq!(run_host_read(&mut good_host_call(control, 0)), None);
    }
    for code in 0..=3 {
        let refusal = |cause| (code == 3).then_some(reserved(cause));
        let source = run_host_read(&mut good_host_call([0, code << 2, 0, 0, 0], 0));
        assert_eq!(source, refusal(Source10));
        let relay = run_host_read(&mut good_host_call([0, 0, 0, 0, code], 0));
        assert_eq!(relay, refusal(Relay));
    }
}

#[test]
fn a_bit_alone_is_refused_only_in_word_9_c4_and_word_10_c1() {
    let cause = |control: [u8; 5]| match control {
        [0x12, 0, 0, 0, 0x80] => Some(Word9C4Bit7),
        [0x14, 0x80, 0, 0, 0] => Some(Word10C1Bit7),
        _ => None,
    };
    for address in 0..=127 {
        for bit in 0..32 {
            let [c1, c2, c3, c4] = (1_u32 << bit).to_be_bytes();
            let control = [address << 1, c1, c2, c3, c4];
            let refusal = cause(control).map(reserved);
            let answer = run_host_read(&mut good_host_call(control, 0));
            assert_eq!(answer, refusal, "{control:02X?}");
        }
    }
}

#[test]
fn build_refuses_in_order() {
    let faults: [Fault<HostCall>; 10] = [
        (Range, |c| c.builder.host.outputs = 128),
        (Range, |c| c.builder.host.receivers = 0),
        (Range, |c| c.builder.host.receivers = 9),
        (Range, |c| c.builder.host.line_in_gain = 32),
        (Range, |c| c.builder.host.word10_c2_top = 8),
        (ShortBuffer, |c| c.audio.truncate(251)),
        (Length, |c| c.frame.truncate(511)),
        (Length, |c| c.frame.resize(513, 0)),
        (BadState, |c| c.builder.turn = 11),
        (BadState, |c| c.builder.turn = 255),
    ];
    for turn in 0..=10 {
        check_every_set(&good_host_call([0; 5], turn), run_build, &faults);
    }
}

#[test]
fn build_takes_gains_to_31_and_top_bits_to_7_at_every_turn() {
    let cases = [
        (31, 7, None),
        (32, 7, Some(Range)),
        (31, 8, Some(Range)),
        (255, 0, Some(Range)),
        (0, 255, Some(Range)),
    ];
    for turn in 0..=10 {
        for (gain, top, refusal) in cases {
            let mut call = good_host_call([0; 5], turn);
            let host = &mut call.builder.host;
            (host.line_in_gain, host.word10_c2_top) = (gain, top);
            assert_eq!(run_build(&mut call), refusal, "{gain} {top} at {turn}");
        }
    }
}

/// Records that the scope's named choices cannot hold, but codes can.
#[test]
fn build_refuses_codes_that_name_no_choice() {
    let faults: [Fault<HostCall>; 11] = [
        (Range, |c| c.builder.host.speed = 4),
        (Range, |c| c.builder.host.source122 = 2),
        (Range, |c| c.builder.host.boards = 4),
        (Range, |c| c.builder.host.microphone = 2),
        (Range, |c| c.builder.host.attenuator = 4),
        (Range, |c| c.builder.host.antenna = 4),
        (Range, |c| c.builder.host.orion_jack = 2),
        (reserved(Source10), |c| c.builder.host.source10 = 3),
        (reserved(Relay), |c| c.builder.host.relay = 3),
        (ShortBuffer, |c| c.audio.truncate(251)),
        (BadState, |c| c.builder.turn = 11),
    ];
    for turn in [0, 9, 10] {
        check_every_set(&good_host_call([0; 5], turn), run_build, &faults);
    }
}

#[derive(Clone, Debug, PartialEq)]
struct StreamCall {
    stream: Stream,
    piece: Vec<u8>,
    output: Vec<u8>,
}

fn good_stream_call() -> StreamCall {
    let mut stream = Stream::fresh();
    stream.feed(&[5; 600], &mut [0; MOST]).unwrap();
    stream.feed(&[5; 20], &mut [0; MOST]).unwrap();
    StreamCall {
        stream,
        piece: vec![0x7F; 4096],
        output: vec![0xEE; 4096],
    }
}

fn run_feed(call: &mut StreamCall) -> Option<Refusal> {
    call.stream.feed(&call.piece, &mut call.output).err()
}

#[test]
fn feed_refuses_in_order() {
    let faults: [Fault<StreamCall>; 8] = [
        (StreamFull, |c| {
            c.stream.skipped += (1 << 48) - 4095 - c.stream.total;
            c.stream.total = (1 << 48) - 4095;
        }),
        (ShortBuffer, |c| c.output.truncate(4095)),
        (Length, |c| c.piece.push(0)),
        (BadState, |c| c.stream.total += 1),
        (BadState, |c| c.stream.frames = 1 << 55),
        (BadState, |c| c.stream.skipped = u64::MAX),
        (BadState, |c| c.stream.count = 515),
        (BadState, |c| c.stream.count = usize::MAX),
    ];
    check_every_set(&good_stream_call(), run_feed, &faults);
}

#[test]
fn feed_refuses_a_cell_past_the_held_bytes() {
    let mut call = good_stream_call();
    call.stream = Stream::fresh();
    for cell in [0, 513] {
        call.stream.held = [0; 514];
        call.stream.held[cell] = 1;
        let before = call.clone();
        assert_eq!(run_feed(&mut call), Some(BadState));
        assert_eq!(call, before);
    }
}

#[derive(Clone, Debug, PartialEq)]
struct PlainCall {
    input: Vec<u8>,
    output: Vec<u8>,
}

fn run_plain_read(call: &mut PlainCall) -> Option<Refusal> {
    plain_read(&call.input, &mut call.output).err()
}

#[test]
fn plain_read_refuses_in_order() {
    // A frame and 3 bytes: the frame has room in each of the outputs but the empty one.
    let good = PlainCall {
        input: vec![0x7F; 515],
        output: vec![0xEE; 515],
    };
    let faults: [Fault<PlainCall>; 5] = [
        (Length, |c| {
            c.input.resize(65_537, 0x7F);
            c.output.resize(65_537, 0xEE);
        }),
        (Length, |c| c.input.resize(131_072, 0x7F)),
        (ShortBuffer, |c| c.output.truncate(514)),
        (ShortBuffer, |c| c.output.truncate(512)),
        (ShortBuffer, |c| c.output.clear()),
    ];
    check_every_set(&good, run_plain_read, &faults);
}

#[derive(Clone, Debug, PartialEq)]
struct WhyCall {
    input: Vec<u8>,
    place: usize,
}

fn run_explain(call: &mut WhyCall) -> Option<Refusal> {
    explain(&call.input, call.place).err()
}

#[test]
fn explain_refuses_in_order() {
    let good = WhyCall {
        input: vec![0x7F; 515],
        place: 514,
    };
    let faults: [Fault<WhyCall>; 6] = [
        (Length, |c| c.input.resize(65_537, 0x7F)),
        (Length, |c| c.input.resize(131_072, 0x7F)),
        (Range, |c| c.place = c.input.len()),
        (Range, |c| c.place = c.input.len() + 1),
        (Range, |c| c.place |= 1 << 63),
        (Range, |c| c.place = usize::MAX),
    ];
    check_every_set(&good, run_explain, &faults);
}
