//! Rows a to l of the scope, and what it has run by a program.

mod common;

use common::*;
use reference::*;

fn first_samples(payload: [u8; 8]) -> (i32, i32, i16) {
    let mut frame = frame([0; 5]);
    frame[8..16].copy_from_slice(&payload);
    let (mut iq, mut mic) = ([9; 126], [9; 63]);
    radio_read(&frame, 1, &mut iq, &mut mic, &mut Status::fresh()).unwrap();
    (iq[0], iq[1], mic[0])
}

#[test]
fn row_a_greatest_sample() {
    let samples = first_samples([0x7F, 0xFF, 0xFF, 0, 0, 0, 0, 0]);
    assert_eq!(samples, (8_388_607, 0, 0));
}

#[test]
fn row_b_least_sample() {
    let samples = first_samples([0x80, 0, 0, 0, 0, 0, 0, 0]);
    assert_eq!(samples, (-8_388_608, 0, 0));
}

#[test]
fn row_c_minus_one() {
    let samples = first_samples([0, 0, 0, 0xFF, 0xFF, 0xFF, 0, 0]);
    assert_eq!(samples, (0, -1, 0));
}

#[test]
fn row_d_least_microphone() {
    let samples = first_samples([0, 0, 0, 0, 0, 0, 0x80, 0]);
    assert_eq!(samples, (0, 0, -32_768));
}

#[test]
fn row_e_word_one_with_dot() {
    let (status, address) = radio_word([0x0C, 0, 0, 0, 0]);
    assert_eq!(address, 1);
    assert_eq!((status.dot, status.dash, status.ptt), (true, false, false));
}

#[test]
fn row_f_forward_power() {
    let (status, _) = radio_word([0x08, 0x01, 0xF4, 0, 0]);
    assert_eq!(status.ain5, 500);
    assert_eq!(status.ain1, 0);
}

#[test]
fn row_g_receiver_one_frequency() {
    let (host, address) = host_word([0x04, 0x00, 0x6C, 0x56, 0x60]);
    assert_eq!(address, 2);
    let mut expected = Host::fresh();
    expected.frequencies[0] = 7_100_000;
    assert_eq!(host, expected);
}

#[test]
fn row_h_three_receivers_duplex() {
    let (host, _) = host_word([0, 0, 0, 0, 0x14]);
    assert_eq!((host.receivers, host.duplex, host.relay), (3, true, 0));
}

#[test]
fn row_i_unassigned_relay() {
    let (mut host, mut audio) = (Host::fresh(), [5; 252]);
    let answer = host_read(&frame([0, 0, 0, 0, 0x17]), &mut audio, &mut host);
    let cause = Cause::Relay;
    assert_eq!(answer, Err(Refusal::Reserved { cause }));
    assert_eq!((host, audio), (Host::fresh(), [5; 252]));
}

fn fed_once(bytes: &[u8]) -> (usize, Stream) {
    let mut stream = Stream::fresh();
    let frames = stream.feed(bytes, &mut [0; MOST]).unwrap();
    (frames, stream)
}

#[test]
fn row_j_514_bytes_are_held() {
    let mut bytes = [1; 514];
    bytes[..3].copy_from_slice(&SYNC);
    let (frames, stream) = fed_once(&bytes);
    assert_eq!(frames, 0);
    let expected = Stream {
        held: bytes,
        count: 514,
        frames: 0,
        skipped: 0,
        total: 514,
    };
    assert_eq!(stream, expected);
    assert_eq!(read_at_once(&bytes), (vec![], 0, bytes.to_vec()));
}

#[test]
fn row_k_515_bytes_give_a_frame() {
    let mut bytes = [1; 515];
    bytes[..3].copy_from_slice(&SYNC);
    bytes[512..].copy_from_slice(&SYNC);
    let (frames, stream) = fed_once(&bytes);
    assert_eq!(frames, 1);
    assert_eq!((stream.frames, stream.skipped, stream.total), (1, 0, 515));
    assert_eq!((stream.count, &stream.held[..3]), (3, &SYNC[..]));
    assert!(stream.sound());
    let plain = (bytes[..512].to_vec(), 0, SYNC.to_vec());
    assert_eq!(read_at_once(&bytes), plain);
}

#[test]
fn row_l_515_bytes_with_one_sync_skip_one() {
    let mut bytes = [1; 515];
    bytes[..3].copy_from_slice(&SYNC);
    let (frames, stream) = fed_once(&bytes);
    assert_eq!(frames, 0);
    assert_eq!((stream.frames, stream.skipped, stream.total), (0, 1, 515));
    assert_eq!((stream.count, &stream.held[..]), (514, &bytes[1..]));
    assert_eq!(read_at_once(&bytes), (vec![], 1, bytes[1..].to_vec()));
}

#[test]
fn run_counts_zero_and_nine_are_refused() {
    let (mut iq, mut mic, mut frame) = ([0; 200], [0; 100], frame([0; 5]));
    let mut status = Status::fresh();
    for receivers in [0, 9, usize::MAX] {
        assert_eq!(row(receivers), Err(Refusal::BadCount));
        let read = radio_read(&frame, receivers, &mut iq, &mut mic, &mut status);
        assert_eq!(read, Err(Refusal::BadCount));
        let written = radio_write(&status, 0, receivers, &iq, &mic, &mut frame);
        assert_eq!(written, Err(Refusal::BadCount));
    }
}

#[test]
fn run_511_and_513_bytes_are_refused() {
    let (mut iq, mut mic, mut audio) = ([0; 126], [0; 63], [0; 252]);
    let (mut status, mut host) = (Status::fresh(), Host::fresh());
    let mut builder = Builder { host, turn: 0 };
    for length in [0, 511, 513] {
        let mut bytes = frame([0; 5]).to_vec();
        bytes.resize(length, 0);
        let read = radio_read(&bytes, 1, &mut iq, &mut mic, &mut status);
        assert_eq!(read, Err(Refusal::Length));
        let heard = host_read(&bytes, &mut audio, &mut host);
        assert_eq!(heard, Err(Refusal::Length));
        let written = radio_write(&status, 0, 1, &iq, &mic, &mut bytes);
        assert_eq!(written, Err(Refusal::Length));
        let built = build(&mut builder, &audio, &mut bytes);
        assert_eq!(built, Err(Refusal::Length));
    }
}

#[test]
fn run_pieces_of_0_and_4096_are_accepted() {
    let mut stream = Stream::fresh();
    assert_eq!(stream.feed(&[], &mut [0; MOST]), Ok(0));
    assert_eq!(stream, Stream::fresh());
    assert_eq!(stream.feed(&[0; 4096], &mut [0; MOST]), Ok(0));
    assert_eq!((stream.count, stream.skipped), (514, 3582));
    assert_eq!(stream.total, 4096);
}

#[test]
fn run_a_piece_of_4097_is_refused() {
    let mut stream = Stream::fresh();
    let refused = stream.feed(&[0; 4097], &mut [0; MOST]);
    assert_eq!(refused, Err(Refusal::Length));
    assert_eq!(stream, Stream::fresh());
}

#[test]
fn run_all_eight_layouts() {
    for (n, slot, slots, padding) in TABLE {
        let expected = Row {
            slot,
            slots,
            padding,
        };
        assert_eq!(row(n), Ok(expected));
    }
}
