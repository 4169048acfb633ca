//! Rows a to l of document 01, and the layouts.

mod common;

use common::frame;
use hpsdr::{layout, Cause, Host, Refusal, Relay, Row, Status, Stream, Word, AUDIO, OUTPUT_LEAST};

/// What a frame of one receiver gives: its word, first I, first microphone value and record.
fn read_one(frame: &[u8]) -> (Word, i32, i16, Status) {
    let (mut status, mut iq, mut mic) = (Status::fresh(), [0; 126], [0; 63]);
    let word = status.read(frame, 1, &mut iq, &mut mic).unwrap();
    (word, iq[0], mic[0], status)
}

fn first_slot(slot: [u8; 8]) -> [u8; 512] {
    let mut frame = frame([0; 5]);
    frame[8..16].copy_from_slice(&slot);
    frame
}

#[test]
fn a_greatest_sample() {
    assert_eq!(
        read_one(&first_slot([0x7F, 0xFF, 0xFF, 0, 0, 0, 0, 0])).1,
        8_388_607
    );
}

#[test]
fn b_least_sample() {
    assert_eq!(
        read_one(&first_slot([0x80, 0, 0, 0, 0, 0, 0, 0])).1,
        -8_388_608
    );
}

#[test]
fn c_minus_one() {
    assert_eq!(
        read_one(&first_slot([0xFF, 0xFF, 0xFF, 0, 0, 0, 0, 0])).1,
        -1
    );
}

#[test]
fn d_least_microphone_value() {
    assert_eq!(
        read_one(&first_slot([0, 0, 0, 0, 0, 0, 0x80, 0])).2,
        -32_768
    );
}

#[test]
fn e_word_1_with_dot() {
    let (word, _, _, status) = read_one(&frame([0x0C, 0, 0, 0, 0]));
    assert_eq!(word, Word::ForwardPower);
    assert_eq!((status.dot, status.dash, status.ptt), (true, false, false));
}

#[test]
fn f_forward_power() {
    let (_, _, _, status) = read_one(&frame([0x08, 0x01, 0xF4, 0, 0]));
    let expected = Status {
        ain5: 500,
        ..Status::fresh()
    };
    assert_eq!(status, expected);
}

#[test]
fn g_frequency_of_receiver_1() {
    let mut host = Host {
        mox: true,
        ..Host::fresh()
    };
    let control = [0x04, 0x00, 0x6C, 0x56, 0x60];
    assert_eq!(host.read(&frame(control), &mut [0; AUDIO]), Ok(2));
    let expected = Host {
        frequencies: [7_100_000, 0, 0, 0, 0, 0, 0],
        ..Host::fresh()
    };
    assert_eq!(host, expected);
}

#[test]
fn h_three_receivers() {
    let mut host = Host::fresh();
    let control = [0, 0, 0, 0, 0x14];
    assert_eq!(host.read(&frame(control), &mut [0; AUDIO]), Ok(0));
    let expected = Host {
        receivers: 3,
        duplex: true,
        relay: Relay::Tx1,
        ..Host::fresh()
    };
    assert_eq!(host, expected);
}

#[test]
fn i_fourth_relay() {
    let (mut host, mut audio) = (Host::fresh(), [5; AUDIO]);
    let got = host.read(&frame([0, 0, 0, 0, 0x17]), &mut audio);
    let cause = Cause::Relay;
    assert_eq!(got, Err(Refusal::Reserved { cause }));
    assert_eq!((host, audio), (Host::fresh(), [5; AUDIO]));
}

/// Frames, skipped and held after one piece with sync at the places.
fn read_piece(length: usize, syncs: &[usize]) -> (usize, u64, u64) {
    let mut piece = vec![0; length];
    for &place in syncs {
        piece[place..place + 3].fill(0x7F);
    }
    let mut stream = Stream::fresh();
    let frames = stream.feed(&piece, &mut [0; OUTPUT_LEAST]).unwrap();
    assert_eq!(stream.counts.frames, frames as u64);
    assert_eq!(stream.counts.total, length as u64);
    (frames, stream.counts.skipped, stream.counts.held)
}

#[test]
fn j_too_few_to_settle() {
    assert_eq!(read_piece(514, &[0]), (0, 0, 514));
}

#[test]
fn k_one_frame() {
    assert_eq!(read_piece(515, &[0, 512]), (1, 0, 3));
}

#[test]
fn l_one_sync_only() {
    assert_eq!(read_piece(515, &[0]), (0, 1, 514));
}

#[test]
fn layouts() {
    let table = [
        (8, 63, 0),
        (14, 36, 0),
        (20, 25, 4),
        (26, 19, 10),
        (32, 15, 24),
        (38, 13, 10),
        (44, 11, 20),
        (50, 10, 4),
    ];
    for (receivers, (slot, slots, padding)) in (1..).zip(table) {
        let row = Row {
            slot,
            slots,
            padding,
        };
        assert_eq!(layout(receivers), Ok(row));
    }
}
