//! Reading what was written, and writing what was read.

mod common;

use common::*;
use reference::*;

fn noisy_level(noise: &mut Noise) -> u16 {
    match noise.below(8) {
        0 => 4_095,
        _ => noise.below(4_096) as u16,
    }
}

fn noisy_status(noise: &mut Noise) -> Status {
    let levels = std::array::from_fn(|_| noisy_level(noise));
    Status {
        dot: noise.flag(),
        dash: noise.flag(),
        ptt: noise.flag(),
        overflow: std::array::from_fn(|_| noise.flag()),
        io: std::array::from_fn(|_| noise.flag()),
        pll: noise.flag(),
        toggle: noise.flag(),
        mercury: noise.byte(),
        penelope: noise.byte(),
        main: noise.byte(),
        versions: std::array::from_fn(|_| noise.byte() >> 1),
        ..status_of(levels)
    }
}

fn noisy_sample(noise: &mut Noise) -> i32 {
    match noise.below(8) {
        0 => 8_388_607,
        1 => -8_388_608,
        2 => -1,
        _ => noise.below(1 << 24) as i32 - 8_388_608,
    }
}

#[test]
fn radio_frames_written_and_read() {
    let mut noise = Noise(1);
    for (receivers, _, slots, _) in TABLE {
        let needed = 2 * receivers * slots;
        let status = noisy_status(&mut noise);
        let iq: Vec<i32> = (0..needed + 3).map(|_| noisy_sample(&mut noise)).collect();
        let mic: Vec<i16> = (0..slots + 3).map(|_| noise.word() as i16).collect();
        let mut read = Status::fresh();
        for word in 0..=4 {
            let mut frame = [0xEE; 512];
            radio_write(&status, word, receivers, &iq, &mic, &mut frame).unwrap();
            let (mut iq_read, mut mic_read) = (vec![i32::MIN; needed + 3], vec![99; slots + 3]);
            let answer = radio_read(&frame, receivers, &mut iq_read, &mut mic_read, &mut read);
            assert_eq!(answer, Ok(word as u8));
            assert_eq!(iq_read[..needed], iq[..needed]);
            assert_eq!(iq_read[needed..], [i32::MIN; 3]);
            assert_eq!(mic_read[..slots], mic[..slots]);
            assert_eq!(mic_read[slots..], [99; 3]);
        }
        assert_eq!(read, status);
    }
}

#[test]
fn radio_frames_read_and_written() {
    let mut noise = Noise(2);
    for (receivers, _, _, padding) in TABLE {
        for word in 0..=4 {
            let mut frame = noise.bytes(512);
            frame[..3].copy_from_slice(&SYNC);
            frame[3] = word << 3 | frame[3] & 7;
            match word {
                0 => frame[4] &= 0x7F,
                1..=3 => (frame[4], frame[6]) = (frame[4] & 0x0F, frame[6] & 0x0F),
                _ => {}
            }
            frame[512 - padding..].fill(0);
            let (mut iq, mut mic) = ([0; 200], [0; 100]);
            let mut status = noisy_status(&mut noise);
            radio_read(&frame, receivers, &mut iq, &mut mic, &mut status).unwrap();
            let mut written = [0xEE; 512];
            let word = usize::from(word);
            radio_write(&status, word, receivers, &iq, &mic, &mut written).unwrap();
            assert_eq!(written[..], frame[..]);
        }
    }
}

#[test]
fn radio_slots_stand_in_receiver_order() {
    for (receivers, slot, slots, padding) in TABLE {
        let iq: Vec<i32> = (1..=2 * receivers * slots).map(|i| i as i32).collect();
        let mic: Vec<i16> = (1..=slots).map(|i| 1000 + i as i16).collect();
        let mut frame = [0xEE; 512];
        radio_write(&Status::fresh(), 0, receivers, &iq, &mic, &mut frame).unwrap();
        for (s, bytes) in frame[8..512 - padding].chunks(slot).enumerate() {
            for (k, triple) in bytes[..6 * receivers].chunks(3).enumerate() {
                let value = 2 * receivers * s + k + 1;
                assert_eq!(triple, [0, (value >> 8) as u8, value as u8]);
            }
            let value = 1001 + s;
            assert_eq!(bytes[slot - 2..], [(value >> 8) as u8, value as u8]);
        }
        assert!(frame[512 - padding..].iter().all(|&byte| byte == 0));
    }
}

/// Sends `host` in eleven builds from the turn `first` to a reader that holds
/// `before`; gives what the reader holds then.
fn sent_in_eleven_builds(host: Host, first: u8, before: Host, noise: &mut Noise) -> Host {
    let mut builder = Builder { host, turn: first };
    let mut read = before;
    for step in 0..11 {
        let audio: Vec<i16> = (0..255).map(|_| noise.word() as i16).collect();
        let (mut frame, mut heard) = ([0xEE; 512], [99; 255]);
        build(&mut builder, &audio, &mut frame).unwrap();
        let word = (first + step) % 11;
        assert_eq!(host_read(&frame, &mut heard, &mut read), Ok(word));
        assert_eq!((builder.host, builder.turn), (host, (word + 1) % 11));
        assert_eq!(heard[..252], audio[..252]);
        assert_eq!(heard[252..], [99; 3]);
    }
    assert_eq!(builder.turn, first);
    read
}

#[test]
fn a_host_record_is_wholly_sent_in_eleven_builds_from_any_turn() {
    let mut noise = Noise(3);
    let (fresh, busy, full) = (Host::fresh(), busy_host(), full_host());
    for (host, before) in [(busy, fresh), (busy, full), (full, fresh), (fresh, full)] {
        for first in 0..=10 {
            let read = sent_in_eleven_builds(host, first, before, &mut noise);
            assert_eq!(read, host, "from turn {first}");
        }
    }
}

#[test]
fn the_busy_record_word_by_word() {
    let host = busy_host();
    let mut builder = Builder { host, turn: 0 };
    let mut sent = [[0; 5]; 11];
    for control in &mut sent {
        let mut frame = [0; 512];
        build(&mut builder, &[0; 252], &mut frame).unwrap();
        control.copy_from_slice(&frame[3..8]);
    }
    assert_eq!(sent[0], [0x01, 0xF6, 0xAB, 0xBF, 0xF6]);
    assert_eq!(sent[1], [0x03, 0x00, 0xD8, 0xAC, 0xC0]);
    assert_eq!(sent[2], [0x05, 0x00, 0x00, 0x00, 0x01]);
    assert_eq!(sent[3], [0x07, 0x00, 0x00, 0x00, 0x16]);
    assert_eq!(sent[7], [0x0F, 0xFF, 0xFF, 0xFF, 0xFF]);
    assert_eq!(sent[9], [0x13, 0xC8, 0x4D, 0x96, 0x4B]);
    assert_eq!(sent[10], [0x15, 0x7D, 0xB3, 0x5A, 0xC3]);
}

#[test]
fn host_frames_read_and_written() {
    let mut noise = Noise(4);
    for turn in 0..=10 {
        let mut frame = noise.bytes(512);
        frame[..3].copy_from_slice(&SYNC);
        frame[3] = turn << 1 | frame[3] & 1;
        match turn {
            0 => (frame[4], frame[7]) = (frame[4] & 0xF7, frame[7] & 0xFD),
            9 => frame[7] &= 0x7F,
            10 => frame[4] &= 0x7F,
            _ => {}
        }
        let (mut audio, mut host) = ([0; 252], busy_host());
        assert_eq!(host_read(&frame, &mut audio, &mut host), Ok(turn));
        let mut written = [0xEE; 512];
        build(&mut Builder { host, turn }, &audio, &mut written).unwrap();
        assert_eq!(written[..], frame[..]);
    }
}

#[test]
fn host_slots_are_left_right_q_i() {
    let audio: Vec<i16> = (0..252).map(|i| i - 100).collect();
    let host = Host::fresh();
    let mut frame = [0; 512];
    build(&mut Builder { host, turn: 0 }, &audio, &mut frame).unwrap();
    assert_eq!(
        frame[8..16],
        [0xFF, 0x9C, 0xFF, 0x9D, 0xFF, 0x9F, 0xFF, 0x9E]
    );
    assert_eq!(frame[508..], [0x00, 0x97, 0x00, 0x96]);
}

/// L, R, I and Q as a caller has them, and the slot's bytes.
const SLOTS: [([i16; 4], [u8; 8]); 3] = [
    (
        [258, 772, 1286, 1800],
        [0x01, 0x02, 0x03, 0x04, 0x07, 0x08, 0x05, 0x06],
    ),
    (
        [-2, -259, 32_767, -32_768],
        [0xFF, 0xFE, 0xFE, 0xFD, 0x80, 0x00, 0x7F, 0xFF],
    ),
    ([0, 0, 1, 0], [0, 0, 0, 0, 0, 0, 0, 1]),
];

#[test]
fn i_and_q_of_one_slot_are_swapped_both_ways() {
    for slot in [0, 31, 62] {
        for (numbers, bytes) in SLOTS {
            let (mut audio, mut drawn) = ([0; 252], frame([0; 5]));
            audio[4 * slot..][..4].copy_from_slice(&numbers);
            drawn[8 + 8 * slot..][..8].copy_from_slice(&bytes);
            let (mut host, mut written, mut heard) = (Host::fresh(), [0xEE; 512], [99; 252]);
            build(&mut Builder { host, turn: 0 }, &audio, &mut written).unwrap();
            assert_eq!(written, drawn);
            host_read(&drawn, &mut heard, &mut host).unwrap();
            assert_eq!(heard, audio);
        }
    }
}
