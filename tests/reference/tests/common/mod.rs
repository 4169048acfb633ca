//! What several test files share.
#![allow(dead_code)]

use reference::{
    host_read, plain_read, radio_read, Host, PlainReading, Refusal, Status, Stream, MOST,
};
use std::fmt::Debug;

pub const SYNC: [u8; 3] = [0x7F, 0x7F, 0x7F];

/// The scope's table: n, slot, slots, padding.
pub const TABLE: [(usize, usize, usize, usize); 8] = [
    (1, 8, 63, 0),
    (2, 14, 36, 0),
    (3, 20, 25, 4),
    (4, 26, 19, 10),
    (5, 32, 15, 24),
    (6, 38, 13, 10),
    (7, 44, 11, 20),
    (8, 50, 10, 4),
];

/// A frame with the given C0 to C4 and an all-zero payload.
pub fn frame(control: [u8; 5]) -> [u8; 512] {
    let mut frame = [0; 512];
    frame[..3].copy_from_slice(&SYNC);
    frame[3..8].copy_from_slice(&control);
    frame
}

/// A frame without 7F outside its sync, filled with `filler`.
pub fn filled(filler: u8) -> Vec<u8> {
    let mut bytes = vec![filler; 512];
    bytes[..3].copy_from_slice(&SYNC);
    bytes
}

/// Reads a one-receiver frame into `status`; gives the answer.
pub fn read_radio_into(status: &mut Status, frame: &[u8]) -> Result<u8, Refusal> {
    radio_read(frame, 1, &mut [0; 126], &mut [0; 63], status)
}

/// The status that C0 to C4 make of a fresh one, and the address.
pub fn radio_word(control: [u8; 5]) -> (Status, u8) {
    let mut status = Status::fresh();
    let address = read_radio_into(&mut status, &frame(control)).unwrap();
    (status, address)
}

/// The six levels, in the order of the words that carry them.
pub fn levels(s: &Status) -> [u16; 6] {
    [s.ain5, s.ain1, s.ain2, s.ain3, s.ain4, s.ain6]
}

/// A fresh status with these levels.
pub fn status_of(levels: [u16; 6]) -> Status {
    let [ain5, ain1, ain2, ain3, ain4, ain6] = levels;
    Status {
        ain5,
        ain1,
        ain2,
        ain3,
        ain4,
        ain6,
        ..Status::fresh()
    }
}

/// Reads a host frame into `host`; gives the answer.
pub fn read_host_into(host: &mut Host, frame: &[u8]) -> Result<u8, Refusal> {
    host_read(frame, &mut [0; 252], host)
}

/// The host record that C0 to C4 make of a fresh one, and the address.
pub fn host_word(control: [u8; 5]) -> (Host, u8) {
    let mut host = Host::fresh();
    let address = read_host_into(&mut host, &frame(control)).unwrap();
    (host, address)
}

/// A record in which every field differs from a fresh one's.
pub fn busy_host() -> Host {
    Host {
        mox: true,
        speed: 2,
        source10: 1,
        source122: 1,
        boards: 3,
        microphone: 1,
        class_e: true,
        outputs: 85,
        attenuator: 3,
        preamp: true,
        dither: true,
        random: true,
        antenna: 1,
        rx_out: true,
        relay: 2,
        duplex: true,
        receivers: 7,
        timestamp: true,
        common: true,
        transmitter: 14_200_000,
        frequencies: [1, 22, 333, 4_444, 55_555, u32::MAX, 7_777_777],
        drive: 200,
        controls: [true, false, true, true, false, false, true, false],
        high_pass: [false, true, true, false, true, false, false, true],
        low_pass: [true, true, false, true, false, false, true],
        rx_preamps: [true, false, true, true],
        orion_jack: 1,
        mic_bias: true,
        mic_ptt_disabled: true,
        line_in_gain: 19,
        word10_c2_top: 5,
        word10_c3: 0x5A,
        word10_c4: 0xC3,
    }
}

/// The record with the greatest accepted value in every field.
pub fn full_host() -> Host {
    Host {
        speed: 3,
        source10: 2,
        outputs: 127,
        antenna: 3,
        receivers: 8,
        transmitter: u32::MAX,
        frequencies: [u32::MAX; 7],
        drive: 255,
        controls: [true; 8],
        high_pass: [true; 8],
        low_pass: [true; 7],
        rx_preamps: [true; 4],
        line_in_gain: 31,
        word10_c2_top: 7,
        word10_c3: 255,
        word10_c4: 255,
        ..busy_host()
    }
}

/// A fixed sequence of numbers without a visible pattern.
pub struct Noise(pub u64);

impl Noise {
    pub fn word(&mut self) -> u64 {
        self.0 ^= self.0 << 13;
        self.0 ^= self.0 >> 7;
        self.0 ^= self.0 << 17;
        self.0
    }

    pub fn below(&mut self, end: usize) -> usize {
        ((self.word() >> 16) % end as u64) as usize
    }

    pub fn byte(&mut self) -> u8 {
        (self.word() >> 24) as u8
    }

    pub fn flag(&mut self) -> bool {
        self.below(2) == 1
    }

    pub fn bytes(&mut self, length: usize) -> Vec<u8> {
        (0..length).map(|_| self.byte()).collect()
    }
}

/// Feeds `bytes` in pieces of `size`; gives the frames handed out.
pub fn feed_in_pieces(stream: &mut Stream, bytes: &[u8], size: usize) -> Vec<u8> {
    let mut frames = Vec::new();
    for piece in bytes.chunks(size) {
        let mut output = [0xEE; MOST];
        let count = stream.feed(piece, &mut output).unwrap();
        frames.extend_from_slice(&output[..512 * count]);
        assert!(output[512 * count..].iter().all(|&cell| cell == 0xEE));
        assert!(stream.sound());
    }
    frames
}

/// What the plain reader gives: the frames, the skipped count, the bytes left.
pub fn read_at_once(bytes: &[u8]) -> (Vec<u8>, u64, Vec<u8>) {
    let mut output = vec![0xEE; bytes.len() + 7];
    let reading = plain_read(bytes, &mut output).unwrap();
    let PlainReading {
        frames,
        skipped,
        left,
    } = reading;
    assert!(output[512 * frames..].iter().all(|&cell| cell == 0xEE));
    output.truncate(512 * frames);
    (output, skipped as u64, bytes[bytes.len() - left..].to_vec())
}

/// A refusal and a change to a good call that brings it about.
pub type Fault<C> = (Refusal, fn(&mut C));

/// Tries every set of the faults on a good call, applied in the order listed:
/// the least refusal is the answer and the call is left as it was.
pub fn check_every_set<C>(good: &C, run: fn(&mut C) -> Option<Refusal>, faults: &[Fault<C>])
where
    C: Clone + PartialEq + Debug,
{
    assert_eq!(run(&mut good.clone()), None);
    for set in 1..1_usize << faults.len() {
        let chosen = || (0..faults.len()).filter(|i| set >> i & 1 == 1);
        let mut call = good.clone();
        chosen().for_each(|i| (faults[i].1)(&mut call));
        let before = call.clone();
        let least = chosen().map(|i| faults[i].0).min();
        assert_eq!(run(&mut call), least, "faults {set:b}");
        assert!(call == before, "faults {set:b} changed something");
    }
}
