//! Host frames (EP2), the host record and the host's turn of words, with the
//! word 10 that request T-07 adds and the I and Q that T-03 swaps.

use crate::bits::{bit, byte, code, flags};
use crate::frame::{begin, open, whole, whole_mut, Control};
use crate::refusal::{Cause, Refusal};

/// 63 slots of L, R, I and Q.
const AUDIO: usize = 252;
/// Bytes of a slot.
const SLOT_SIZE: usize = 8;
/// Where in a slot the caller's L, R, I and Q begin: its I in the bytes drawn
/// as Q, and its Q in those drawn as I (T-03).
const SLOT_PLACES: [usize; 4] = [0, 2, 6, 4];
const LAST_TURN: u8 = 10;
/// The code that neither the 10 MHz source nor the transmit relay assigns.
const UNASSIGNED: u8 = 3;
const OUTPUTS_MOST: u8 = 127;
const LINE_IN_GAIN_MOST: u8 = 31;
const WORD10_C2_TOP_MOST: u8 = 7;

/// What the host tells the radio. Named choices are held as their codes.
#[derive(Clone, Copy, Debug, PartialEq, Eq)]
pub struct Host {
    /// MOX, in every frame.
    pub mox: bool,
    /// Speed 48, 96, 192, 384 kHz: 0 to 3.
    pub speed: u8,
    /// 10 MHz source Atlas or Excalibur, Penelope, Mercury: 0 to 2.
    pub source10: u8,
    /// 122.88 MHz source: 0 or 1.
    pub source122: u8,
    /// Boards: 0 to 3.
    pub boards: u8,
    /// Microphone source: 0 or 1.
    pub microphone: u8,
    /// Class E.
    pub class_e: bool,
    /// Open collector outputs: 0 to 127.
    pub outputs: u8,
    /// Alex attenuator 0, 10, 20, 30 dB: 0 to 3.
    pub attenuator: u8,
    /// Preamp of word 0, apart from the receivers' in word 10.
    pub preamp: bool,
    /// Dither.
    pub dither: bool,
    /// Random.
    pub random: bool,
    /// Receive antenna: 0 to 3.
    pub antenna: u8,
    /// Receive out.
    pub rx_out: bool,
    /// Transmit relay Tx1 to Tx3: 0 to 2.
    pub relay: u8,
    /// Duplex.
    pub duplex: bool,
    /// Receivers: 1 to 8.
    pub receivers: u8,
    /// Time stamp.
    pub timestamp: bool,
    /// Common frequency.
    pub common: bool,
    /// The transmitter's frequency in Hz.
    pub transmitter: u32,
    /// The frequencies of receivers 1 to 7 in Hz.
    pub frequencies: [u32; 7],
    /// Drive.
    pub drive: u8,
    /// Mic boost, line-in, Apollo filter, Apollo tuner, auto tune, filter
    /// board, manual filters, VNA.
    pub controls: [bool; 8],
    /// High-pass 13, 20, 9.5, 6.5, 1.5 MHz, bypass, 6 m amplifier, T/R relay
    /// disabled.
    pub high_pass: [bool; 8],
    /// Low-pass 30/20, 60/40, 80, 160, 6, 12/10, 17/15 m.
    pub low_pass: [bool; 7],
    /// Preamps of receivers 1 to 4.
    pub rx_preamps: [bool; 4],
    /// Orion tip and ring: 0 for micPTT to ring and microphone to tip, 1 for
    /// the reverse.
    pub orion_jack: u8,
    /// Mic bias.
    pub mic_bias: bool,
    /// Microphone PTT disabled.
    pub mic_ptt_disabled: bool,
    /// Line-in gain: 0 to 31.
    pub line_in_gain: u8,
    /// Word 10's C2 bits 7-5 as a number: 0 to 7.
    pub word10_c2_top: u8,
    /// Word 10's C3 as a number.
    pub word10_c3: u8,
    /// Word 10's C4 as a number.
    pub word10_c4: u8,
}

/// A host record and the word due next.
#[derive(Clone, Copy, Debug, PartialEq, Eq)]
pub struct Builder {
    /// The record that is sent.
    pub host: Host,
    /// The word due next: 0 to 10.
    pub turn: u8,
}

impl Host {
    /// What all-zero words give; so there is one receiver.
    pub fn fresh() -> Host {
        Host {
            mox: false,
            speed: 0,
            source10: 0,
            source122: 0,
            boards: 0,
            microphone: 0,
            class_e: false,
            outputs: 0,
            attenuator: 0,
            preamp: false,
            dither: false,
            random: false,
            antenna: 0,
            rx_out: false,
            relay: 0,
            duplex: false,
            receivers: 1,
            timestamp: false,
            common: false,
            transmitter: 0,
            frequencies: [0; 7],
            drive: 0,
            controls: [false; 8],
            high_pass: [false; 8],
            low_pass: [false; 7],
            rx_preamps: [false; 4],
            orion_jack: 0,
            mic_bias: false,
            mic_ptt_disabled: false,
            line_in_gain: 0,
            word10_c2_top: 0,
            word10_c3: 0,
            word10_c4: 0,
        }
    }

    /// Takes in one word; gives its address.
    fn take(&mut self, control: Control) -> u8 {
        let [c0, c1, c2, c3, c4] = control;
        let address = c0 >> 1;
        self.mox = bit(c0, 0);
        let frequency = u32::from_be_bytes([c1, c2, c3, c4]);
        match address {
            0 => self.take_settings([c1, c2, c3, c4]),
            1 => self.transmitter = frequency,
            2..=8 => self.frequencies[usize::from(address - 2)] = frequency,
            9 => self.take_filters([c1, c2, c3, c4]),
            10 => self.take_inputs([c1, c2, c3, c4]),
            _ => {}
        }
        address
    }

    fn take_settings(&mut self, [c1, c2, c3, c4]: [u8; 4]) {
        self.speed = code(c1, 0);
        self.source10 = code(c1, 2);
        self.source122 = c1 >> 4 & 1;
        self.boards = code(c1, 5);
        self.microphone = c1 >> 7;
        self.class_e = bit(c2, 0);
        self.outputs = c2 >> 1;
        self.attenuator = code(c3, 0);
        self.preamp = bit(c3, 2);
        self.dither = bit(c3, 3);
        self.random = bit(c3, 4);
        self.antenna = code(c3, 5);
        self.rx_out = bit(c3, 7);
        self.relay = code(c4, 0);
        self.duplex = bit(c4, 2);
        self.receivers = (c4 >> 3 & 0b111) + 1;
        self.timestamp = bit(c4, 6);
        self.common = bit(c4, 7);
    }

    fn take_filters(&mut self, [c1, c2, c3, c4]: [u8; 4]) {
        self.drive = c1;
        self.controls = flags(c2);
        self.high_pass = flags(c3);
        self.low_pass = flags(c4);
    }

    fn take_inputs(&mut self, [c1, c2, c3, c4]: [u8; 4]) {
        self.rx_preamps = flags(c1);
        self.orion_jack = c1 >> 4 & 1;
        self.mic_bias = bit(c1, 5);
        self.mic_ptt_disabled = bit(c1, 6);
        self.line_in_gain = c2 & 0b1_1111;
        self.word10_c2_top = c2 >> 5;
        self.word10_c3 = c3;
        self.word10_c4 = c4;
    }

    /// C0 to C4 of the word due at `turn`, which is at most 10.
    fn control(&self, turn: u8) -> Control {
        let [c1, c2, c3, c4] = match turn {
            0 => self.settings(),
            1 => self.transmitter.to_be_bytes(),
            2..=8 => self.frequencies[usize::from(turn - 2)].to_be_bytes(),
            9 => self.filters(),
            _ => self.inputs(),
        };
        [turn << 1 | u8::from(self.mox), c1, c2, c3, c4]
    }

    fn settings(&self) -> [u8; 4] {
        let c1 = self.speed
            | self.source10 << 2
            | self.source122 << 4
            | self.boards << 5
            | self.microphone << 7;
        let c2 = u8::from(self.class_e) | self.outputs << 1;
        let c3 = self.attenuator
            | byte([self.preamp, self.dither, self.random]) << 2
            | self.antenna << 5
            | u8::from(self.rx_out) << 7;
        let c4 = self.relay
            | u8::from(self.duplex) << 2
            | (self.receivers - 1) << 3
            | byte([self.timestamp, self.common]) << 6;
        [c1, c2, c3, c4]
    }

    fn filters(&self) -> [u8; 4] {
        let (controls, high_pass) = (byte(self.controls), byte(self.high_pass));
        [self.drive, controls, high_pass, byte(self.low_pass)]
    }

    fn inputs(&self) -> [u8; 4] {
        let c1 = byte(self.rx_preamps)
            | self.orion_jack << 4
            | byte([self.mic_bias, self.mic_ptt_disabled]) << 5;
        let c2 = self.line_in_gain | self.word10_c2_top << 5;
        [c1, c2, self.word10_c3, self.word10_c4]
    }

    fn fits(&self) -> bool {
        let one_bit_codes = [self.source122, self.microphone, self.orion_jack];
        let two_bit_codes = [
            self.speed,
            self.source10,
            self.boards,
            self.attenuator,
            self.antenna,
            self.relay,
        ];
        self.outputs <= OUTPUTS_MOST
            && (1..=8).contains(&self.receivers)
            && self.line_in_gain <= LINE_IN_GAIN_MOST
            && self.word10_c2_top <= WORD10_C2_TOP_MOST
            && one_bit_codes.iter().all(|&code| code <= 1)
            && two_bit_codes.iter().all(|&code| code <= 3)
    }
}

/// The first of the two codes that is unassigned.
fn unassigned(source10: u8, relay: u8) -> Option<Cause> {
    if source10 == UNASSIGNED {
        return Some(Cause::Source10);
    }
    (relay == UNASSIGNED).then_some(Cause::Relay)
}

/// The first unassigned code or bit that is set in the word.
fn reserved([c0, c1, _, _, c4]: Control) -> Option<Cause> {
    match c0 >> 1 {
        0 => unassigned(code(c1, 2), code(c4, 0)),
        9 => bit(c4, 7).then_some(Cause::Word9C4Bit7),
        10 => bit(c1, 7).then_some(Cause::Word10C1Bit7),
        _ => None,
    }
}

/// Takes the caller's L, R, I and Q from a slot.
#[inline]
fn take_slot(bytes: &[u8], numbers: &mut [i16]) {
    for (number, place) in numbers.iter_mut().zip(SLOT_PLACES) {
        *number = i16::from_be_bytes([bytes[place], bytes[place + 1]]);
    }
}

/// Puts the caller's L, R, I and Q into a slot.
#[inline]
fn put_slot(numbers: &[i16], bytes: &mut [u8]) {
    for (number, place) in numbers.iter().zip(SLOT_PLACES) {
        bytes[place..place + 2].copy_from_slice(&number.to_be_bytes());
    }
}

/// Reads one host frame: 252 numbers in the order L, R, I, Q, and its word
/// into the host record. `Ok` is the word's address, 0 to 127.
///
/// I and Q are those that [`build`] was given: I comes from the bytes drawn as
/// Q, and Q from those drawn as I.
///
/// Refused: 3 for a frame not of 512 bytes, 4 for an audio slice under 252, 6
/// without sync, 8 for an unassigned code or bit. The last two say the first
/// byte or code that is wrong.
pub fn host_read(frame: &[u8], audio: &mut [i16], host: &mut Host) -> Result<u8, Refusal> {
    let frame = whole(frame)?;
    let audio = audio.get_mut(..AUDIO).ok_or(Refusal::ShortBuffer)?;
    let (control, payload) = open(frame)?;
    if let Some(cause) = reserved(control) {
        return Err(Refusal::Reserved { cause });
    }
    let slots = payload.chunks_exact(SLOT_SIZE);
    for (bytes, numbers) in slots.zip(audio.chunks_exact_mut(SLOT_PLACES.len())) {
        take_slot(bytes, numbers);
    }
    Ok(host.take(control))
}

/// Writes the host frame whose word is the turn's, and moves the turn on.
///
/// The first 252 numbers are L, R, I, Q, 63 times. In the frame I stands in the
/// bytes drawn as Q, and Q in those drawn as I: toward the radio they are
/// reversed for historical reasons, and the host must swap them.
///
/// Refused: 1 for a turn above 10, 3 for a frame not of 512 bytes, 4 for an
/// audio slice under 252, 8 for an unassigned code in the record, 9 for
/// collector outputs above 127, receivers not 1 to 8, a line-in gain above 31,
/// top bits of word 10's C2 above 7, or a code that its bits cannot hold. The
/// whole record is tested, whichever word is due.
pub fn build(builder: &mut Builder, audio: &[i16], frame: &mut [u8]) -> Result<(), Refusal> {
    let Builder { host, turn } = builder;
    if *turn > LAST_TURN {
        return Err(Refusal::BadState);
    }
    let frame = whole_mut(frame)?;
    let audio = audio.get(..AUDIO).ok_or(Refusal::ShortBuffer)?;
    if let Some(cause) = unassigned(host.source10, host.relay) {
        return Err(Refusal::Reserved { cause });
    }
    if !host.fits() {
        return Err(Refusal::Range);
    }
    let payload = begin(frame, host.control(*turn));
    let slots = payload.chunks_exact_mut(SLOT_SIZE);
    for (bytes, numbers) in slots.zip(audio.chunks_exact(SLOT_PLACES.len())) {
        put_slot(numbers, bytes);
    }
    *turn = if *turn == LAST_TURN { 0 } else { *turn + 1 };
    Ok(())
}
