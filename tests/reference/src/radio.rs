//! Radio frames (EP6) and the status record.

use crate::bits::{bit, byte, flags};
use crate::frame::{begin, open, row, slot_size, whole, whole_mut, Control, FRAME, IQ_SIZE};
use crate::refusal::{Cause, Refusal};

const SAMPLE_LEAST: i32 = -8_388_608;
const SAMPLE_MOST: i32 = 8_388_607;
const VERSION_MOST: u8 = 127;
/// All analog levels are 12 bits (T-08).
const LEVEL_MOST: u16 = 4_095;
const LAST_WORD: usize = 4;

/// What the radio has told. Its levels are at most 4,095, unless the caller's
/// record held more and no word has brought another.
#[derive(Clone, Copy, Debug, PartialEq, Eq)]
pub struct Status {
    /// DOT, from every frame.
    pub dot: bool,
    /// DASH, from every frame.
    pub dash: bool,
    /// PTT, from every frame.
    pub ptt: bool,
    /// Overflow of ADC 1 to 4; the first is set by words 0 and 4.
    pub overflow: [bool; 4],
    /// Whether IO1 to IO4 are active (their bit is 0).
    pub io: [bool; 4],
    /// PLL locked.
    pub pll: bool,
    /// The frequency-changed toggle.
    pub toggle: bool,
    /// Mercury's serial number.
    pub mercury: u8,
    /// Penelope's serial number.
    pub penelope: u8,
    /// The main board's serial number.
    pub main: u8,
    /// Forward power AIN5.
    pub ain5: u16,
    /// Forward power AIN1.
    pub ain1: u16,
    /// Reverse power AIN2.
    pub ain2: u16,
    /// Level AIN3.
    pub ain3: u16,
    /// Level AIN4.
    pub ain4: u16,
    /// Level AIN6.
    pub ain6: u16,
    /// Versions of boards 1 to 4, each 0 to 127.
    pub versions: [u8; 4],
}

impl Status {
    /// What all-zero words give; so the four inputs are active.
    pub fn fresh() -> Status {
        Status {
            dot: false,
            dash: false,
            ptt: false,
            overflow: [false; 4],
            io: [true; 4],
            pll: false,
            toggle: false,
            mercury: 0,
            penelope: 0,
            main: 0,
            ain5: 0,
            ain1: 0,
            ain2: 0,
            ain3: 0,
            ain4: 0,
            ain6: 0,
            versions: [0; 4],
        }
    }

    /// Takes in one word; gives its address.
    fn take(&mut self, control: Control) -> u8 {
        let [c0, c1, c2, c3, c4] = control;
        let address = c0 >> 3;
        [self.ptt, self.dash, self.dot] = flags(c0);
        let (first, second) = (u16::from_be_bytes([c1, c2]), u16::from_be_bytes([c3, c4]));
        match address {
            0 => self.take_inputs(control),
            1 => (self.ain5, self.ain1) = (first, second),
            2 => (self.ain2, self.ain3) = (first, second),
            3 => (self.ain4, self.ain6) = (first, second),
            4 => self.take_boards([c1, c2, c3, c4]),
            _ => {}
        }
        address
    }

    fn take_inputs(&mut self, [_, c1, c2, c3, c4]: Control) {
        self.overflow[0] = bit(c1, 0);
        self.io = flags(!c1 >> 1);
        self.pll = bit(c1, 5);
        self.toggle = bit(c1, 6);
        self.mercury = c2;
        self.penelope = c3;
        self.main = c4;
    }

    fn take_boards(&mut self, boards: [u8; 4]) {
        self.overflow = boards.map(|board| bit(board, 0));
        self.versions = boards.map(|board| board >> 1);
    }

    /// C0 to C4 of `word`, which is at most 4.
    fn control(&self, word: usize) -> Control {
        let [c1, c2, c3, c4] = match word {
            0 => [self.inputs(), self.mercury, self.penelope, self.main],
            1 => levels(self.ain5, self.ain1),
            2 => levels(self.ain2, self.ain3),
            3 => levels(self.ain4, self.ain6),
            _ => self.boards(),
        };
        let keys = byte([self.ptt, self.dash, self.dot]);
        [(word as u8) << 3 | keys, c1, c2, c3, c4]
    }

    fn inputs(&self) -> u8 {
        let [io1, io2, io3, io4] = self.io;
        let overflow = self.overflow[0];
        byte([overflow, !io1, !io2, !io3, !io4, self.pll, self.toggle])
    }

    fn boards(&self) -> [u8; 4] {
        std::array::from_fn(|board| self.versions[board] << 1 | u8::from(self.overflow[board]))
    }

    fn fits(&self) -> bool {
        let levels = [
            self.ain5, self.ain1, self.ain2, self.ain3, self.ain4, self.ain6,
        ];
        self.versions.iter().all(|&version| version <= VERSION_MOST)
            && levels.iter().all(|&level| level <= LEVEL_MOST)
    }
}

/// The first level of the word whose top four bits are not all 0.
#[inline]
fn reserved([c0, c1, _, c3, _]: Control) -> Option<Cause> {
    let (first, second) = match c0 >> 3 {
        1 => (Cause::Ain5, Cause::Ain1),
        2 => (Cause::Ain2, Cause::Ain3),
        3 => (Cause::Ain4, Cause::Ain6),
        _ => return None,
    };
    if c1 >> 4 != 0 {
        return Some(first);
    }
    (c3 >> 4 != 0).then_some(second)
}

fn levels(first: u16, second: u16) -> [u8; 4] {
    let ([c1, c2], [c3, c4]) = (first.to_be_bytes(), second.to_be_bytes());
    [c1, c2, c3, c4]
}

/// Reads one radio frame: I/Q samples in slot order, one microphone sample a
/// slot, and its word into the status record. `Ok` is the word's address, 0 to
/// 31.
///
/// Refused: 2 for a receiver count not 1 to 8, 3 for a frame not of 512 bytes,
/// 4 for a sample slice too short, 6 without sync, 7 for padding not zero, 8
/// for a level of the word above 4,095. The last three say the first byte or
/// level that is wrong.
pub fn radio_read(
    frame: &[u8],
    receivers: usize,
    iq: &mut [i32],
    mic: &mut [i16],
    status: &mut Status,
) -> Result<u8, Refusal> {
    let row = row(receivers)?;
    let frame = whole(frame)?;
    let needed = 2 * receivers * row.slots;
    let iq = iq.get_mut(..needed).ok_or(Refusal::ShortBuffer)?;
    let mic = mic.get_mut(..row.slots).ok_or(Refusal::ShortBuffer)?;
    let (control, payload) = open(frame)?;
    let (slots, padding) = payload.split_at(row.slots * row.slot);
    if padding.iter().any(|&byte| byte != 0) {
        return Err(not_zero(padding));
    }
    if let Some(cause) = reserved(control) {
        return Err(Refusal::Reserved { cause });
    }
    read_slots(slots, receivers, iq, mic);
    Ok(status.take(control))
}

/// Writes one radio frame with the given word of the status record.
///
/// Refused: 2 for a receiver count not 1 to 8, 3 for a frame not of 512 bytes,
/// 4 for a sample slice too short, 9 for a needed sample outside 24 bits, a
/// version above 127, a level above 4,095 or a word above 4. The whole record
/// is tested, whichever word is due.
pub fn radio_write(
    status: &Status,
    word: usize,
    receivers: usize,
    iq: &[i32],
    mic: &[i16],
    frame: &mut [u8],
) -> Result<(), Refusal> {
    let row = row(receivers)?;
    let frame = whole_mut(frame)?;
    let needed = 2 * receivers * row.slots;
    let iq = iq.get(..needed).ok_or(Refusal::ShortBuffer)?;
    let mic = mic.get(..row.slots).ok_or(Refusal::ShortBuffer)?;
    if word > LAST_WORD || !status.fits() || !samples_fit(iq) {
        return Err(Refusal::Range);
    }
    let payload = begin(frame, status.control(word));
    let (slots, padding) = payload.split_at_mut(row.slots * row.slot);
    write_slots(slots, receivers, iq, mic);
    padding.fill(0);
    Ok(())
}

/// The padding ends where the frame does.
#[cold]
fn not_zero(padding: &[u8]) -> Refusal {
    let zeros = padding.iter().take_while(|&&byte| byte == 0).count();
    Refusal::Padding {
        byte: FRAME - padding.len() + zeros,
    }
}

fn read_slots(slots: &[u8], receivers: usize, iq: &mut [i32], mic: &mut [i16]) {
    let slots = slots.chunks_exact(slot_size(receivers));
    let samples = iq.chunks_exact_mut(2 * receivers);
    for ((slot, samples), microphone) in slots.zip(samples).zip(mic) {
        let (triples, pair) = slot.split_at(IQ_SIZE * receivers);
        for (sample, triple) in samples.iter_mut().zip(triples.chunks_exact(3)) {
            *sample = sample_24([triple[0], triple[1], triple[2]]);
        }
        *microphone = i16::from_be_bytes([pair[0], pair[1]]);
    }
}

fn write_slots(slots: &mut [u8], receivers: usize, iq: &[i32], mic: &[i16]) {
    let slots = slots.chunks_exact_mut(slot_size(receivers));
    let samples = iq.chunks_exact(2 * receivers);
    for ((slot, samples), microphone) in slots.zip(samples).zip(mic) {
        let (triples, pair) = slot.split_at_mut(IQ_SIZE * receivers);
        for (triple, sample) in triples.chunks_exact_mut(3).zip(samples) {
            triple.copy_from_slice(&sample.to_be_bytes()[1..]);
        }
        pair.copy_from_slice(&microphone.to_be_bytes());
    }
}

/// The shift right carries the sign of a 24-bit number down.
#[inline]
fn sample_24([high, middle, low]: [u8; 3]) -> i32 {
    i32::from_be_bytes([high, middle, low, 0]) >> 8
}

/// No early exit, so that the test vectorizes.
#[inline]
fn samples_fit(iq: &[i32]) -> bool {
    iq.iter().fold(true, |fit, sample| {
        fit & (SAMPLE_LEAST..=SAMPLE_MOST).contains(sample)
    })
}
