use crate::cells::{Record, Way};
use crate::layout::layout;
use crate::raw;
use crate::refusal::{found, Refusal};
use crate::samples::Samples;

/// What the radio's words have told so far.
///
/// `dot`, `dash` and `ptt` come with every accepted frame, the other fields with the word that is named.
///
/// The six levels, `ain1` to `ain6`, are 0 to 4,095 in every frame that is accepted or written. No level above 4,095
/// comes out of any sequence of reads, transfers included, accepted or refused, into a record that began fresh, or that
/// had none above 4,095 when they began, if nothing else writes to it between them. A level above 4,095 that stood in
/// the record before is [`Range`](Refusal::Range) on writing, whichever word is written. No read refuses the record for
/// it, and it stays as it was until an accepted frame carries that level.
///
/// ```
/// use hpsdr::{Refusal, Samples, Status, Word, FRAME};
///
/// // A frame of zeros that carries word 2 leaves AIN5, and one that carries word 1 sets it.
/// let (mut status, mut frame) = (Status { ain5: 40_000, ..Status::fresh() }, [0; FRAME]);
/// frame[..4].copy_from_slice(&[0x7F, 0x7F, 0x7F, 2 << 3]);
/// assert_eq!(status.read_frame(&frame, 1, &mut Samples::fresh()), Ok(Word::ReversePower));
/// assert_eq!(status.ain5, 40_000);
/// assert_eq!(status.write(Word::Inputs, 1, &[0; 126], &[0; 63], &mut frame), Err(Refusal::Range));
///
/// frame[3] = 1 << 3;
/// assert_eq!(status.read_frame(&frame, 1, &mut Samples::fresh()), Ok(Word::ForwardPower));
/// assert_eq!(status.ain5, 0);
/// ```
#[derive(Clone, Copy, Debug, PartialEq, Eq)]
pub struct Status {
    /// DOT.
    pub dot: bool,
    /// DASH.
    pub dash: bool,
    /// PTT.
    pub ptt: bool,
    /// Words 0 and 4: overflow of ADC 1.
    pub adc1: bool,
    /// Word 4: overflow of ADC 2.
    pub adc2: bool,
    /// Word 4: overflow of ADC 3.
    pub adc3: bool,
    /// Word 4: overflow of ADC 4.
    pub adc4: bool,
    /// Word 0: input IO1 is active. Its bit on the wire is then 0.
    pub io1: bool,
    /// Word 0: input IO2 is active.
    pub io2: bool,
    /// Word 0: input IO3 is active.
    pub io3: bool,
    /// Word 0: input IO4 is active.
    pub io4: bool,
    /// Word 0: the PLL is locked.
    pub pll: bool,
    /// Word 0: the frequency-changed bit.
    pub toggle: bool,
    /// Word 0: Mercury's serial number.
    pub mercury: u8,
    /// Word 0: Penelope's serial number.
    pub penelope: u8,
    /// Word 0: the main board's serial number.
    pub main: u8,
    /// Word 1: forward power AIN5; a frame holds up to 4,095.
    pub ain5: u16,
    /// Word 1: forward power AIN1.
    pub ain1: u16,
    /// Word 2: reverse power AIN2.
    pub ain2: u16,
    /// Word 2: AIN3.
    pub ain3: u16,
    /// Word 3: AIN4.
    pub ain4: u16,
    /// Word 3: AIN6.
    pub ain6: u16,
    /// Word 4: the version of board 1; a frame holds up to 127.
    pub board1: u8,
    /// Word 4: the version of board 2.
    pub board2: u8,
    /// Word 4: the version of board 3.
    pub board3: u8,
    /// Word 4: the version of board 4.
    pub board4: u8,
}

/// A word of the radio, by its address.
#[derive(Clone, Copy, Debug, PartialEq, Eq, Hash)]
pub enum Word {
    /// 0: inputs, PLL, frequency-changed bit, serial numbers, overflow of ADC 1.
    Inputs,
    /// 1: forward power, AIN5 and AIN1.
    ForwardPower,
    /// 2: reverse power AIN2, and AIN3.
    ReversePower,
    /// 3: AIN4 and AIN6.
    Ain4Ain6,
    /// 4: overflow and version of boards 1 to 4.
    Versions,
    /// The word of another address, 5 to 31.
    Unlisted(u8),
}

impl Word {
    /// The word of an address.
    ///
    /// ```
    /// use hpsdr::Word;
    ///
    /// assert_eq!(Word::of(4), Word::Versions);
    /// assert_eq!(Word::of(5), Word::Unlisted(5));
    /// ```
    pub const fn of(address: u8) -> Word {
        match address {
            0 => Word::Inputs,
            1 => Word::ForwardPower,
            2 => Word::ReversePower,
            3 => Word::Ain4Ain6,
            4 => Word::Versions,
            _ => Word::Unlisted(address),
        }
    }

    /// The word's address.
    ///
    /// ```
    /// assert_eq!(hpsdr::Word::Versions.address(), 4);
    /// ```
    pub const fn address(self) -> u8 {
        match self {
            Word::Inputs => 0,
            Word::ForwardPower => 1,
            Word::ReversePower => 2,
            Word::Ain4Ain6 => 3,
            Word::Versions => 4,
            Word::Unlisted(address) => address,
        }
    }
}

impl Record<{ raw::STATUS_CELLS }> for Status {
    #[inline]
    fn each(way: &mut impl Way<Status>) -> Status {
        Status {
            dot: way.pass(|status| status.dot),
            dash: way.pass(|status| status.dash),
            ptt: way.pass(|status| status.ptt),
            adc1: way.pass(|status| status.adc1),
            adc2: way.pass(|status| status.adc2),
            adc3: way.pass(|status| status.adc3),
            adc4: way.pass(|status| status.adc4),
            io1: way.pass(|status| status.io1),
            io2: way.pass(|status| status.io2),
            io3: way.pass(|status| status.io3),
            io4: way.pass(|status| status.io4),
            pll: way.pass(|status| status.pll),
            toggle: way.pass(|status| status.toggle),
            mercury: way.pass(|status| status.mercury),
            penelope: way.pass(|status| status.penelope),
            main: way.pass(|status| status.main),
            ain5: way.pass(|status| status.ain5),
            ain1: way.pass(|status| status.ain1),
            ain2: way.pass(|status| status.ain2),
            ain3: way.pass(|status| status.ain3),
            ain4: way.pass(|status| status.ain4),
            ain6: way.pass(|status| status.ain6),
            board1: way.pass(|status| status.board1),
            board2: way.pass(|status| status.board2),
            board3: way.pass(|status| status.board3),
            board4: way.pass(|status| status.board4),
        }
    }
}

impl Status {
    /// The record that all-zero words give: its four inputs are active.
    ///
    /// ```
    /// let status = hpsdr::Status::fresh();
    /// assert!(status.io1 && status.io2 && status.io3 && status.io4);
    /// assert!(!status.pll);
    /// assert_eq!(status.main, 0);
    /// ```
    pub fn fresh() -> Status {
        let mut cells = [0; raw::STATUS_CELLS];
        // Refused for too few cells only, so there is no answer to look at.
        // SAFETY: the pointer and the number are those of one array, which nothing else has for the time of the call.
        unsafe { raw::hpsdr_status_fresh(cells.as_mut_ptr(), cells.len()) };
        Status::of_cells(&cells)
    }

    /// Reads a frame of 1 to 8 receivers: I and Q of receiver 1 to the last, slot by slot, to the start of `iq`, one
    /// microphone value a slot to the start of `mic`, and the word into the record. Gives the word that came.
    ///
    /// A frame does not carry the number of its receivers, so it is the caller's to know. A wrong one is refused only
    /// where the padding of that number is not all 0 in the frame; 1 and 2 receivers have no padding. Where it is not
    /// refused, what comes out is the frame read as if it had so many.
    ///
    /// Refusals: `BadCount`, `Length`, `ShortBuffer`, `NoSync`, `Padding`, `Reserved`. `NoSync` and `Padding` say which
    /// byte of the frame it was. `Reserved` is for a level above 4,095 in the frame's word, if this is 1, 2 or 3, and
    /// names the first such level in the order of C1 to C4. Words 0, 4 and unlisted ones carry no level: whatever their
    /// C1 to C4 are, no frame is refused for them.
    ///
    /// A frame that is refused for a level is refused whole, its samples and its DOT, DASH and PTT too: whoever wants
    /// the samples of such a frame does not get them.
    ///
    /// ```
    /// use hpsdr::{Status, Word, FRAME};
    ///
    /// let mut frame = [0; FRAME];
    /// // Sync, word 1 with DOT, AIN5, AIN1; I, Q and the microphone value of the first slot.
    /// frame[..8].copy_from_slice(&[0x7F, 0x7F, 0x7F, 0x0C, 0x01, 0xF4, 0, 0]);
    /// frame[8..16].copy_from_slice(&[0x7F, 0xFF, 0xFF, 0x80, 0, 0, 0x80, 0]);
    ///
    /// let (mut status, mut iq, mut mic) = (Status::fresh(), [0; 126], [0; 63]);
    /// assert_eq!(status.read(&frame, 1, &mut iq, &mut mic), Ok(Word::ForwardPower));
    /// assert_eq!(iq[..3], [8_388_607, -8_388_608, 0]);
    /// assert_eq!(mic[..2], [-32_768, 0]);
    /// assert_eq!(status.ain5, 500);
    /// assert_eq!((status.dot, status.dash, status.ptt), (true, false, false));
    /// ```
    ///
    /// A refusal leaves everything as it was:
    ///
    /// ```
    /// use hpsdr::{Refusal, Status};
    ///
    /// // Three receivers, whose frame ends in four bytes of padding. The last two of them are not 0.
    /// let mut frame = [0x7F; 512];
    /// frame[508..].copy_from_slice(&[0, 0, 1, 1]);
    ///
    /// let (mut status, mut iq, mut mic) = (Status::fresh(), [7; 150], [8; 25]);
    /// let refusal = status.read(&frame, 3, &mut iq, &mut mic).unwrap_err();
    /// assert_eq!(refusal, Refusal::Padding { byte: 510 });
    /// assert_eq!(status, Status::fresh());
    /// assert_eq!((iq, mic), ([7; 150], [8; 25]));
    /// ```
    ///
    /// ```
    /// use hpsdr::{Cause, Refusal, Status, FRAME};
    ///
    /// // Word 1 with DOT, and AIN5 at 40,000. All samples are 0.
    /// let mut frame = [0; FRAME];
    /// frame[..6].copy_from_slice(&[0x7F, 0x7F, 0x7F, 0x0C, 0x9C, 0x40]);
    ///
    /// let (mut status, mut iq, mut mic) = (Status::fresh(), [7; 126], [8; 63]);
    /// let refusal = status.read(&frame, 1, &mut iq, &mut mic).unwrap_err();
    /// assert_eq!(refusal, Refusal::Reserved { cause: Cause::Ain5 });
    /// assert_eq!(status, Status::fresh());
    /// assert_eq!((iq, mic), ([7; 126], [8; 63]));
    /// ```
    pub fn read(
        &mut self,
        frame: &[u8],
        receivers: usize,
        iq: &mut [i32],
        mic: &mut [i16],
    ) -> Result<Word, Refusal> {
        let got = self.read_by(raw::hpsdr_radio_read, frame, receivers, iq, mic);
        Ok(Word::of(found(got)? as u8))
    }

    /// What the call returned. The record is the one that it left, which after a refusal is that of the frames before.
    #[inline]
    pub(crate) fn read_by(
        &mut self,
        call: raw::RadioRead,
        input: &[u8],
        receivers: usize,
        iq: &mut [i32],
        mic: &mut [i16],
    ) -> u32 {
        let mut cells = self.cells();
        // SAFETY: the call is one of the two of `raw`; each pointer and number are those of one slice or array; those
        // to be written are borrowed for writing, so they overlap nothing.
        let got = unsafe {
            call(
                input.as_ptr(),
                input.len(),
                receivers,
                iq.as_mut_ptr(),
                iq.len(),
                mic.as_mut_ptr(),
                mic.len(),
                cells.as_mut_ptr(),
                cells.len(),
            )
        };
        *self = Status::of_cells(&cells);
        got
    }

    /// Reads a frame of 1 to 8 receivers as [`read`](Status::read) does, into `samples`, where they stand by receiver.
    /// What is said there of the number of receivers is true here.
    ///
    /// Refusals, which leave `samples` and the record as they were: `BadCount`, `Length`, `NoSync`, `Padding`,
    /// `Reserved`.
    ///
    /// ```
    /// use hpsdr::{Samples, Status, Word, FRAME};
    ///
    /// // Word 1. In the first slot of one receiver I is 5, Q is -1 and the microphone value 9.
    /// let mut frame = [0; FRAME];
    /// frame[..4].copy_from_slice(&[0x7F, 0x7F, 0x7F, 0x08]);
    /// frame[8..16].copy_from_slice(&[0, 0, 5, 0xFF, 0xFF, 0xFF, 0, 9]);
    ///
    /// let (mut status, mut samples) = (Status::fresh(), Samples::fresh());
    /// assert_eq!(status.read_frame(&frame, 1, &mut samples), Ok(Word::ForwardPower));
    /// assert_eq!(samples.receiver(0).unwrap().next(), Some((5, -1)));
    /// assert_eq!((samples.iq().len(), samples.mic().len()), (126, 63));
    /// assert_eq!(samples.mic()[0], 9);
    /// ```
    pub fn read_frame(
        &mut self,
        frame: &[u8],
        receivers: usize,
        samples: &mut Samples,
    ) -> Result<Word, Refusal> {
        let slots = layout(receivers)?.slots;
        let iq = samples.pairs.as_flattened_mut();
        let word = self.read(frame, receivers, iq, &mut samples.mic)?;
        (samples.receivers, samples.slots) = (receivers, slots);
        Ok(word)
    }

    /// Writes the frame that carries a word of the record: all 512 bytes of it. The word goes by its address, and
    /// one above 4 is out of range. The frame does not carry the number of receivers; who [reads](Status::read) it has
    /// to know it.
    ///
    /// Refusals: `BadCount`, `Length`, `ShortBuffer`, and `Range` for such a word, a version above 127 or a level above
    /// 4,095 anywhere in the record, whichever word is written, and an I or Q of this frame outside -8,388,608 to
    /// 8,388,607.
    ///
    /// ```
    /// use hpsdr::{Refusal, Status, Word};
    ///
    /// let status = Status { dot: true, ain5: 500, ..Status::fresh() };
    /// let (mut iq, mic, mut frame) = ([0; 126], [0; 63], [0; 512]);
    /// iq[0] = -1;
    /// assert_eq!(status.write(Word::ForwardPower, 1, &iq, &mic, &mut frame), Ok(()));
    /// assert_eq!(frame[..8], [0x7F, 0x7F, 0x7F, 0x0C, 0x01, 0xF4, 0, 0]);
    /// assert_eq!(frame[8..12], [0xFF, 0xFF, 0xFF, 0]);
    ///
    /// iq[0] = 8_388_608;
    /// assert_eq!(status.write(Word::ForwardPower, 1, &iq, &mic, &mut frame), Err(Refusal::Range));
    /// assert_eq!(frame[8..12], [0xFF, 0xFF, 0xFF, 0]);
    /// ```
    pub fn write(
        &self,
        word: Word,
        receivers: usize,
        iq: &[i32],
        mic: &[i16],
        frame: &mut [u8],
    ) -> Result<(), Refusal> {
        let cells = self.cells();
        // SAFETY: each pointer and number are those of one slice or array; the frame is borrowed for writing, so it
        // overlaps nothing.
        let got = unsafe {
            raw::hpsdr_radio_write(
                cells.as_ptr(),
                cells.len(),
                word.address().into(),
                receivers,
                iq.as_ptr(),
                iq.len(),
                mic.as_ptr(),
                mic.len(),
                frame.as_mut_ptr(),
                frame.len(),
            )
        };
        found(got).map(|_| ())
    }
}
