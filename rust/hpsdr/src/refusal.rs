use std::error::Error;
use std::fmt;
use std::io;

/// Why a call did nothing. A call gives the first that holds, in the order of their numbers, and leaves everything
/// that it was lent as it was. [`Stopped`](crate::Stopped) is for the one call that reads several frames.
///
/// Three of them say the place as well: [`NoSync`](Refusal::NoSync) and [`Padding`](Refusal::Padding) which byte of the
/// frame it was, and [`Reserved`](Refusal::Reserved) which code or bit of a host frame or which level of a radio frame.
///
/// ```
/// use hpsdr::{layout, Refusal};
///
/// let refusal = layout(9).unwrap_err();
/// assert_eq!(refusal, Refusal::BadCount);
/// assert_eq!(refusal.number(), 2);
/// assert_eq!(refusal.to_string(), "the receiver count is not 1 to 8");
/// ```
///
/// ```
/// use hpsdr::{Refusal, Samples, Status, FRAME};
///
/// // Three receivers, whose frame ends in four bytes of padding: 508 to 511. Two of them are not 0.
/// let mut frame = [0; FRAME];
/// frame[..3].fill(0x7F);
/// (frame[509], frame[511]) = (1, 2);
///
/// let refusal = Status::fresh().read_frame(&frame, 3, &mut Samples::fresh()).unwrap_err();
/// assert_eq!(refusal, Refusal::Padding { byte: 509 });
/// assert_eq!(refusal.number(), 7);
/// assert_eq!(refusal.to_string(), "padding byte 509 is not zero");
///
/// // Sync is tested first. Its bytes 1 and 2 are wrong.
/// frame[1..3].fill(0);
/// let refusal = Status::fresh().read_frame(&frame, 3, &mut Samples::fresh()).unwrap_err();
/// assert_eq!(refusal, Refusal::NoSync { byte: 1 });
/// assert_eq!(refusal.to_string(), "sync byte 1 is not 7F");
/// ```
#[derive(Clone, Copy, Debug, PartialEq, Eq, Hash)]
pub enum Refusal {
    /// 1: the stream record is unsound, or the turn is above 10.
    BadState,
    /// 2: the receiver count is not 1 to 8.
    BadCount,
    /// 3: the frame is not 512 bytes, the transfer is not 1 to 8 times 512, the piece is above 4,096, or the input is
    /// above 65,536.
    Length,
    /// 4: a sample slice is shorter than needed, a stream's output is under 4,096 bytes, or the output is shorter than
    /// the input.
    ShortBuffer,
    /// 5: more than 2^48 bytes would have been fed.
    StreamFull,
    /// 6: the frame's first three bytes are not 7F 7F 7F.
    NoSync {
        /// The first of them that is not 7F, 0 to 2.
        byte: usize,
    },
    /// 7: a padding byte is not 0.
    Padding {
        /// The first of them that is not 0, as a byte of the frame, counted from 0: it is `frame[byte]`.
        byte: usize,
    },
    /// 8: an unassigned host code or bit is set, or a level of a radio frame is above 4,095.
    Reserved {
        /// Which one.
        cause: Cause,
    },
    /// 9: a value to be written does not fit, or the place is not below the input's length.
    Range,
}

impl Refusal {
    /// The refusal's number, 1 to 9.
    pub const fn number(self) -> u8 {
        match self {
            Refusal::BadState => 1,
            Refusal::BadCount => 2,
            Refusal::Length => 3,
            Refusal::ShortBuffer => 4,
            Refusal::StreamFull => 5,
            Refusal::NoSync { .. } => 6,
            Refusal::Padding { .. } => 7,
            Refusal::Reserved { .. } => 8,
            Refusal::Range => 9,
        }
    }
}

impl fmt::Display for Refusal {
    fn fmt(&self, formatter: &mut fmt::Formatter<'_>) -> fmt::Result {
        formatter.write_str(match self {
            Refusal::BadState => "the stream record is unsound, or the turn is above 10",
            Refusal::BadCount => "the receiver count is not 1 to 8",
            Refusal::Length => {
                "the frame is not 512 bytes, the transfer is not 1 to 8 times 512, the piece is above 4,096, \
                 or the input is above 65,536"
            }
            Refusal::ShortBuffer => {
                "a sample slice is shorter than needed, a stream's output is under 4,096 bytes, \
                 or the output is shorter than the input"
            }
            Refusal::StreamFull => "more than 2^48 bytes would have been fed",
            Refusal::NoSync { byte } => return write!(formatter, "sync byte {byte} is not 7F"),
            Refusal::Padding { byte } => {
                return write!(formatter, "padding byte {byte} is not zero")
            }
            Refusal::Reserved { cause } => return cause.fmt(formatter),
            Refusal::Range => {
                "a value to be written does not fit, or the place is not below the input's length"
            }
        })
    }
}

impl Error for Refusal {}

/// An error of kind `Other` with the refusal in it, so that a function which reads its frames from a file or a socket
/// can answer both by one type.
///
/// ```
/// use hpsdr::{layout, Refusal};
/// use std::io;
///
/// let error = io::Error::from(layout(9).unwrap_err());
/// assert_eq!(error.to_string(), "the receiver count is not 1 to 8");
/// assert_eq!(error.downcast::<Refusal>().unwrap(), Refusal::BadCount);
/// ```
impl From<Refusal> for io::Error {
    fn from(refusal: Refusal) -> io::Error {
        io::Error::other(refusal)
    }
}

/// What is wrong in a frame that is refused as [`Reserved`](Refusal::Reserved).
///
/// Of a host frame, which unassigned code or bit is set. A frame carries one word, so two can be set in word 0 only,
/// and then it is the source.
///
/// ```
/// use hpsdr::{Cause, Host, Refusal, AUDIO, FRAME};
///
/// // Word 0 with both codes at 3: C1 bits 3-2 and C4 bits 1-0.
/// let mut frame = [0; FRAME];
/// frame[..8].copy_from_slice(&[0x7F, 0x7F, 0x7F, 0, 0x0C, 0, 0, 0x03]);
///
/// let refusal = Host::fresh().read(&frame, &mut [0; AUDIO]).unwrap_err();
/// assert_eq!(refusal, Refusal::Reserved { cause: Cause::Source10 });
/// assert_eq!(refusal.to_string(), "the 10 MHz source has the unassigned code 3");
///
/// frame[4] = 0;
/// let refusal = Host::fresh().read(&frame, &mut [0; AUDIO]).unwrap_err();
/// assert_eq!(refusal, Refusal::Reserved { cause: Cause::Relay });
/// assert_eq!(refusal.to_string(), "the transmit relay has the unassigned code 3");
/// assert_eq!((refusal.number(), Cause::Relay.number()), (8, 2));
/// ```
///
/// Of a radio frame, which level is above 4,095, so that the top four of its 16 bits are not all 0. Where both levels
/// of a word are, it is the one in C1 and C2.
///
/// ```
/// use hpsdr::{Cause, Refusal, Samples, Status, FRAME};
///
/// // Word 1 with both levels at 40,000, which is 9C 40: AIN5 in C1 and C2, and AIN1 in C3 and C4.
/// let mut frame = [0; FRAME];
/// frame[..8].copy_from_slice(&[0x7F, 0x7F, 0x7F, 0x08, 0x9C, 0x40, 0x9C, 0x40]);
///
/// let refusal = Status::fresh().read_frame(&frame, 1, &mut Samples::fresh()).unwrap_err();
/// assert_eq!(refusal, Refusal::Reserved { cause: Cause::Ain5 });
/// assert_eq!(refusal.to_string(), "level AIN5 is above 4,095");
///
/// // 4,095 is the greatest that there is.
/// frame[4..6].copy_from_slice(&[0x0F, 0xFF]);
/// let refusal = Status::fresh().read_frame(&frame, 1, &mut Samples::fresh()).unwrap_err();
/// assert_eq!(refusal, Refusal::Reserved { cause: Cause::Ain1 });
/// assert_eq!((refusal.number(), Cause::Ain1.number()), (8, 6));
/// ```
#[derive(Clone, Copy, Debug, PartialEq, Eq, Hash)]
pub enum Cause {
    /// Word 0: the 10 MHz source, C1 bits 3-2, has the code 3.
    Source10 = 1,
    /// Word 0: the transmit relay, C4 bits 1-0, has the code 3.
    Relay = 2,
    /// Word 9: C4 bit 7 is set.
    Word9C4Bit7 = 3,
    /// Word 10: C1 bit 7 is set.
    Word10C1Bit7 = 4,
    /// The radio's word 1: AIN5, C1 and C2, is above 4,095.
    Ain5 = 5,
    /// The radio's word 1: AIN1, C3 and C4, is above 4,095.
    Ain1 = 6,
    /// The radio's word 2: AIN2, C1 and C2, is above 4,095.
    Ain2 = 7,
    /// The radio's word 2: AIN3, C3 and C4, is above 4,095.
    Ain3 = 8,
    /// The radio's word 3: AIN4, C1 and C2, is above 4,095.
    Ain4 = 9,
    /// The radio's word 3: AIN6, C3 and C4, is above 4,095.
    Ain6 = 10,
}

impl Cause {
    /// The cause's number, 1 to 10.
    pub const fn number(self) -> u8 {
        self as u8
    }

    /// No call gives a number above 10, nor 0.
    fn of(number: usize) -> Cause {
        match number {
            1 => Cause::Source10,
            2 => Cause::Relay,
            3 => Cause::Word9C4Bit7,
            4 => Cause::Word10C1Bit7,
            5 => Cause::Ain5,
            6 => Cause::Ain1,
            7 => Cause::Ain2,
            8 => Cause::Ain3,
            9 => Cause::Ain4,
            _ => Cause::Ain6,
        }
    }

    /// Whether it is a level of a radio frame.
    pub(crate) const fn is_level(self) -> bool {
        self as u8 >= Cause::Ain5 as u8
    }

    /// What its text begins with, and what it goes on with: a transfer's text has the frame of a level between them.
    pub(crate) const fn text(self) -> (&'static str, &'static str) {
        const ABOVE: &str = " is above 4,095";
        match self {
            Cause::Source10 => ("the 10 MHz source", " has the unassigned code 3"),
            Cause::Relay => ("the transmit relay", " has the unassigned code 3"),
            Cause::Word9C4Bit7 => ("word 9's C4 bit 7", " is set, which is unassigned"),
            Cause::Word10C1Bit7 => ("word 10's C1 bit 7", " is set, which is unassigned"),
            Cause::Ain5 => ("level AIN5", ABOVE),
            Cause::Ain1 => ("level AIN1", ABOVE),
            Cause::Ain2 => ("level AIN2", ABOVE),
            Cause::Ain3 => ("level AIN3", ABOVE),
            Cause::Ain4 => ("level AIN4", ABOVE),
            Cause::Ain6 => ("level AIN6", ABOVE),
        }
    }
}

impl fmt::Display for Cause {
    fn fmt(&self, formatter: &mut fmt::Formatter<'_>) -> fmt::Result {
        let (what, how) = self.text();
        write!(formatter, "{what}{how}")
    }
}

/// What a call found, accepted or refused.
#[inline]
pub(crate) fn found_in(got: u32) -> u32 {
    got >> 8 & 0xFF
}

/// What an accepted call found, or the refusal with its place. No call gives an answer above 9.
#[inline]
pub(crate) fn found(got: u32) -> Result<u32, Refusal> {
    let place = (got >> 16) as usize;
    Err(match got & 0xFF {
        0 => return Ok(found_in(got)),
        1 => Refusal::BadState,
        2 => Refusal::BadCount,
        3 => Refusal::Length,
        4 => Refusal::ShortBuffer,
        5 => Refusal::StreamFull,
        6 => Refusal::NoSync { byte: place },
        7 => Refusal::Padding { byte: place },
        8 => Refusal::Reserved {
            cause: Cause::of(place),
        },
        _ => Refusal::Range,
    })
}
