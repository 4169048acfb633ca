use crate::raw;
use crate::refusal::{found, found_in, Refusal};
use crate::Status;
use std::error::Error;
use std::fmt;
use std::io;

/// Why the reading of a transfer stopped, and after how many frames. These frames stay read: their values stand in the
/// slices, and the record is the one after them. All else is as it was.
///
/// Where a frame was refused, for [`NoSync`](Refusal::NoSync), [`Padding`](Refusal::Padding) or
/// [`Reserved`](Refusal::Reserved), it is the frame after these: `frames` is its index in the input, counted from 0,
/// and the refusal's `byte` is a byte of that frame, its `cause` a level of that frame. For every other refusal no
/// frame was looked at, and `frames` is 0.
///
/// ```
/// use hpsdr::{Cause, Refusal, Stopped};
///
/// let stopped = Stopped { refusal: Refusal::Padding { byte: 509 }, frames: 3 };
/// assert_eq!(stopped.to_string(), "padding byte 509 of frame 3 is not zero");
///
/// let stopped = Stopped { refusal: Refusal::Reserved { cause: Cause::Ain5 }, frames: 3 };
/// assert_eq!(stopped.to_string(), "level AIN5 of frame 3 is above 4,095");
///
/// let stopped = Stopped { refusal: Refusal::BadCount, frames: 0 };
/// assert_eq!(stopped.to_string(), "the receiver count is not 1 to 8");
/// ```
#[derive(Clone, Copy, Debug, PartialEq, Eq, Hash)]
pub struct Stopped {
    /// Why no further frame was read.
    pub refusal: Refusal,
    /// How many frames were read before, 0 to 7.
    pub frames: usize,
}

impl fmt::Display for Stopped {
    fn fmt(&self, formatter: &mut fmt::Formatter<'_>) -> fmt::Result {
        let Stopped { refusal, frames } = self;
        match refusal {
            Refusal::NoSync { byte } => {
                write!(formatter, "sync byte {byte} of frame {frames} is not 7F")
            }
            Refusal::Padding { byte } => {
                write!(
                    formatter,
                    "padding byte {byte} of frame {frames} is not zero"
                )
            }
            Refusal::Reserved { cause } if cause.is_level() => {
                let (what, how) = cause.text();
                write!(formatter, "{what} of frame {frames}{how}")
            }
            _ => refusal.fmt(formatter),
        }
    }
}

// The text tells the refusal, so it is no source: whoever prints the chain of sources would print it twice.
impl Error for Stopped {}

/// An error of kind `Other` with all this in it, as a [`Refusal`] makes one.
///
/// ```
/// use hpsdr::{Status, Stopped};
/// use std::io;
///
/// let stopped = Status::fresh().read_transfer(&[], 1, &mut [], &mut []).unwrap_err();
/// assert_eq!(io::Error::from(stopped).downcast::<Stopped>().unwrap(), stopped);
/// ```
impl From<Stopped> for io::Error {
    fn from(stopped: Stopped) -> io::Error {
        io::Error::other(stopped)
    }
}

impl Status {
    /// Reads a transfer: 1 to 8 frames of one number of receivers, one after another, as a
    /// [stream](crate::Stream::feed) hands them out. Each is read just as [`read`](Status::read) reads it, into the
    /// record that the frame before it left, and its values stand after those of the frame before it. Gives the number
    /// of frames; which words they carried is not told.
    ///
    /// Refusals, before any frame is read: `BadCount`; `Length`, for an input that is not 1 to 8 times 512 bytes;
    /// `ShortBuffer`, for slices that are shorter than the whole input needs. Then the first refused frame's own,
    /// `NoSync`, `Padding` or `Reserved`, and there the reading [stops](Stopped).
    ///
    /// ```
    /// use hpsdr::{Status, FRAME};
    ///
    /// // Two frames of one receiver: word 1 with AIN5 and word 2 with AIN2. Their first I is 5 and -1.
    /// let mut input = [0; 2 * FRAME];
    /// input[..11].copy_from_slice(&[0x7F, 0x7F, 0x7F, 0x08, 0x01, 0xF4, 0, 0, 0, 0, 5]);
    /// input[FRAME..][..11].copy_from_slice(&[0x7F, 0x7F, 0x7F, 0x10, 0, 100, 0, 0, 0xFF, 0xFF, 0xFF]);
    ///
    /// let (mut status, mut iq, mut mic) = (Status::fresh(), [7; 2 * 126], [7; 2 * 63]);
    /// assert_eq!(status.read_transfer(&input, 1, &mut iq, &mut mic), Ok(2));
    /// assert_eq!((iq[0], iq[126]), (5, -1));
    /// assert_eq!((status.ain5, status.ain2), (500, 100));
    /// ```
    ///
    /// The frames before a refused one stay read, and what comes after them is as it was:
    ///
    /// ```
    /// use hpsdr::{Refusal, Status, Stopped, FRAME};
    ///
    /// // Three frames of zeros, which carry word 0, but for the second frame's last byte of sync.
    /// let mut input = [0; 3 * FRAME];
    /// input.chunks_mut(FRAME).for_each(|frame| frame[..3].fill(0x7F));
    /// input[FRAME + 2] = 0x7E;
    ///
    /// let given = Status { pll: true, ain5: 500, ..Status::fresh() };
    /// let (mut status, mut iq, mut mic) = (given, [7; 3 * 126], [8; 3 * 63]);
    /// let stopped = status.read_transfer(&input, 1, &mut iq, &mut mic).unwrap_err();
    /// assert_eq!(stopped, Stopped { refusal: Refusal::NoSync { byte: 2 }, frames: 1 });
    /// assert_eq!(stopped.to_string(), "sync byte 2 of frame 1 is not 7F");
    /// assert_eq!(status, Status { pll: false, ..given });
    /// assert_eq!((&iq[..126], &mic[..63]), (&[0; 126][..], &[0; 63][..]));
    /// assert_eq!((&iq[126..], &mic[63..]), (&[7; 252][..], &[8; 126][..]));
    ///
    /// // Whoever goes on behind the refused frame:
    /// let behind = &input[FRAME * (stopped.frames + 1)..];
    /// assert_eq!(status.read_transfer(behind, 1, &mut iq, &mut mic), Ok(1));
    /// ```
    pub fn read_transfer(
        &mut self,
        input: &[u8],
        receivers: usize,
        iq: &mut [i32],
        mic: &mut [i16],
    ) -> Result<usize, Stopped> {
        let got = self.read_by(raw::hpsdr_radio_read_transfer, input, receivers, iq, mic);
        let frames = found_in(got) as usize;
        match found(got) {
            Ok(_) => Ok(frames),
            Err(refusal) => Err(Stopped { refusal, frames }),
        }
    }
}
