use crate::raw;
use crate::refusal::{found, Refusal};
use std::fmt;

/// What the reading of an input made of the byte at a place. [`explain`] gives it. Of each place of an accepted input
/// exactly one reason is true.
#[derive(Clone, Copy, Debug, PartialEq, Eq, Hash)]
pub enum Reason {
    /// It stands in a frame handed out.
    Inside {
        /// The place at which the frame begins: `start <= place`, and `place < start + 512`.
        start: usize,
    },
    /// It was skipped: the reading came to it, at least 515 bytes remained from it on, and of the three bytes there one is
    /// not 7F.
    NearSync {
        /// The first of them that is not, 0 to 2: it is `input[place + byte]`.
        byte: u8,
    },
    /// It was skipped: the reading came to it, at least 515 bytes remained from it on, the three bytes there are 7F, and
    /// of the three that stand 512 bytes later one is not.
    FarSync {
        /// The first of them that is not, 0 to 2: it is `input[place + 512 + byte]`.
        byte: u8,
    },
    /// The reading ends at the place or before it, where fewer than 515 bytes remain: a [stream](crate::Stream) still
    /// holds the byte.
    Held,
}

impl Reason {
    /// By its number, with the detail that stands beside it. No call gives a number above 4, nor 0.
    fn of(number: u32, detail: u32) -> Reason {
        match number {
            1 => Reason::Inside {
                start: detail as usize,
            },
            2 => Reason::NearSync { byte: detail as u8 },
            3 => Reason::FarSync { byte: detail as u8 },
            _ => Reason::Held,
        }
    }
}

impl fmt::Display for Reason {
    fn fmt(&self, formatter: &mut fmt::Formatter<'_>) -> fmt::Result {
        match self {
            Reason::Inside { start } => {
                write!(
                    formatter,
                    "inside the frame handed out that begins at byte {start}"
                )
            }
            Reason::NearSync { byte } => {
                write!(
                    formatter,
                    "skipped: byte {byte} of the sync at this place is not 7F"
                )
            }
            Reason::FarSync { byte } => {
                write!(
                    formatter,
                    "skipped: byte {byte} of the sync 512 bytes later is not 7F"
                )
            }
            Reason::Held => formatter.write_str("still held"),
        }
    }
}

/// Tells why a byte of an input of up to 65,536 bytes was handed out, skipped or held, where the reading begins at place 0
/// and goes by the rule of the [stream reader](crate::Stream). Places are counted from 0.
///
/// Refusals: `Length`, for a longer input; `Range`, for a place that is not below the input's length.
///
/// ```
/// use hpsdr::{explain, Reason, Refusal, FRAME};
///
/// // Three frames, of which the second lacks its last byte, and the sync of a fourth.
/// let mut input = [0x11; 3 * FRAME - 1 + 3];
/// for sync in [0, FRAME, 2 * FRAME - 1, 3 * FRAME - 1] {
///     input[sync..sync + 3].fill(0x7F);
/// }
/// assert_eq!(explain(&input, FRAME - 1)?, Reason::Inside { start: 0 });
///
/// // 512 bytes after the second's sync stand the last two bytes of the third's, and one more.
/// let reason = explain(&input, FRAME)?;
/// assert_eq!(reason, Reason::FarSync { byte: 2 });
/// assert_eq!(reason.to_string(), "skipped: byte 2 of the sync 512 bytes later is not 7F");
/// assert_eq!(input[FRAME + 512 + 2], 0x11);
///
/// assert_eq!(explain(&input, FRAME + 1)?, Reason::NearSync { byte: 2 });
/// assert_eq!(explain(&input, FRAME + 3)?, Reason::NearSync { byte: 0 });
/// assert_eq!(explain(&input, 2 * FRAME)?, Reason::Inside { start: 2 * FRAME - 1 });
/// assert_eq!(explain(&input, 3 * FRAME)?, Reason::Held);
/// assert_eq!(explain(&input, input.len()), Err(Refusal::Range));
/// # Ok::<(), hpsdr::Refusal>(())
/// ```
///
/// Of each place of an accepted input exactly one reason is true, and it is the one that is given. Over all its places the
/// reasons add up to what the reading gives: `Inside` is told 512 times for each frame handed out, `NearSync` and
/// `FarSync` together as often as bytes are skipped, `Held` as often as bytes are left. All this is proved of the
/// library's call.
///
/// It does not say that a frame handed out is a true one: see [`Frames`](crate::Frames). And it knows the input alone.
/// Where that is a part of a longer recording, let it begin at the first byte of the whole, or where a frame of the whole
/// was handed out: then its reading is that of the whole from there on, as far as the part goes. With any other beginning
/// the reading of the whole may come to other places. What is held at its end is held only because the input ends.
pub fn explain(input: &[u8], place: usize) -> Result<Reason, Refusal> {
    // SAFETY: the pointer and the number are those of one slice.
    let returned = unsafe { raw::hpsdr_why_byte(input.as_ptr(), input.len(), place) };
    let detail = (returned >> 32) as u32;
    found(returned as u32).map(|number| Reason::of(number, detail))
}
