use crate::raw::{self, HELD};
use crate::refusal::{found, Refusal};

/// How far a reading has come.
#[repr(C)]
#[derive(Clone, Copy, Debug, PartialEq, Eq)]
pub struct Counts {
    /// Bytes held, at most 514.
    pub held: u64,
    /// Frames handed out.
    pub frames: u64,
    /// Bytes skipped.
    pub skipped: u64,
    /// Bytes fed, at most 2^48.
    pub total: u64,
}

/// The reader that finds radio frames in a stream of bytes: 512 of them that begin with sync, 7F 7F 7F, are a frame if
/// sync follows; otherwise one byte is skipped. For bytes that come from a file or a socket there is
/// [`frames`](crate::frames).
#[repr(C)]
#[derive(Clone, Debug, PartialEq, Eq)]
pub struct Stream {
    /// How far the reading has come.
    pub counts: Counts,
    /// The held bytes, and 0 after them.
    pub held: [u8; HELD],
}

impl Counts {
    fn cells(&self) -> *const u64 {
        (&raw const *self).cast()
    }

    fn cells_mut(&mut self) -> *mut u64 {
        (&raw mut *self).cast()
    }
}

impl Stream {
    /// The record of a stream of which nothing has been read.
    ///
    /// ```
    /// let stream = hpsdr::Stream::fresh();
    /// assert_eq!((stream.counts.held, stream.counts.total), (0, 0));
    /// assert_eq!(stream.held, [0; 514]);
    /// ```
    pub fn fresh() -> Stream {
        let counts = Counts {
            held: 0,
            frames: 0,
            skipped: 0,
            total: 0,
        };
        let mut stream = Stream {
            counts,
            held: [0; HELD],
        };
        // Refused for too few cells only, so there is no answer to look at.
        // SAFETY: the pointers are to a struct of `COUNTS_CELLS` cells and to an array, two fields which nothing else
        // has for the time of the call.
        unsafe {
            raw::hpsdr_stream_fresh(
                stream.counts.cells_mut(),
                raw::COUNTS_CELLS,
                stream.held.as_mut_ptr(),
                HELD,
            )
        };
        stream
    }

    /// Whether the record can be read on from: at most 514 bytes are held and those after them are 0, the total is at
    /// most 2^48, and 512 · frames + skipped + held = total in exact arithmetic.
    ///
    /// ```
    /// let mut stream = hpsdr::Stream::fresh();
    /// assert!(stream.sound());
    /// stream.counts.skipped = 1;
    /// assert!(!stream.sound());
    /// stream.counts.total = 1;
    /// assert!(stream.sound());
    /// ```
    pub fn sound(&self) -> bool {
        // SAFETY: the pointers are to a struct of `COUNTS_CELLS` cells and to an array, two fields which are only read.
        let got = unsafe {
            raw::hpsdr_stream_sound(
                self.counts.cells(),
                raw::COUNTS_CELLS,
                self.held.as_ptr(),
                HELD,
            )
        };
        found(got).is_ok()
    }

    /// Reads the held bytes and then the piece, of up to 4,096 bytes. The frames found stand at the start of the
    /// output, 512 bytes each, and their number is given, 0 to 8.
    ///
    /// Refusals: `BadState`, `Length`, `ShortBuffer`, `StreamFull`.
    ///
    /// ```
    /// use hpsdr::{Stream, FRAME, OUTPUT_LEAST};
    ///
    /// // A stray byte, a frame, and the sync of the next.
    /// let mut bytes = [0; 1 + FRAME + 3];
    /// bytes[1..4].fill(0x7F);
    /// bytes[1 + FRAME..].fill(0x7F);
    ///
    /// let (mut stream, mut output) = (Stream::fresh(), [0; OUTPUT_LEAST]);
    /// let (first, second) = bytes.split_at(300);
    /// assert_eq!(stream.feed(first, &mut output), Ok(0));
    /// assert_eq!(stream.feed(second, &mut output), Ok(1));
    /// assert_eq!(output[..FRAME], bytes[1..1 + FRAME]);
    /// assert_eq!((stream.counts.skipped, stream.counts.held), (1, 3));
    /// ```
    pub fn feed(&mut self, piece: &[u8], output: &mut [u8]) -> Result<usize, Refusal> {
        // SAFETY: each pointer and number are those of one slice or array, or of a struct of `COUNTS_CELLS` cells;
        // those to be written are borrowed for writing, so they overlap nothing.
        let got = unsafe {
            raw::hpsdr_stream_feed(
                self.counts.cells_mut(),
                raw::COUNTS_CELLS,
                self.held.as_mut_ptr(),
                HELD,
                piece.as_ptr(),
                piece.len(),
                output.as_mut_ptr(),
                output.len(),
            )
        };
        found(got).map(|frames| frames as usize)
    }
}
