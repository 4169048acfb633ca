use crate::{Counts, Stream, FRAME, OUTPUT_LEAST};
use std::io::{self, BufRead, BufReader, ErrorKind, Read};

/// The most bytes that the reader is asked for at a time.
const BLOCK: usize = 64 * 1024;

/// The most bytes that are fed at a time. With at most 514 held there are then at most 1,026, so a call hands out at
/// most one frame, and leaves at most 514 bytes behind it, of which none can be skipped in that call.
const PIECE: usize = 512;

/// The radio frames in the bytes of a reader, an iterator, which [`frames`] makes.
///
/// A frame is released by the [stream's](Stream) rule and not otherwise: three bytes of sync begin it, and three have
/// come after it. Nothing is fed but what the reader gives, so the last frame of a recording stays held unless sync
/// follows it in the recording. A caller who decides that the end of a recording ends a frame gives the sync too:
///
/// ```
/// use hpsdr::{frames, FRAME};
/// use std::io::Read;
///
/// // Two frames.
/// let mut bytes = [0; 2 * FRAME];
/// bytes[..3].fill(0x7F);
/// bytes[FRAME..FRAME + 3].fill(0x7F);
/// let recording = bytes.as_slice();
///
/// assert_eq!(frames(recording).count(), 1);
/// assert_eq!(frames(recording.chain(&[0x7F; 3][..])).count(), 2);
/// ```
///
/// The rule does not look at what stands between the two syncs. Where bytes were lost or added, a 7F 7F 7F that is no
/// sync can stand where one is looked for, and what is handed out there is no frame that was sent. So a frame directly
/// before or after skipped bytes, which [`counts`](Frames::counts) tells, or inside which another good frame begins, is in
/// doubt, though it may be a true one. Where just 512 bytes were lost, or a multiple, there is no sign at all: no frame
/// carries a number.
///
/// What is promised nevertheless, of all that has been fed, whatever its bytes are. A place begins a good frame if sync
/// stands there and again 512 bytes later. A good frame that is not handed out is overlapped by one that is, and that
/// begins at one of the up to 511 places before it. And if a place begins a good frame and none of the up to 511 places
/// before it does, then that frame is handed out, and so is each good frame that follows directly, in their order and
/// unaltered. That is proved of the library's calls. It does not say that a frame handed out is a true one.
///
/// # Ends and errors
///
/// At the reader's end the iterator gives `None`, and a later call asks the reader again, which may have more by then.
/// An interrupted read is tried again at once. Another error of the reader is given as it came, and a later call asks
/// the reader again: everything that was read before the error has been fed, and the reading goes on from there.
///
/// When a piece would bring the bytes fed above 2^48, the refusal [`StreamFull`](crate::Refusal::StreamFull) is given
/// as an error; the piece is not fed, and every later call gives the same.
///
/// The reader is asked for up to 64 KiB at a time, and not again before all that it gave is fed. What was read and not
/// yet fed is lost with the iterator.
#[derive(Debug)]
pub struct Frames<R> {
    reader: BufReader<R>,
    stream: Stream,
    output: [u8; OUTPUT_LEAST],
    place: Option<u64>,
}

/// The radio frames in the bytes of a reader: a file, a socket, standard input, a slice of bytes.
///
/// ```
/// use hpsdr::{frames, FRAME};
///
/// // A stray byte, a frame, and the sync of the next.
/// let mut bytes = [0; 1 + FRAME + 3];
/// bytes[1..4].fill(0x7F);
/// bytes[1 + FRAME..].fill(0x7F);
///
/// let mut frames = frames(bytes.as_slice());
/// assert_eq!(frames.next().unwrap()?, bytes[1..1 + FRAME]);
/// assert_eq!(frames.place(), Some(1));
/// assert_eq!(frames.counts().skipped, 1);
/// assert!(frames.next().is_none());
/// # Ok::<(), std::io::Error>(())
/// ```
pub fn frames<R: Read>(reader: R) -> Frames<R> {
    Frames {
        reader: BufReader::with_capacity(BLOCK, reader),
        stream: Stream::fresh(),
        output: [0; OUTPUT_LEAST],
        place: None,
    }
}

impl<R> Frames<R> {
    /// How far the reading has come. Asked for directly after a frame, `frames` and `skipped` are those up to that
    /// frame: bytes were skipped directly before it if and only if `skipped` has risen since the frame before, or since
    /// the beginning. The bytes that have been fed and stand after it are the `held` ones.
    ///
    /// After the end, `held` bytes are left of which no frame was made, and `skipped` counts those skipped after the
    /// last frame too.
    pub fn counts(&self) -> Counts {
        self.stream.counts
    }

    /// Where the last frame that was handed out begins, in bytes from the beginning of the input; none before the
    /// first frame. It is 512 · (frames - 1) + skipped, by the [counts](Frames::counts) directly after that frame.
    pub fn place(&self) -> Option<u64> {
        self.place
    }

    fn hand_out(&mut self) -> [u8; FRAME] {
        let counts = self.counts();
        self.place = Some(FRAME as u64 * (counts.frames - 1) + counts.skipped);
        let mut frame = [0; FRAME];
        frame.copy_from_slice(&self.output[..FRAME]);
        frame
    }
}

impl<R: Read> Frames<R> {
    /// Feeds the next piece. The number of frames that it gives, 0 or 1; none at the reader's end.
    fn feed(&mut self) -> io::Result<Option<usize>> {
        let read = self.reader.fill_buf()?;
        let length = read.len().min(PIECE);
        let found = self.stream.feed(&read[..length], &mut self.output)?;
        self.reader.consume(length);
        Ok((length > 0).then_some(found))
    }
}

impl<R: Read> Iterator for Frames<R> {
    type Item = io::Result<[u8; FRAME]>;

    fn next(&mut self) -> Option<io::Result<[u8; FRAME]>> {
        loop {
            match self.feed() {
                Ok(None) => return None,
                Ok(Some(0)) => {}
                Ok(Some(_)) => return Some(Ok(self.hand_out())),
                Err(error) if error.kind() == ErrorKind::Interrupted => {}
                Err(error) => return Some(Err(error)),
            }
        }
    }
}

#[cfg(test)]
mod tests {
    use super::frames;
    use crate::Refusal;

    /// 2^48 bytes are too many to be read here, so the counts are set.
    #[test]
    fn a_full_stream() {
        let mut frames = frames([0; 601].as_slice());
        let counts = &mut frames.stream.counts;
        counts.total = (1 << 48) - 600;
        counts.skipped = counts.total;
        // The first piece, of 512 bytes, goes in; the second, of 89, is one byte too long.
        for _ in 0..2 {
            let error = frames.next().unwrap().unwrap_err();
            assert_eq!(error.downcast::<Refusal>().unwrap(), Refusal::StreamFull);
            assert_eq!(frames.counts().total, (1 << 48) - 88);
        }
    }
}
