//! The stream reader: frames out of bytes that come in pieces.

use crate::frame::{FRAME, SYNC};
use crate::refusal::Refusal;

/// The most bytes a piece may have, and the least an output must have.
pub const MOST: usize = 4096;

/// The bytes that settle whether a place begins a good frame.
pub(crate) const WINDOW: usize = FRAME + SYNC.len();
/// The most bytes held: one too few to settle a place.
const HELD: usize = WINDOW - 1;
const TOTAL_MOST: u64 = 1 << 48;

/// A stream reader between two pieces.
#[derive(Clone, Copy, Debug, PartialEq, Eq)]
pub struct Stream {
    /// The bytes not yet settled; cells from `count` on are zero.
    pub held: [u8; 514],
    /// How many bytes are held.
    pub count: usize,
    /// Frames handed out so far.
    pub frames: u64,
    /// One-byte steps taken so far.
    pub skipped: u64,
    /// Bytes fed so far.
    pub total: u64,
}

impl Stream {
    /// A reader that has been fed nothing.
    pub fn fresh() -> Stream {
        Stream {
            held: [0; HELD],
            count: 0,
            frames: 0,
            skipped: 0,
            total: 0,
        }
    }

    /// Whether the record is one that the reading can be continued from.
    #[inline]
    pub fn sound(&self) -> bool {
        let Some(past) = self.held.get(self.count..) else {
            return false;
        };
        let accounted =
            FRAME as u128 * u128::from(self.frames) + u128::from(self.skipped) + self.count as u128;
        self.total <= TOTAL_MOST
            && accounted == u128::from(self.total)
            && past.iter().all(|&cell| cell == 0)
    }

    /// Reads the held bytes followed by `piece`. The good frames stand at the
    /// start of `output`, and `Ok` is their number.
    ///
    /// Refused: 1 if the record is unsound, 3 if the piece is above [`MOST`],
    /// 4 if the output is below it, 5 if the total would pass 2^48.
    pub fn feed(&mut self, piece: &[u8], output: &mut [u8]) -> Result<usize, Refusal> {
        if !self.sound() {
            return Err(Refusal::BadState);
        }
        if piece.len() > MOST {
            return Err(Refusal::Length);
        }
        if output.len() < MOST {
            return Err(Refusal::ShortBuffer);
        }
        let total = self.total + piece.len() as u64;
        if total > TOTAL_MOST {
            return Err(Refusal::StreamFull);
        }
        self.total = total;
        if self.count + piece.len() <= HELD {
            self.append(piece);
            return Ok(0);
        }
        Ok(self.read(piece, output))
    }

    fn append(&mut self, piece: &[u8]) {
        let end = self.count + piece.len();
        self.held[self.count..end].copy_from_slice(piece);
        self.count = end;
    }

    /// Reads first the places that lie in the held bytes, then those in the
    /// piece, where it stands.
    fn read(&mut self, piece: &[u8], output: &mut [u8]) -> usize {
        let mut junction = [0; 2 * HELD];
        let joined = self.join(piece, &mut junction);
        let mut reading = Reading::new(output);
        let unread = reading.read(joined);
        let place = joined.len() - unread.len();
        // A place left in the held bytes means that the whole piece is joined.
        let rest = match place.checked_sub(self.count) {
            None => unread,
            Some(start) => reading.read(&piece[start..]),
        };
        self.frames += reading.frames as u64;
        self.skipped += reading.skipped;
        self.hold(rest);
        reading.frames
    }

    /// The held bytes and as much of the piece as settles all their places,
    /// and none of the piece's.
    fn join<'a>(&self, piece: &[u8], junction: &'a mut [u8; 2 * HELD]) -> &'a [u8] {
        let taken = piece.len().min(HELD);
        let end = self.count + taken;
        junction[..self.count].copy_from_slice(&self.held[..self.count]);
        junction[self.count..end].copy_from_slice(&piece[..taken]);
        &junction[..end]
    }

    fn hold(&mut self, rest: &[u8]) {
        let (kept, past) = self.held.split_at_mut(rest.len());
        kept.copy_from_slice(rest);
        past.fill(0);
        self.count = rest.len();
    }
}

/// What one call has read so far.
struct Reading<'a> {
    output: &'a mut [u8],
    frames: usize,
    skipped: u64,
}

impl Reading<'_> {
    fn new(output: &mut [u8]) -> Reading<'_> {
        Reading {
            output,
            frames: 0,
            skipped: 0,
        }
    }

    /// Reads by the scope's rule; gives the bytes left when fewer than 515
    /// remain.
    fn read<'b>(&mut self, bytes: &'b [u8]) -> &'b [u8] {
        let mut rest = bytes;
        while let Some(window) = rest.first_chunk::<WINDOW>() {
            if begins_good_frame(window) {
                self.hand_out(&window[..FRAME]);
                rest = &rest[FRAME..];
            } else {
                self.skipped += 1;
                rest = &rest[1..];
            }
        }
        rest
    }

    fn hand_out(&mut self, frame: &[u8]) {
        let start = self.frames * FRAME;
        self.output[start..start + FRAME].copy_from_slice(frame);
        self.frames += 1;
    }
}

#[inline]
pub(crate) fn begins_good_frame(window: &[u8; WINDOW]) -> bool {
    window[..SYNC.len()] == SYNC && window[FRAME..] == SYNC
}
