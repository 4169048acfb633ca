use crate::raw;
use crate::refusal::{found, Refusal};

/// What [`read_at_once`] made of an input: 512 · frames + skipped + left is its length.
#[derive(Clone, Copy, Debug, PartialEq, Eq)]
pub struct PlainReading {
    /// Frames handed out, 0 to 127.
    pub frames: usize,
    /// Bytes skipped, at most 65,022.
    pub skipped: usize,
    /// Bytes left at the end of the input, at most 514.
    pub left: usize,
}

/// Reads an input of up to 65,536 bytes at once, place by place from its first byte, by the rule of the
/// [stream reader](crate::Stream), with no record and no held bytes. The frames found stand at the start of the output,
/// 512 bytes each, and the rest of it is as before.
///
/// Refusals: `Length`, for a longer input; `ShortBuffer`, for an output shorter than the input.
///
/// ```
/// use hpsdr::{read_at_once, PlainReading, FRAME};
///
/// // A stray byte, a frame, and the sync of the next.
/// let mut input = [0; 1 + FRAME + 3];
/// input[1..4].fill(0x7F);
/// input[1 + FRAME..].fill(0x7F);
///
/// let mut output = [0xEE; 1 + FRAME + 3];
/// let reading = read_at_once(&input, &mut output)?;
/// assert_eq!(reading, PlainReading { frames: 1, skipped: 1, left: 3 });
/// assert_eq!(output[..FRAME], input[1..1 + FRAME]);
/// assert_eq!(output[FRAME..], [0xEE; 4]);
/// # Ok::<(), hpsdr::Refusal>(())
/// ```
///
/// It is there to be held against the stream reader, whose code is harder to follow. Cut an accepted input into pieces
/// anywhere, and feed them in their order to a stream that began fresh. If no piece is refused, the two give the same
/// frames in the same order and the same number of bytes skipped, and the bytes that the stream then holds are the last
/// `left` of the input. That is proved of the library's calls.
///
/// ```
/// use hpsdr::{read_at_once, Stream, FRAME, OUTPUT_LEAST};
///
/// // Three frames, of which the second lacks its last byte, and the sync of a fourth.
/// let mut input = [0x11; 3 * FRAME - 1 + 3];
/// for sync in [0, FRAME, 2 * FRAME - 1, 3 * FRAME - 1] {
///     input[sync..sync + 3].fill(0x7F);
/// }
/// let mut at_once = [0; 3 * FRAME - 1 + 3];
/// let reading = read_at_once(&input, &mut at_once)?;
/// assert_eq!((reading.frames, reading.skipped, reading.left), (2, FRAME - 1, 3));
///
/// let (mut stream, mut output, mut in_pieces) = (Stream::fresh(), [0; OUTPUT_LEAST], Vec::new());
/// for piece in input.chunks(100) {
///     let frames = stream.feed(piece, &mut output)?;
///     in_pieces.extend_from_slice(&output[..FRAME * frames]);
/// }
/// assert_eq!(in_pieces, at_once[..FRAME * reading.frames]);
/// assert_eq!(stream.counts.skipped, reading.skipped as u64);
/// assert_eq!(stream.counts.held, reading.left as u64);
/// assert_eq!(stream.held[..reading.left], input[input.len() - reading.left..]);
/// # Ok::<(), hpsdr::Refusal>(())
/// ```
///
/// The last frame of a recording is among the bytes left, unless sync follows it in the input, or what was handed out as
/// a frame before it took its beginning. How that can be, and what is promised nevertheless, is told of
/// [`Frames`](crate::Frames), and holds here too, of an input that is accepted.
pub fn read_at_once(input: &[u8], output: &mut [u8]) -> Result<PlainReading, Refusal> {
    // SAFETY: each pointer and number are those of one slice; the output is borrowed for writing, so it overlaps nothing.
    let returned = unsafe {
        raw::hpsdr_plain_read(
            input.as_ptr(),
            input.len(),
            output.as_mut_ptr(),
            output.len(),
        )
    };
    let count_from = |bit: u32| (returned >> bit & 0xFFFF) as usize;
    found(returned as u32).map(|frames| PlainReading {
        frames: frames as usize,
        skipped: count_from(32),
        left: count_from(48),
    })
}
