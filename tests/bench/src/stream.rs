//! The stream reader, fed with pieces of 4,096 bytes, and of 512, with which a call hands out at most one frame.

use crate::contest::{Contest, Entry, Work};
use crate::machine::{self, machine_stream_feed};
use differential::cells::{self, COUNTS, HELD};
use differential::random::Random;
use hpsdr::raw;
use reference::Stream;

pub const PIECE: usize = 4096;
const PIECES: usize = 50;
pub const FRAME: usize = 512;
const SYNC: [u8; 3] = [0x7f; 3];

type Piece = Box<[u8]>;

/// As many bytes as fill the pieces, so that after the last the first goes on with whole frames.
pub fn noise() -> Vec<u8> {
    Random::of_case(3, 0).bytes(PIECES * PIECE)
}

pub fn clean() -> Vec<u8> {
    let mut bytes = noise();
    for frame in bytes.chunks_exact_mut(FRAME) {
        frame[..SYNC.len()].copy_from_slice(&SYNC);
    }
    bytes
}

/// Every hundredth frame has lost its sync.
pub fn damaged() -> Vec<u8> {
    let mut bytes = clean();
    for frame in bytes.chunks_exact_mut(FRAME).skip(99).step_by(100) {
        frame[0] = 0;
    }
    bytes
}

/// One contender's record and output, and what its last call found.
struct Buffers<R> {
    record: R,
    output: [u8; PIECE],
    found: u32,
}

pub type Cells = ([u64; COUNTS], [u8; HELD]);

pub const FRESH: Cells = ([0; COUNTS], [0; HELD]);

/// Gives the number of frames handed out.
#[inline(always)]
pub fn feed(
    call: machine::StreamFeed,
    (counts, held): &mut Cells,
    piece: &[u8],
    output: &mut [u8],
) -> u32 {
    // SAFETY: the slices are whole and apart.
    let returned = unsafe {
        call(
            counts.as_mut_ptr(),
            counts.len(),
            held.as_mut_ptr(),
            held.len(),
            piece.as_ptr(),
            piece.len(),
            output.as_mut_ptr(),
            output.len(),
        )
    };
    returned >> 8
}

impl<R> Buffers<R> {
    fn new(record: R) -> Buffers<R> {
        Buffers {
            record,
            output: [0; PIECE],
            found: 0,
        }
    }
}

impl Buffers<Cells> {
    #[inline(always)]
    fn feed(&mut self, call: machine::StreamFeed, piece: &Piece) {
        self.found = feed(call, &mut self.record, piece, &mut self.output);
    }
}

pub struct Feed {
    library: Buffers<Cells>,
    machine: Buffers<Cells>,
    reference: Buffers<Stream>,
}

impl Feed {
    /// The bytes out are those of the frames handed out and of the held bytes.
    fn entry(name: &str, bytes: Vec<u8>, piece: usize, bytes_out: usize) -> Entry<Feed> {
        Entry {
            name: format!("stream feed, {name}"),
            contest: Feed {
                library: Buffers::new(FRESH),
                machine: Buffers::new(FRESH),
                reference: Buffers::new(Stream::fresh()),
            },
            inputs: bytes.chunks_exact(piece).map(Piece::from).collect(),
            frames_a_call: (piece / FRAME) as f64,
            bytes_in: piece,
            bytes_out,
        }
    }

    pub fn entries() -> [Entry<Feed>; 4] {
        [
            Feed::entry("clean", clean(), PIECE, PIECE + HELD),
            Feed::entry("damaged", damaged(), PIECE, PIECE + HELD),
            Feed::entry("noise", noise(), PIECE, HELD),
            Feed::entry("clean, a frame a call", clean(), FRAME, FRAME + HELD),
        ]
    }

    #[inline(never)]
    fn machine(&mut self, piece: &Piece) {
        self.machine.feed(machine_stream_feed, piece);
    }
}

impl Contest for Feed {
    type Input = Piece;
    const MACHINE: Option<Work<Feed>> = Some(Feed::machine);

    #[inline(never)]
    fn library(&mut self, piece: &Piece) {
        self.library.feed(raw::hpsdr_stream_feed, piece);
    }

    #[inline(never)]
    fn reference(&mut self, piece: &Piece) {
        let Buffers {
            record,
            output,
            found,
        } = &mut self.reference;
        *found = record
            .feed(piece, output)
            .map_or(u32::MAX, |frames| frames as u32);
    }

    fn agree(&self) -> bool {
        let Buffers {
            record,
            output,
            found,
        } = &self.reference;
        let (mut counts, mut held) = FRESH;
        cells::stream_into(record, &mut counts, &mut held);
        [&self.library, &self.machine].into_iter().all(|door| {
            (door.found, &door.record, &door.output) == (*found, &(counts, held), output)
        })
    }
}
