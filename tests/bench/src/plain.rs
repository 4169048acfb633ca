//! The plain reader on its longest input; and the stream reader on the same, from fresh and in pieces of 4,096.

use crate::contest::{Contest, Entry, Work};
use crate::machine::{self, machine_plain_read};
use crate::stream::{clean, damaged, feed, noise, FRAME, FRESH, PIECE};
use differential::model::{self, Parts};
use hpsdr::raw;
use reference::INPUT_MOST;

type Input = Box<[u8]>;

const FRAMES_MOST: usize = 127;

/// One contender's output, and what its last call returned.
#[derive(PartialEq)]
struct Buffers {
    output: Vec<u8>,
    returned: u64,
}

impl Buffers {
    /// Behind the last frame that the stream reader hands out it still asks for as much as a piece has.
    fn new() -> Buffers {
        Buffers {
            output: vec![0; INPUT_MOST + PIECE],
            returned: 0,
        }
    }

    #[inline(always)]
    fn read(&mut self, call: machine::PlainRead, input: &Input) {
        let output = &mut self.output;
        // SAFETY: the slices are whole and apart.
        self.returned = unsafe {
            call(
                input.as_ptr(),
                input.len(),
                output.as_mut_ptr(),
                output.len(),
            )
        };
    }
}

pub struct Read {
    library: Buffers,
    machine: Buffers,
    singles: Buffers,
    reference: Buffers,
}

impl Read {
    fn entry(name: &str, bytes: Vec<u8>, bytes_out: usize) -> Entry<Read> {
        Entry {
            name: format!("plain read, {name}"),
            contest: Read {
                library: Buffers::new(),
                machine: Buffers::new(),
                singles: Buffers::new(),
                reference: Buffers::new(),
            },
            inputs: bytes.chunks_exact(INPUT_MOST).map(Input::from).collect(),
            frames_a_call: (INPUT_MOST / FRAME) as f64,
            bytes_in: INPUT_MOST,
            bytes_out,
        }
    }

    pub fn entries() -> [Entry<Read>; 3] {
        [
            Read::entry("clean", clean(), FRAMES_MOST * FRAME),
            Read::entry("damaged", damaged(), FRAMES_MOST * FRAME),
            Read::entry("noise", noise(), 0),
        ]
    }

    #[inline(never)]
    fn machine(&mut self, input: &Input) {
        self.machine.read(machine_plain_read, input);
    }

    /// The loop that a caller writes around the stream reader.
    #[inline(never)]
    fn singles(&mut self, input: &Input) {
        let (mut record, mut found) = (FRESH, 0);
        for piece in input.chunks(PIECE) {
            let output = &mut self.singles.output[found as usize * FRAME..];
            found += feed(raw::hpsdr_stream_feed, &mut record, piece, output);
        }
        let ([held, _, skipped, _], _) = record;
        let parts = Parts {
            found,
            skipped: skipped as u32,
            left: held as u32,
            ..Parts::default()
        };
        self.singles.returned = parts.returned();
    }
}

impl Contest for Read {
    type Input = Input;
    const MACHINE: Option<Work<Read>> = Some(Read::machine);
    const SINGLES: Option<Work<Read>> = Some(Read::singles);

    #[inline(never)]
    fn library(&mut self, input: &Input) {
        self.library.read(raw::hpsdr_plain_read, input);
    }

    #[inline(never)]
    fn reference(&mut self, input: &Input) {
        let Buffers { output, returned } = &mut self.reference;
        *returned = model::plain_read(input, output);
    }

    fn agree(&self) -> bool {
        let others = [&self.library, &self.machine, &self.singles];
        others.into_iter().all(|other| *other == self.reference)
    }
}
