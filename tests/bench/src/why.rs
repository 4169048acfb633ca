//! Why the last byte of the longest input was thrown out, for which all of it is read; and the plain reader on the same.

use crate::contest::{Contest, Entry, Work};
use crate::stream::{clean, damaged, noise, FRAME};
use differential::model;
use hpsdr::raw;
use reference::INPUT_MOST;

type Input = Box<[u8]>;

const LAST: usize = INPUT_MOST - 1;
/// What is returned of a byte that is held.
const HELD: u64 = 4 << 8;

/// What each contender's last call returned, and the output that a plain reading wants.
pub struct Byte {
    library: u64,
    singles: u64,
    reference: u64,
    output: Vec<u8>,
}

impl Byte {
    fn entry(name: &str, bytes: Vec<u8>) -> Entry<Byte> {
        Entry {
            name: format!("why byte, {name}"),
            contest: Byte {
                library: 0,
                singles: 0,
                reference: 0,
                output: vec![0; INPUT_MOST],
            },
            inputs: bytes.chunks_exact(INPUT_MOST).map(Input::from).collect(),
            frames_a_call: (INPUT_MOST / FRAME) as f64,
            bytes_in: INPUT_MOST,
            bytes_out: 0,
        }
    }

    pub fn entries() -> [Entry<Byte>; 3] {
        [
            Byte::entry("clean", clean()),
            Byte::entry("damaged", damaged()),
            Byte::entry("noise", noise()),
        ]
    }

    /// Where bytes are left, the last one is held.
    #[inline(never)]
    fn singles(&mut self, input: &Input) {
        let output = &mut self.output;
        // SAFETY: the slices are whole and apart.
        let returned = unsafe {
            raw::hpsdr_plain_read(
                input.as_ptr(),
                input.len(),
                output.as_mut_ptr(),
                output.len(),
            )
        };
        self.singles = if returned >> 48 > 0 { HELD } else { 0 };
    }
}

impl Contest for Byte {
    type Input = Input;
    const SINGLES: Option<Work<Byte>> = Some(Byte::singles);

    #[inline(never)]
    fn library(&mut self, input: &Input) {
        // SAFETY: the slice is whole.
        self.library = unsafe { raw::hpsdr_why_byte(input.as_ptr(), input.len(), LAST) };
    }

    #[inline(never)]
    fn reference(&mut self, input: &Input) {
        self.reference = model::why_byte(input, LAST);
    }

    fn agree(&self) -> bool {
        self.library == self.reference && self.singles == self.reference
    }
}
