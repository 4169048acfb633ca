//! Frames from the radio.

use crate::contest::{Contest, Entry, Work};
use crate::machine::{self, machine_radio_read};
use differential::cells::{self, STATUS_MOST};
use differential::random::Random;
use hpsdr::raw;
use reference::{row, Status};
use std::hint::black_box;

type Frame = [u8; 512];

const FRAMES: usize = 64;
const WORDS: usize = 5;

pub struct Samples {
    word: usize,
    iq: Vec<i32>,
    mic: Vec<i16>,
}

fn slots(receivers: usize) -> usize {
    row(receivers).expect("1 to 8 receivers").slots
}

fn samples(receivers: usize) -> Vec<Samples> {
    let (slots, mut random) = (slots(receivers), Random::of_case(1, receivers as u64));
    let drawn = |word| {
        let iq: Vec<i32> = random.many(2 * receivers * slots);
        Samples {
            word: word % WORDS,
            iq: iq.iter().map(|sample| sample >> 8).collect(),
            mic: random.many(slots),
        }
    };
    (0..FRAMES).map(drawn).collect()
}

fn bytes_of_samples(receivers: usize) -> usize {
    slots(receivers) * (2 * receivers * size_of::<i32>() + size_of::<i16>())
}

fn fresh_cells() -> [u32; 26] {
    let mut cells = [0; STATUS_MOST.len()];
    cells::status_into(&Status::fresh(), &mut cells);
    cells
}

/// A record whose levels differ, and are accepted: the greatest is 4,095.
fn told() -> Status {
    Status {
        ain5: 4_095,
        ain1: 4_091,
        ain2: 4_092,
        ain3: 4_093,
        ain4: 4_094,
        ain6: 1_006,
        ..Status::fresh()
    }
}

fn frames(receivers: usize) -> Vec<Frame> {
    let written = |samples: Samples| {
        let Samples { word, iq, mic } = samples;
        let mut frame = [0; 512];
        let answer = reference::radio_write(&told(), word, receivers, &iq, &mic, &mut frame);
        answer.expect("the samples and the record fit");
        frame
    };
    samples(receivers).into_iter().map(written).collect()
}

/// One contender's buffers, and what its last call found.
struct Buffers<R> {
    iq: Vec<i32>,
    mic: Vec<i16>,
    status: R,
    found: u32,
}

impl<R> Buffers<R> {
    fn new(receivers: usize, frames: usize, status: R) -> Buffers<R> {
        let slots = frames * slots(receivers);
        Buffers {
            iq: vec![0; 2 * receivers * slots],
            mic: vec![0; slots],
            status,
            found: 0,
        }
    }
}

impl Buffers<[u32; 26]> {
    #[inline(always)]
    fn read(&mut self, call: machine::RadioRead, receivers: usize, input: &[u8]) {
        self.found = self.read_to_slot(0, call, receivers, input) >> 8;
    }

    /// What the call returns. Its values go behind those of so many slots.
    #[inline(always)]
    fn read_to_slot(
        &mut self,
        slot: usize,
        call: machine::RadioRead,
        receivers: usize,
        input: &[u8],
    ) -> u32 {
        let (iq, mic) = (&mut self.iq[2 * receivers * slot..], &mut self.mic[slot..]);
        // SAFETY: the slices are whole and apart.
        unsafe {
            call(
                input.as_ptr(),
                input.len(),
                receivers,
                iq.as_mut_ptr(),
                iq.len(),
                mic.as_mut_ptr(),
                mic.len(),
                self.status.as_mut_ptr(),
                self.status.len(),
            )
        }
    }

    /// Whether the call left and found what the reference did.
    fn agrees(&self, reference: &Buffers<Status>) -> bool {
        let mut cells = [0; STATUS_MOST.len()];
        cells::status_into(&reference.status, &mut cells);
        let (iq, mic) = (&reference.iq, &reference.mic);
        (self.found, &self.iq, &self.mic, &self.status) == (reference.found, iq, mic, &cells)
    }
}

pub struct Read {
    receivers: usize,
    library: Buffers<[u32; 26]>,
    machine: Buffers<[u32; 26]>,
    reference: Buffers<Status>,
}

impl Read {
    pub fn entry(receivers: usize) -> Entry<Read> {
        Entry {
            name: format!("radio read, {receivers}"),
            contest: Read {
                receivers,
                library: Buffers::new(receivers, 1, fresh_cells()),
                machine: Buffers::new(receivers, 1, fresh_cells()),
                reference: Buffers::new(receivers, 1, Status::fresh()),
            },
            inputs: frames(receivers),
            frames_a_call: 1.0,
            bytes_in: size_of::<Frame>(),
            bytes_out: bytes_of_samples(receivers),
        }
    }

    #[inline(never)]
    fn machine(&mut self, frame: &Frame) {
        self.machine.read(machine_radio_read, self.receivers, frame);
    }
}

impl Contest for Read {
    type Input = Frame;
    const MACHINE: Option<Work<Read>> = Some(Read::machine);

    #[inline(never)]
    fn library(&mut self, frame: &Frame) {
        self.library
            .read(raw::hpsdr_radio_read, self.receivers, frame);
    }

    #[inline(never)]
    fn reference(&mut self, frame: &Frame) {
        let Buffers {
            iq,
            mic,
            status,
            found,
        } = &mut self.reference;
        let answer = reference::radio_read(frame, self.receivers, iq, mic, status);
        *found = answer.map_or(u32::MAX, u32::from);
    }

    fn agree(&self) -> bool {
        self.library.agrees(&self.reference) && self.machine.agrees(&self.reference)
    }
}

/// Those of a transfer, one after another.
type Frames = Box<[u8]>;

const FRAMES_A_TRANSFER: usize = 8;

pub struct Transfer {
    receivers: usize,
    slots: usize,
    library: Buffers<[u32; 26]>,
    singles: Buffers<[u32; 26]>,
    reference: Buffers<Status>,
}

impl Transfer {
    pub fn entry(receivers: usize) -> Entry<Transfer> {
        let frames = frames(receivers);
        let transfers = frames.chunks_exact(FRAMES_A_TRANSFER);
        Entry {
            name: format!("radio read transfer, {receivers}"),
            contest: Transfer {
                receivers,
                slots: slots(receivers),
                library: Buffers::new(receivers, FRAMES_A_TRANSFER, fresh_cells()),
                singles: Buffers::new(receivers, FRAMES_A_TRANSFER, fresh_cells()),
                reference: Buffers::new(receivers, FRAMES_A_TRANSFER, Status::fresh()),
            },
            inputs: transfers.map(|frames| frames.concat().into()).collect(),
            frames_a_call: FRAMES_A_TRANSFER as f64,
            bytes_in: FRAMES_A_TRANSFER * size_of::<Frame>(),
            bytes_out: FRAMES_A_TRANSFER * bytes_of_samples(receivers),
        }
    }

    /// The loop that a caller writes around the single read.
    #[inline(never)]
    fn singles(&mut self, input: &Frames) {
        let (receivers, call) = (self.receivers, raw::hpsdr_radio_read);
        self.singles.found = 0;
        for (number, frame) in input.chunks_exact(size_of::<Frame>()).enumerate() {
            let slot = number * self.slots;
            if self.singles.read_to_slot(slot, call, receivers, frame) & 0xff != 0 {
                return;
            }
            self.singles.found += 1;
        }
    }
}

impl Contest for Transfer {
    type Input = Frames;
    const SINGLES: Option<Work<Transfer>> = Some(Transfer::singles);

    #[inline(never)]
    fn library(&mut self, input: &Frames) {
        self.library
            .read(raw::hpsdr_radio_read_transfer, self.receivers, input);
    }

    #[inline(never)]
    fn reference(&mut self, input: &Frames) {
        let own = &mut self.reference;
        let (iq, mic) = (&mut own.iq, &mut own.mic);
        let read = reference::radio_read_transfer(input, self.receivers, iq, mic, &mut own.status);
        own.found = read.map_or(u32::MAX, |frames| frames as u32);
    }

    fn agree(&self) -> bool {
        self.library.agrees(&self.reference) && self.singles.agrees(&self.reference)
    }
}

pub struct Write {
    receivers: usize,
    cells: [u32; 26],
    status: Status,
    library: Frame,
    reference: Frame,
}

impl Write {
    pub fn entry(receivers: usize) -> Entry<Write> {
        Entry {
            name: format!("radio write, {receivers}"),
            contest: Write {
                receivers,
                cells: fresh_cells(),
                status: Status::fresh(),
                library: [0; 512],
                reference: [0; 512],
            },
            inputs: samples(receivers),
            frames_a_call: 1.0,
            bytes_in: bytes_of_samples(receivers),
            bytes_out: size_of::<Frame>(),
        }
    }
}

impl Contest for Write {
    type Input = Samples;

    #[inline(never)]
    fn library(&mut self, samples: &Samples) {
        // SAFETY: the slices are whole and apart.
        black_box(unsafe {
            raw::hpsdr_radio_write(
                self.cells.as_ptr(),
                self.cells.len(),
                samples.word,
                self.receivers,
                samples.iq.as_ptr(),
                samples.iq.len(),
                samples.mic.as_ptr(),
                samples.mic.len(),
                self.library.as_mut_ptr(),
                self.library.len(),
            )
        });
    }

    #[inline(never)]
    fn reference(&mut self, samples: &Samples) {
        let Samples { word, iq, mic } = samples;
        let (receivers, frame) = (self.receivers, &mut self.reference);
        let answer = reference::radio_write(&self.status, *word, receivers, iq, mic, frame);
        let _ = black_box(answer);
    }

    fn agree(&self) -> bool {
        self.library == self.reference && self.library.starts_with(&[0x7f; 3])
    }
}
