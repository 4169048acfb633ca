//! Frames from the host.

use crate::contest::{Contest, Entry, Work};
use crate::machine::{self, machine_host_read};
use differential::cells::{self, BUILDER_MOST, HOST};
use differential::random::Random;
use hpsdr::raw;
use reference::{Builder, Host};
use std::hint::black_box;

type Frame = [u8; 512];
type Audio = [i16; AUDIO];

const AUDIO: usize = 252;
/// Six turns of the eleven words.
const FRAMES: usize = 66;

/// A builder of which every word differs from the fresh one's.
fn filled_builder() -> Builder {
    let mut cells = BUILDER_MOST;
    cells[cells::OUTPUTS] = 127;
    cells[cells::RECEIVERS] = 8;
    cells[cells::LINE_IN_GAIN] = 31;
    cells[cells::WORD10_C2_TOP] = 7;
    cells[cells::TURN] = 0;
    cells::builder(&cells).expect("the cells hold a record")
}

fn audio() -> Vec<Audio> {
    let mut random = Random::of_case(2, 0);
    let mut drawn = |_| std::array::from_fn(|_| random.number());
    (0..FRAMES).map(&mut drawn).collect()
}

fn frames() -> Vec<Frame> {
    let mut builder = filled_builder();
    let mut built = |audio: Audio| {
        let mut frame = [0; 512];
        reference::build(&mut builder, &audio, &mut frame).expect("the record fits");
        frame
    };
    audio().into_iter().map(&mut built).collect()
}

/// One contender's buffers, and what its last call found.
struct Buffers<R> {
    audio: Audio,
    host: R,
    found: u32,
}

impl<R> Buffers<R> {
    fn new(host: R) -> Buffers<R> {
        Buffers {
            audio: [0; AUDIO],
            host,
            found: 0,
        }
    }
}

fn host_cells(host: &Host) -> [u32; HOST] {
    let mut cells = [0; HOST];
    cells::host_into(host, &mut cells);
    cells
}

impl Buffers<[u32; HOST]> {
    #[inline(always)]
    fn read(&mut self, call: machine::HostRead, frame: &Frame) {
        // SAFETY: the slices are whole and apart.
        let returned = unsafe {
            call(
                frame.as_ptr(),
                frame.len(),
                self.audio.as_mut_ptr(),
                self.audio.len(),
                self.host.as_mut_ptr(),
                self.host.len(),
            )
        };
        self.found = returned >> 8;
    }
}

pub struct Read {
    library: Buffers<[u32; HOST]>,
    machine: Buffers<[u32; HOST]>,
    reference: Buffers<Host>,
}

impl Read {
    pub fn entry() -> Entry<Read> {
        let fresh = Host::fresh();
        Entry {
            name: "host read".into(),
            contest: Read {
                library: Buffers::new(host_cells(&fresh)),
                machine: Buffers::new(host_cells(&fresh)),
                reference: Buffers::new(fresh),
            },
            inputs: frames(),
            frames_a_call: 1.0,
            bytes_in: size_of::<Frame>(),
            bytes_out: size_of::<Audio>(),
        }
    }

    #[inline(never)]
    fn machine(&mut self, frame: &Frame) {
        self.machine.read(machine_host_read, frame);
    }
}

impl Contest for Read {
    type Input = Frame;
    const MACHINE: Option<Work<Read>> = Some(Read::machine);

    #[inline(never)]
    fn library(&mut self, frame: &Frame) {
        self.library.read(raw::hpsdr_host_read, frame);
    }

    #[inline(never)]
    fn reference(&mut self, frame: &Frame) {
        let Buffers { audio, host, found } = &mut self.reference;
        let answer = reference::host_read(frame, audio, host);
        *found = answer.map_or(u32::MAX, u32::from);
    }

    fn agree(&self) -> bool {
        let Buffers { audio, host, found } = &self.reference;
        [&self.library, &self.machine]
            .into_iter()
            .all(|door| (door.found, &door.audio, &door.host) == (*found, audio, &host_cells(host)))
    }
}

pub struct Build {
    cells: [u32; HOST + 1],
    builder: Builder,
    library: Frame,
    reference: Frame,
}

impl Build {
    pub fn entry() -> Entry<Build> {
        let (mut cells, builder) = ([0; HOST + 1], filled_builder());
        cells::builder_into(&builder, &mut cells);
        Entry {
            name: "build".into(),
            contest: Build {
                cells,
                builder,
                library: [0; 512],
                reference: [0; 512],
            },
            inputs: audio(),
            frames_a_call: 1.0,
            bytes_in: size_of::<Audio>(),
            bytes_out: size_of::<Frame>(),
        }
    }
}

impl Contest for Build {
    type Input = Audio;

    #[inline(never)]
    fn library(&mut self, audio: &Audio) {
        // SAFETY: the slices are whole and apart.
        black_box(unsafe {
            raw::hpsdr_build(
                self.cells.as_mut_ptr(),
                self.cells.len(),
                audio.as_ptr(),
                audio.len(),
                self.library.as_mut_ptr(),
                self.library.len(),
            )
        });
    }

    #[inline(never)]
    fn reference(&mut self, audio: &Audio) {
        let answer = reference::build(&mut self.builder, audio, &mut self.reference);
        let _ = black_box(answer);
    }

    fn agree(&self) -> bool {
        let turn = u32::from(self.builder.turn);
        self.library == self.reference && self.cells[cells::TURN] == turn
    }
}
