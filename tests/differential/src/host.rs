//! Frames from the host, read and built.

use crate::both;
use crate::case::{outcome, Call, Case, Draw, Outcome, Part, Twist};
use crate::cells::{
    self, BUILDER_MOST, HOST, HOST_MOST, LINE_IN_GAIN, OUTPUTS, RECEIVERS, TURN, WORD10_C2_TOP,
};
use crate::flaw::Flaw;
use crate::lent::Guards;
use crate::slots;
use crate::twist::{
    cell_count, cell_value, damage, damage_sync, frame_length, slice_length, valid_cells,
    valid_numbers, FRAME, SYNC,
};
use std::ops::RangeInclusive;

pub const AUDIO: usize = 252;
/// The words that are listed: 0 to 10.
const WORDS: usize = 11;

/// Where C0 stands in a frame.
const CONTROL: usize = 3;

const TURNS: [u32; 20] = [
    0,
    1,
    2,
    3,
    4,
    5,
    6,
    7,
    8,
    9,
    10,
    11,
    12,
    255,
    256,
    257,
    265,
    266,
    1 << 31,
    u32::MAX,
];

/// A word, and a change to C0 to C4 for which it is refused.
type Reserve = (usize, fn(&mut [u8]));

/// Sets each unassigned code and bit of words 0, 9 and 10, and both of word 0. In its own word it is
/// refused, in others it is assigned or part of a number.
const RESERVE: [Reserve; 5] = [
    (0, |control| control[1] |= 0b1100),
    (0, |control| control[4] |= 0b11),
    (0, |control| {
        control[1] |= 0b1100;
        control[4] |= 0b11
    }),
    (9, |control| control[4] |= 0x80),
    (10, |control| control[1] |= 0x80),
];

/// The cells of a builder that hold more than a frame does, and what a frame holds of them.
const RANGES: [(usize, RangeInclusive<u32>); 4] = [
    (OUTPUTS, 0..=127),
    (RECEIVERS, 1..=8),
    (LINE_IN_GAIN, 0..=31),
    (WORD10_C2_TOP, 0..=7),
];

/// Clears what is unassigned in the word, if it is 0, 9 or 10, so that it reads.
fn clear_reserved(control: &mut [u8]) {
    match control[0] >> 1 {
        0 => {
            let lowered = |bits: u8, place: u32| bits & !((bits >> 1 & bits) & 1 << place);
            control[1] = lowered(control[1], 2);
            control[4] = lowered(control[4], 0);
        }
        9 => control[4] &= 0x7f,
        10 => control[1] &= 0x7f,
        _ => {}
    }
}

fn frame(address: usize, draw: &mut Draw) -> Vec<u8> {
    let mut frame = draw.random.bytes(FRAME);
    frame[..CONTROL].copy_from_slice(&SYNC);
    frame[CONTROL] = (address << 1) as u8 | draw.random.below(2) as u8;
    clear_reserved(&mut frame[CONTROL..]);
    frame
}

pub struct Read {
    frame: Vec<u8>,
    audio: Vec<i16>,
    host: Vec<u32>,
}

impl Read {
    /// Each of the unassigned codes in each of words 0 to 11, most often where it is refused.
    fn set_reserved(&mut self, draw: &mut Draw) {
        let (own, set) = draw.in_turn(&RESERVE);
        let any = draw.random.below(WORDS + 1);
        let address = draw.random.pick(&[own, own, any]);
        self.frame = frame(address, draw);
        set(&mut self.frame[CONTROL..]);
    }

    /// Whether nothing is wrong before the frame is looked at.
    fn comes_to_frame(&self) -> bool {
        self.frame.len() == FRAME && self.audio.len() >= AUDIO && cells::host(&self.host).is_some()
    }

    /// Whether nothing is wrong, and a swap of two numbers shows in every slot.
    fn shows_a_swap(&self) -> bool {
        self.comes_to_frame()
            && Flaw::of_host(&self.frame).is_none()
            && slots::frame_shows(&self.frame)
    }
}

impl Case for Read {
    const CALL: Call = Call {
        name: "hpsdr_host_read",
        answers: &[0, 1, 3, 4, 6, 8],
    };
    const TWISTS: &'static [Twist<Self>] = &[
        Read::set_reserved,
        |case, draw| damage(&mut case.frame, draw),
        |case, draw| damage_sync(&mut case.frame, draw),
        |case, draw| frame_length(&mut case.frame, draw),
        |case, draw| slice_length(&mut case.audio, AUDIO, draw),
        |case, draw| cell_value(&mut case.host, HOST_MOST, draw),
        |case, draw| cell_count(&mut case.host, HOST, draw),
    ];
    const PARTS: &'static [Part<Self>] = &[Part {
        line: Call {
            name: "- read, I not Q, L not R",
            answers: &[0],
        },
        holds: Read::shows_a_swap,
    }];

    fn valid(draw: &mut Draw) -> Self {
        let any = draw.random.below(128);
        let low = draw.turn % (WORDS + 1);
        let address = draw.random.pick(&[draw.turn % 128, low, any]);
        Read {
            frame: frame(address, draw),
            audio: valid_numbers(AUDIO, draw),
            host: valid_cells(HOST_MOST, draw),
        }
    }

    fn compare(self, guards: &Guards) -> Outcome {
        let mut frame = guards.lend("frame", &self.frame);
        let mut audio = guards.lend("audio", &self.audio);
        let mut host = guards.lend("host", &self.host);
        let both = both::host_read(&mut frame, &mut audio, &mut host);
        let returned = outcome(both, &[&frame, &audio, &host])?;
        slots::check(returned, &self.frame, audio.left())?;
        Ok(returned)
    }

    fn flaw(&self) -> Option<Flaw> {
        let flaw = || Flaw::of_host(&self.frame);
        self.comes_to_frame().then(flaw).flatten()
    }

    fn flaws() -> Vec<Flaw> {
        Flaw::every_of_host()
    }
}

pub struct Build {
    builder: Vec<u32>,
    audio: Vec<i16>,
    frame: Vec<u8>,
}

impl Build {
    fn set(&mut self, cell: usize, value: u32) {
        if let Some(cell) = self.builder.get_mut(cell) {
            *cell = value;
        }
    }

    /// The cells whose number is out of range, if nothing else is wrong.
    fn strays(&self) -> Option<Vec<usize>> {
        let sound = cells::builder(&self.builder)
            .is_some_and(|record| usize::from(record.turn) < WORDS)
            && self.audio.len() >= AUDIO
            && self.frame.len() == FRAME;
        let strays = RANGES
            .iter()
            .filter(|(cell, range)| !range.contains(&self.builder[*cell]));
        sound.then(|| strays.map(|(cell, _)| *cell).collect())
    }

    /// Whether the number of this cell is out of range, and nothing else is wrong.
    fn only_strays_in(&self, cell: usize) -> bool {
        self.strays() == Some(vec![cell])
    }

    /// Whether nothing is wrong, and a swap of two numbers shows in every slot.
    fn shows_a_swap(&self) -> bool {
        self.strays() == Some(vec![]) && slots::numbers_show(&self.audio)
    }
}

impl Case for Build {
    const CALL: Call = Call {
        name: "hpsdr_build",
        answers: &[0, 1, 3, 4, 9],
    };
    const TWISTS: &'static [Twist<Self>] = &[
        |case, draw| case.set(TURN, draw.in_turn(&TURNS)),
        |case, draw| case.set(OUTPUTS, draw.in_turn(&[127, 128, 129, 255, 256, 0])),
        |case, draw| {
            case.set(
                RECEIVERS,
                draw.in_turn(&[0, 1, 8, 9, 10, 16, 255, 256, 257]),
            )
        },
        |case, draw| case.set(LINE_IN_GAIN, draw.in_turn(&[31, 32, 33, 255, 256, 0])),
        |case, draw| case.set(WORD10_C2_TOP, draw.in_turn(&[7, 8, 9, 255, 256, 0])),
        |case, draw| frame_length(&mut case.frame, draw),
        |case, draw| slice_length(&mut case.audio, AUDIO, draw),
        |case, draw| cell_value(&mut case.builder, &BUILDER_MOST, draw),
        |case, draw| cell_count(&mut case.builder, BUILDER_MOST.len(), draw),
    ];
    const PARTS: &'static [Part<Self>] = &[
        Part {
            line: Call {
                name: "- gain above 31",
                answers: &[9],
            },
            holds: |case| case.only_strays_in(LINE_IN_GAIN),
        },
        Part {
            line: Call {
                name: "- top bits above 7",
                answers: &[9],
            },
            holds: |case| case.only_strays_in(WORD10_C2_TOP),
        },
        Part {
            line: Call {
                name: "- built, I not Q, L not R",
                answers: &[0],
            },
            holds: Build::shows_a_swap,
        },
    ];

    fn valid(draw: &mut Draw) -> Self {
        let mut builder = valid_cells(&BUILDER_MOST, draw);
        builder[OUTPUTS] &= 127;
        builder[RECEIVERS] = 1 + builder[RECEIVERS] % 8;
        builder[LINE_IN_GAIN] &= 31;
        builder[WORD10_C2_TOP] &= 7;
        let any = draw.random.below(WORDS);
        builder[TURN] = draw.random.pick(&[draw.turn % WORDS, any]) as u32;
        Build {
            builder,
            audio: valid_numbers(AUDIO, draw),
            frame: draw.random.bytes(FRAME),
        }
    }

    fn compare(self, guards: &Guards) -> Outcome {
        let mut builder = guards.lend("builder", &self.builder);
        let mut audio = guards.lend("audio", &self.audio);
        let mut frame = guards.lend("frame", &self.frame);
        let both = both::build(&mut builder, &mut audio, &mut frame);
        let returned = outcome(both, &[&builder, &audio, &frame])?;
        slots::check(returned, frame.left(), &self.audio)?;
        Ok(returned)
    }
}
