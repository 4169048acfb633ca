//! Single calls of the plain reader.

use crate::across::SYNC_BYTES;
use crate::both;
use crate::case::{outcome, Call, Case, Draw, Outcome, Part, Twist};
use crate::lent::Guards;
use crate::model::Parts;
use crate::text::{frames, laid, stretch, text};
use crate::twist::{damage, resize, slice_length, FRAME, SYNC};

pub const INPUT_MOST: usize = 65_536;
/// The most frames that are handed out.
const FRAMES_MOST: usize = 127;

pub const INPUT_LENGTHS: [usize; 21] = [
    0, 1, 2, 3, 511, 512, 513, 514, 515, 516, 517, 1025, 1026, 1027, 1028, 4096, 65_026, 65_027,
    65_534, 65_535, 65_536,
];
pub const OVER_LONG_INPUTS: [usize; 6] = [65_537, 65_538, 66_048, 66_051, 131_072, 131_073];

/// Frames from the first byte on, the last of them cut, or bytes of any kind.
pub fn input_of(length: usize, draw: &mut Draw) -> Vec<u8> {
    if draw.random.one_in(4) {
        let mut input = frames(length / FRAME + 1, draw);
        input.truncate(length);
        return input;
    }
    stretch(length, draw)
}

/// An input that is accepted, half of the time a short one.
pub fn input(draw: &mut Draw) -> Vec<u8> {
    let short = draw.random.below(4 * FRAME);
    let any = draw.random.below(INPUT_MOST + 1);
    let edge = draw.in_turn(&INPUT_LENGTHS);
    let length = draw.random.pick(&[short, short, edge, any]);
    input_of(length, draw)
}

/// How many bytes of frames an input of such a length can have.
fn most_handed_out(input: &[u8]) -> usize {
    input.len().saturating_sub(SYNC.len()) / FRAME * FRAME
}

/// Makes the call on both sides. Gives what the library returned, and left in the output.
pub fn read(input: &[u8], output: &[u8], guards: &Guards) -> Result<(u64, Vec<u8>), String> {
    let mut input = guards.lend("input", input);
    let mut output = guards.lend("output", output);
    let both = both::plain_read(&mut input, &mut output);
    let returned = outcome(both, &[&input, &output])?;
    Ok((returned, output.left().to_vec()))
}

/// Reads a whole input. Gives what the library returned, and the frames that it handed out.
pub fn frames_of(input: &[u8], guards: &Guards) -> Result<(u64, Vec<u8>), String> {
    let (returned, mut output) = read(input, &vec![0xee; input.len()], guards)?;
    output.truncate(Parts::of(returned).found as usize * FRAME);
    Ok((returned, output))
}

pub struct Read {
    input: Vec<u8>,
    output: Vec<u8>,
}

impl Read {
    fn of(input: Vec<u8>, draw: &mut Draw) -> Read {
        let more = draw.random.pick(&[0, 0, 1, 100]);
        let output = draw.random.bytes(input.len() + more);
        Read { input, output }
    }

    fn of_length(length: usize, draw: &mut Draw) -> Read {
        Read::of(input_of(length, draw), draw)
    }

    /// A frame of which each sync byte in its turn is wrong, or none, and bytes behind it.
    fn near_miss(&mut self, draw: &mut Draw) {
        let place = draw.random.pick(&[0, draw.turn % FRAME]);
        let mut input = laid(place, SYNC_BYTES.get(draw.turn % 7), draw);
        let more = draw.random.below(2 * FRAME);
        input.extend(text(more, draw));
        *self = Read::of(input, draw);
    }

    /// The most frames and sync, in any of the inputs that have as many.
    fn fill_up(&mut self, draw: &mut Draw) {
        let mut input = frames(FRAMES_MOST, draw);
        input.extend(SYNC);
        let more = draw.turn % (INPUT_MOST - input.len() + 1);
        input.extend(draw.random.bytes(more));
        *self = Read::of(input, draw);
    }

    fn is_too_long(&self) -> bool {
        self.input.len() > INPUT_MOST
    }

    fn is_short_of_room(&self) -> bool {
        self.output.len() < self.input.len()
    }

    fn is_accepted(&self) -> bool {
        !self.is_too_long() && !self.is_short_of_room()
    }

    /// Whether one frame follows another from the first byte on, as many as there can be.
    fn is_full(&self) -> bool {
        let mut syncs = (0..=FRAMES_MOST).map(|frame| self.input.get(frame * FRAME..));
        syncs.all(|bytes| bytes.is_some_and(|bytes| bytes.starts_with(&SYNC)))
    }
}

impl Case for Read {
    const CALL: Call = Call {
        name: "hpsdr_plain_read",
        answers: &[0, 3, 4],
    };
    const TWISTS: &'static [Twist<Self>] = &[
        |case, draw| *case = Read::of_length(draw.in_turn(&INPUT_LENGTHS), draw),
        |case, draw| *case = Read::of_length(draw.in_turn(&OVER_LONG_INPUTS), draw),
        |case, draw| resize(&mut case.input, draw.in_turn(&OVER_LONG_INPUTS), draw),
        Read::near_miss,
        Read::fill_up,
        |case, draw| damage(&mut case.input, draw),
        |case, draw| slice_length(&mut case.output, case.input.len().max(1), draw),
        |case, draw| resize(&mut case.output, most_handed_out(&case.input), draw),
    ];
    const PARTS: &'static [Part<Self>] = &[
        Part::of("- no byte", &[0], |case| case.input.is_empty()),
        Part::of("- 65,536 bytes", &[0], |case| {
            case.input.len() == INPUT_MOST && case.is_accepted()
        }),
        Part::of("- 127 frames", &[0], |case| {
            case.is_full() && case.is_accepted()
        }),
        Part::of("- a longer output", &[0], |case| {
            case.output.len() > case.input.len() && case.is_accepted()
        }),
        Part::of("- 65,537 bytes", &[3], |case| {
            case.input.len() == INPUT_MOST + 1 && !case.is_short_of_room()
        }),
        Part::of("- too long, output short", &[3], |case| {
            case.is_too_long() && case.is_short_of_room()
        }),
        Part::of("- output one byte short", &[4], |case| {
            case.output.len() + 1 == case.input.len() && !case.is_too_long()
        }),
        Part::of("- short, room for frames", &[4], |case| {
            let room = most_handed_out(&case.input);
            room > 0 && case.output.len() == room && !case.is_too_long()
        }),
    ];

    fn valid(draw: &mut Draw) -> Self {
        Read::of(input(draw), draw)
    }

    fn compare(self, guards: &Guards) -> Outcome {
        read(&self.input, &self.output, guards).map(|(returned, _)| returned)
    }
}
