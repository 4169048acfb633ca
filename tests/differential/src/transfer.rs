//! Transfers: 1 to 8 frames from the radio, read by one call.

use crate::both;
use crate::case::{outcome, Call, Case, Draw, Outcome, Part, Twist};
use crate::cells::{self, STATUS_MOST};
use crate::flaw::Flaw;
use crate::lent::Guards;
use crate::levels;
use crate::radio::{
    damage_padding, frame, other_padding_byte, padding_bytes, samples, slots, status,
};
use crate::random::Number;
use crate::twist::{
    cell_count, cell_value, damage, damage_sync, resize, slice_length, valid_numbers, FRAME,
    STRANGE_COUNTS,
};
use reference::row;

const MOST_FRAMES: usize = 8;

pub struct Transfer {
    input: Vec<u8>,
    receivers: usize,
    iq: Vec<i32>,
    mic: Vec<i16>,
    status: Vec<u32>,
}

impl Transfer {
    fn of(receivers: usize, frames: usize, draw: &mut Draw) -> Transfer {
        let input: Vec<_> = (0..frames).map(|_| frame(receivers, draw)).collect();
        Transfer {
            input: input.concat(),
            receivers,
            iq: valid_numbers(frames * samples(receivers), draw),
            mic: valid_numbers(frames * slots(receivers), draw),
            status: status(draw),
        }
    }

    /// How many frames there are; an input that is no transfer is taken for a near one.
    fn frames(&self) -> usize {
        (self.input.len() / FRAME).clamp(1, MOST_FRAMES)
    }

    /// One of its frames, which may have been cut short.
    fn any_frame(&mut self, draw: &mut Draw) -> &mut [u8] {
        let number = draw.random.below(self.frames());
        self.input.chunks_mut(FRAME).nth(number).unwrap_or_default()
    }

    fn damage_padding(&mut self, draw: &mut Draw) {
        let (receivers, byte) = draw.in_turn(&padding_bytes());
        *self = Transfer::of(receivers, self.frames(), draw);
        damage_padding(&mut self.any_frame(draw)[byte], draw);
    }

    /// Two padding bytes of one frame.
    fn damage_padding_twice(&mut self, draw: &mut Draw) {
        let (receivers, byte) = draw.in_turn(&padding_bytes());
        let other = other_padding_byte((receivers, byte), draw);
        *self = Transfer::of(receivers, self.frames(), draw);
        let frame = self.any_frame(draw);
        damage_padding(&mut frame[byte], draw);
        damage_padding(&mut frame[other], draw);
    }

    /// The padding of one frame, and the sync or the padding of another or of the same: either may come first.
    fn damage_two(&mut self, draw: &mut Draw) {
        self.damage_padding(draw);
        if draw.random.one_in(2) {
            return damage_sync(self.any_frame(draw), draw);
        }
        let other = other_padding_byte(draw.in_turn(&padding_bytes()), draw);
        damage_padding(&mut self.any_frame(draw)[other], draw);
    }

    /// The sync of one frame, and of another or of the same.
    fn damage_two_syncs(&mut self, draw: &mut Draw) {
        damage_sync(self.any_frame(draw), draw);
        draw.turn = draw.random.below(7);
        damage_sync(self.any_frame(draw), draw);
    }

    /// A level of one frame, and the sync, the padding or a level of another or of the same.
    fn widen_and_damage(&mut self, draw: &mut Draw) {
        match draw.random.below(3) {
            0 => damage_sync(self.any_frame(draw), draw),
            1 => self.damage_padding(draw),
            _ => levels::widen(self.any_frame(draw), draw),
        }
        draw.turn = draw.random.below(levels::ROUND);
        levels::widen(self.any_frame(draw), draw);
    }

    /// Each multiple of a frame up to nine, one byte less, and one more.
    fn input_length(&mut self, draw: &mut Draw) {
        let (frames, more) = (draw.turn % 10, draw.turn / 10 % 3);
        let length = (FRAME * frames + more).saturating_sub(1);
        resize(&mut self.input, length, draw);
    }

    /// Whether nothing is wrong before the first frame is looked at.
    fn comes_to_frames(&self) -> bool {
        let frames = self.frames();
        row(self.receivers).is_ok()
            && self.input.len() == FRAME * frames
            && self.iq.len() >= frames * samples(self.receivers)
            && self.mic.len() >= frames * slots(self.receivers)
            && cells::status(&self.status).is_some()
    }

    /// What is wrong with each frame by itself; none if the call is refused before it comes to them.
    fn each_flaw(&self) -> Option<Vec<Option<Flaw>>> {
        let flaw = |frame| Flaw::of_radio(frame, self.receivers);
        self.comes_to_frames()
            .then(|| self.input.chunks(FRAME).map(flaw).collect())
    }

    /// Whether the frames before the first that does not read are so many.
    fn reads_just(&self, count: usize) -> bool {
        let before =
            |flaws: Vec<Option<Flaw>>| flaws.iter().take_while(|flaw| flaw.is_none()).count();
        self.each_flaw().map(before) == Some(count)
    }

    /// Whether a level of the refused frame is above 4,095, and it is refused for such a flaw before that.
    fn hides_a_level(&self, by: fn(Flaw) -> bool) -> bool {
        let flaws = self.each_flaw().unwrap_or_default();
        let mut frames = self.input.chunks(FRAME).zip(flaws);
        let refused = frames.find_map(|(frame, flaw)| flaw.map(|flaw| (frame, flaw)));
        refused.is_some_and(|(frame, flaw)| by(flaw) && !levels::above(frame).is_empty())
    }

    /// Whether every frame reads, into a record with a level above 4,095.
    fn finds_a_stray(&self) -> bool {
        let reads = |flaws: Vec<Option<Flaw>>| flaws.iter().all(Option::is_none);
        self.each_flaw().is_some_and(reads) && !levels::strays(&self.status).is_empty()
    }

    /// Whether just two frames do not read, both for such a flaw.
    fn two_do_not_read(&self, such: fn(Flaw) -> bool) -> bool {
        let flaws: Vec<Flaw> = self.each_flaw().into_iter().flatten().flatten().collect();
        flaws.len() == 2 && flaws.into_iter().all(such)
    }
}

/// Room for one frame, and for all but one.
fn room_for_fewer<T: Number>(slice: &mut Vec<T>, frames: usize, one: usize, draw: &mut Draw) {
    resize(slice, one * draw.in_turn(&[1, frames - 1]), draw);
}

const fn reads_just<const COUNT: usize>(
    name: &'static str,
    answers: &'static [u8],
) -> Part<Transfer> {
    Part {
        line: Call { name, answers },
        holds: |case| case.reads_just(COUNT),
    }
}

impl Case for Transfer {
    const CALL: Call = Call {
        name: "hpsdr_radio_read_transfer",
        answers: &[0, 1, 2, 3, 4, 6, 7, 8],
    };
    const TWISTS: &'static [Twist<Self>] = &[
        Transfer::damage_padding,
        Transfer::damage_padding_twice,
        Transfer::damage_two,
        Transfer::damage_two_syncs,
        |case, draw| levels::widen(case.any_frame(draw), draw),
        Transfer::widen_and_damage,
        Transfer::input_length,
        |case, draw| damage(case.any_frame(draw), draw),
        |case, draw| damage_sync(case.any_frame(draw), draw),
        |case, draw| case.receivers = draw.in_turn(&STRANGE_COUNTS),
        |case, draw| {
            let needed = case.frames() * samples(case.receivers);
            slice_length(&mut case.iq, needed, draw)
        },
        |case, draw| {
            let needed = case.frames() * slots(case.receivers);
            slice_length(&mut case.mic, needed, draw)
        },
        |case, draw| {
            let (frames, one) = (case.frames(), samples(case.receivers));
            room_for_fewer(&mut case.iq, frames, one, draw)
        },
        |case, draw| {
            let (frames, one) = (case.frames(), slots(case.receivers));
            room_for_fewer(&mut case.mic, frames, one, draw)
        },
        |case, draw| cell_value(&mut case.status, &STATUS_MOST, draw),
        |case, draw| cell_count(&mut case.status, STATUS_MOST.len(), draw),
    ];
    const PARTS: &'static [Part<Self>] = &[
        reads_just::<0>("- 0 frames read", &[6, 7, 8]),
        reads_just::<1>("- 1 frame read", &[0, 6, 7, 8]),
        reads_just::<2>("- 2 frames read", &[0, 6, 7, 8]),
        reads_just::<3>("- 3 frames read", &[0, 6, 7, 8]),
        reads_just::<4>("- 4 frames read", &[0, 6, 7, 8]),
        reads_just::<5>("- 5 frames read", &[0, 6, 7, 8]),
        reads_just::<6>("- 6 frames read", &[0, 6, 7, 8]),
        reads_just::<7>("- 7 frames read", &[0, 6, 7, 8]),
        reads_just::<8>("- 8 frames read", &[0]),
        Part {
            line: Call {
                name: "- two frames do not read",
                answers: &[6, 7, 8],
            },
            holds: |case| case.two_do_not_read(|_| true),
        },
        Part {
            line: Call {
                name: "- two frames' sync",
                answers: &[6],
            },
            holds: |case| case.two_do_not_read(|flaw| matches!(flaw, Flaw::Sync(_))),
        },
        Part {
            line: Call {
                name: "- two frames' padding",
                answers: &[7],
            },
            holds: |case| case.two_do_not_read(|flaw| matches!(flaw, Flaw::Padding { .. })),
        },
        Part::of("- two frames' levels", &[8], |case| {
            case.two_do_not_read(|flaw| matches!(flaw, Flaw::Levels { .. }))
        }),
        Part::of("- its level, and no sync", &[6], |case| {
            case.hides_a_level(|flaw| matches!(flaw, Flaw::Sync(_)))
        }),
        Part::of("- its level, and padding", &[7], |case| {
            case.hides_a_level(|flaw| matches!(flaw, Flaw::Padding { .. }))
        }),
        Part::of("- all read, a stray level", &[0], Transfer::finds_a_stray),
    ];

    /// Half of them have eight frames.
    fn valid(draw: &mut Draw) -> Self {
        let frames = draw
            .random
            .pick(&[1 + draw.turn % MOST_FRAMES, MOST_FRAMES]);
        Transfer::of(1 + draw.random.below(8), frames, draw)
    }

    fn compare(self, guards: &Guards) -> Outcome {
        let mut input = guards.lend("input", &self.input);
        let mut iq = guards.lend("iq", &self.iq);
        let mut mic = guards.lend("mic", &self.mic);
        let mut status = guards.lend("status", &self.status);
        let both =
            both::radio_read_transfer(&mut input, self.receivers, &mut iq, &mut mic, &mut status);
        let returned = outcome(both, &[&input, &iq, &mic, &status])?;
        levels::check_read(&self.status, status.left())?;
        Ok(returned)
    }

    fn flaw(&self) -> Option<Flaw> {
        self.each_flaw()?.into_iter().flatten().next()
    }

    fn flaws() -> Vec<Flaw> {
        Flaw::every_of_radio()
    }
}
