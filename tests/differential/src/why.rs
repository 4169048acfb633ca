//! Why a byte was thrown out, or where it went. Besides the reference's word on every call, request T-05 is stated
//! directly, of the bytes: of the good frames those are handed out that do not begin inside one before them; a byte of
//! none of these is held where fewer than 515 bytes remain, and elsewhere skipped for the first wrong byte of the two
//! syncs. And the reasons of all bytes of an input add up to what the library's plain reader counts.

use crate::across::{SYNC_BYTES, WINDOW};
use crate::both;
use crate::case::{outcome, Call, Case, Draw, Outcome, Part, Twist};
use crate::found::good_places;
use crate::imitated;
use crate::lent::Guards;
use crate::model::Parts;
use crate::plain::{self, input_of, INPUT_LENGTHS, INPUT_MOST, OVER_LONG_INPUTS};
use crate::text::{frames, laid, stretch, text};
use crate::twist::{damage, resize, FRAME, SYNC};

const LENGTH: u32 = 3;
const RANGE: u32 = 9;

const INSIDE: u32 = 1;
const NEAR_SYNC: u32 = 2;
const FAR_SYNC: u32 = 3;
const HELD: u32 = 4;

/// The near sync and the far one, among the bytes of [`SYNC_BYTES`].
const NEAR: u8 = 0b000_111;
const FAR: u8 = 0b111_000;

/// One case in so many asks of every byte of an input.
pub const WHOLE_EVERY: usize = 256;

/// An input, and where its frames begin.
struct Reading<'a> {
    bytes: &'a [u8],
    /// Of those handed out.
    starts: Vec<usize>,
    /// Of good ones that are not.
    lost: Vec<usize>,
}

fn holds(start: usize, place: usize) -> bool {
    (start..start + FRAME).contains(&place)
}

impl Reading<'_> {
    fn of(bytes: &[u8]) -> Reading<'_> {
        let (mut starts, mut lost) = (Vec::new(), Vec::new());
        for place in good_places(bytes) {
            match starts.last() {
                Some(&before) if holds(before, place) => lost.push(place),
                _ => starts.push(place),
            }
        }
        Reading {
            bytes,
            starts,
            lost,
        }
    }

    /// The set of the sync bytes, near and far, that are wrong for the place. What is behind the end is not.
    fn wrong(&self, place: usize) -> u8 {
        let bytes = self.bytes.get(place..).unwrap_or_default();
        let wrong = |byte: &usize| {
            bytes
                .get(SYNC_BYTES[*byte])
                .is_some_and(|&it| it != SYNC[0])
        };
        let wrong = (0..SYNC_BYTES.len()).filter(wrong);
        wrong.fold(0, |set, byte| set | 1 << byte)
    }

    /// What T-05 promises.
    fn promised(&self, place: usize) -> Parts {
        let refused = |answer| Parts {
            answer,
            ..Parts::default()
        };
        let length = self.bytes.len();
        let inside = self.starts.iter().find(|&&start| holds(start, place));
        let first_wrong = self.wrong(place).trailing_zeros();
        match inside {
            _ if length > INPUT_MOST => refused(LENGTH),
            _ if place >= length => refused(RANGE),
            Some(&start) => Parts::of_reason(INSIDE, start as u32),
            None if length - place < WINDOW => Parts::of_reason(HELD, 0),
            None if first_wrong < 3 => Parts::of_reason(NEAR_SYNC, first_wrong),
            None => Parts::of_reason(FAR_SYNC, first_wrong - 3),
        }
    }

    /// Makes the call on both sides.
    fn ask(&self, place: usize, guards: &Guards) -> Result<Told, String> {
        let mut input = guards.lend("input", self.bytes);
        let both = both::why_byte(&mut input, place);
        let returned = outcome(both, &[&input])?;
        let promised = self.promised(place).returned();
        if returned != promised {
            return Err(format!(
                "T-05: {returned:#x}, and {promised:#x} is promised"
            ));
        }
        let end = self.starts.last().map_or(0, |last| last + FRAME);
        Ok(Told {
            returned,
            place,
            length: self.bytes.len(),
            wrong: self.wrong(place),
            follows_a_frame: self.starts.iter().any(|start| start + FRAME == place),
            of_a_lost_frame: self.lost.iter().any(|&start| holds(start, place)),
            first_held: end.max((self.bytes.len() + 1).saturating_sub(WINDOW)),
        })
    }
}

/// A byte that was asked of, and what was told.
pub struct Told {
    pub returned: u64,
    place: usize,
    length: usize,
    wrong: u8,
    follows_a_frame: bool,
    of_a_lost_frame: bool,
    first_held: usize,
}

impl Told {
    /// The reason and what belongs to it; 0 and 0 beside a refusal.
    fn reason(&self) -> (u32, u32) {
        let parts = Parts::of(self.returned);
        (parts.found, parts.detail())
    }

    fn is(&self, reason: u32) -> bool {
        self.reason().0 == reason
    }

    fn is_skipped(&self) -> bool {
        self.is(NEAR_SYNC) || self.is(FAR_SYNC)
    }

    fn is_too_long(&self) -> bool {
        self.length > INPUT_MOST
    }

    /// Whether it is a byte of an input of such a length.
    fn is_of(&self, length: usize) -> bool {
        self.length == length && self.place < length
    }

    /// Whether another of these bytes is wrong besides the one that is told.
    fn more_wrong(&self, of: u8) -> bool {
        (self.wrong & of).count_ones() > 1
    }
}

const fn sync_byte<const REASON: u32, const BYTE: u32>(name: &'static str) -> Part<Told> {
    Part::of(name, &[0], |told| told.reason() == (REASON, BYTE))
}

/// What must be asked and told.
pub const TOLD: &[Part<Told>] = &[
    Part::of("- asked: place 0", &[0], |told| {
        told.place == 0 && told.length > 0 && !told.is_too_long()
    }),
    Part::of("- asked: the last place", &[0], |told| {
        told.length.checked_sub(1) == Some(told.place) && !told.is_too_long()
    }),
    Part::of("- asked: of 0 bytes", &[9], |told| told.length == 0),
    Part::of("- asked: of 514 bytes", &[0], |told| told.is_of(WINDOW - 1)),
    Part::of("- asked: of 515 bytes", &[0], |told| told.is_of(WINDOW)),
    Part::of("- asked: of 65,536 bytes", &[0], |told| {
        told.is_of(INPUT_MOST)
    }),
    Part::of("- asked: of 65,537 bytes", &[3], |told| {
        told.is_of(INPUT_MOST + 1)
    }),
    Part::of("- asked: too long, past", &[3], |told| {
        told.is_too_long() && told.place >= told.length
    }),
    Part::of("- asked: the length", &[9], |told| {
        told.place == told.length && !told.is_too_long()
    }),
    Part::of("- asked: far past", &[9], |told| {
        told.place >= 1 << 63 && !told.is_too_long()
    }),
    Part::of("- inside: first byte", &[0], |told| {
        told.reason() == (INSIDE, told.place as u32)
    }),
    Part::of("- inside: last byte", &[0], |told| {
        let (reason, start) = told.reason();
        reason == INSIDE && start as usize + FRAME == told.place + 1
    }),
    Part::of("- inside: a later frame", &[0], |told| {
        told.is(INSIDE) && told.reason().1 as usize >= FRAME
    }),
    Part::of("- inside: of a lost frame", &[0], |told| {
        told.is(INSIDE) && told.of_a_lost_frame
    }),
    sync_byte::<NEAR_SYNC, 0>("- near sync: byte 0"),
    sync_byte::<NEAR_SYNC, 1>("- near sync: byte 1"),
    sync_byte::<NEAR_SYNC, 2>("- near sync: byte 2"),
    Part::of("- near sync: more wrong", &[0], |told| {
        told.is(NEAR_SYNC) && told.more_wrong(NEAR)
    }),
    Part::of("- near sync: far one too", &[0], |told| {
        told.is(NEAR_SYNC) && told.wrong & FAR != 0
    }),
    sync_byte::<FAR_SYNC, 0>("- far sync: byte 0"),
    sync_byte::<FAR_SYNC, 1>("- far sync: byte 1"),
    sync_byte::<FAR_SYNC, 2>("- far sync: byte 2"),
    Part::of("- far sync: more wrong", &[0], |told| {
        told.is(FAR_SYNC) && told.more_wrong(FAR)
    }),
    Part::of("- skipped: behind a frame", &[0], |told| {
        told.is_skipped() && told.follows_a_frame
    }),
    Part::of("- skipped: 515 remain", &[0], |told| {
        told.is_skipped() && told.place + WINDOW == told.length
    }),
    Part::of("- skipped: of a lost one", &[0], |told| {
        told.is_skipped() && told.of_a_lost_frame
    }),
    Part::of("- held: first byte", &[0], |told| {
        told.is(HELD) && told.place == told.first_held
    }),
    Part::of("- held: behind a frame", &[0], |told| {
        told.is(HELD) && told.follows_a_frame
    }),
    Part::of("- held: 514 remain", &[0], |told| {
        told.is(HELD) && told.place + WINDOW == told.length + 1
    }),
    Part::of("- held: sync stands", &[0], |told| {
        told.is(HELD) && told.wrong & NEAR == 0 && told.place + SYNC.len() <= told.length
    }),
];

pub struct Ask {
    input: Vec<u8>,
    place: usize,
}

impl Ask {
    fn any(input: Vec<u8>, draw: &mut Draw) -> Ask {
        let place = draw.random.below(input.len());
        Ask { input, place }
    }

    pub fn told(&self, guards: &Guards) -> Result<Told, String> {
        Reading::of(&self.input).ask(self.place, guards)
    }

    fn last(&self) -> usize {
        self.input.len().saturating_sub(1)
    }

    /// The first, the last or any place of an input of each length in its turn.
    fn of_length(&mut self, draw: &mut Draw) {
        *self = Ask::any(input_of(draw.in_turn(&INPUT_LENGTHS), draw), draw);
        self.place = draw.random.pick(&[0, self.last(), self.place]);
    }

    /// About 515 bytes before the end.
    fn near_the_end(&mut self, draw: &mut Draw) {
        let remain = WINDOW - 2 + draw.turn % 5;
        self.place = self.input.len().saturating_sub(remain);
    }

    /// A frame of which some sync bytes are wrong, one alone half of the time; behind nothing, bytes of any kind, or
    /// frames.
    fn near_miss(&mut self, draw: &mut Draw) {
        let turn = draw.turn / 2;
        let set = match draw.turn % 2 {
            0 => 1 << (turn % SYNC_BYTES.len()),
            _ => 1 + turn % (NEAR | FAR) as usize,
        };
        let mut input = match draw.random.below(3) {
            0 => Vec::new(),
            1 => stretch(draw.turn % FRAME, draw),
            _ => frames(1 + draw.turn % 2, draw),
        };
        let place = input.len();
        input.extend(laid(0, None, draw));
        for (byte, at) in SYNC_BYTES.iter().enumerate() {
            if set >> byte & 1 == 1 {
                input[place + at] ^= 1 << draw.random.below(8);
            }
        }
        let more = draw.random.below(2 * FRAME);
        input.extend(text(more, draw));
        *self = Ask { input, place };
    }

    /// A byte of a good frame, or behind one, which is handed out or not: its first, its last, any.
    fn of_a_good_frame(&mut self, draw: &mut Draw) {
        let mut input = match draw.turn % 2 {
            0 => imitated::middle(draw),
            _ => text(draw.turn % (4 * FRAME), draw),
        };
        input.extend(frames(1, draw));
        input.extend(SYNC);
        let good = draw.random.pick(&good_places(&input));
        let any = draw.random.below(FRAME);
        let place = good + draw.random.pick(&[0, FRAME - 1, FRAME, any]);
        *self = Ask { input, place };
    }

    /// A byte that begins with sync, with each number of bytes from 3 to 514 in its turn.
    fn cut_short(&mut self, draw: &mut Draw) {
        let place = draw.random.below(3) * FRAME;
        let remain = SYNC.len() + draw.turn % (WINDOW - SYNC.len());
        let mut input = frames(place / FRAME + 2, draw);
        input.truncate(place + remain);
        *self = Ask { input, place };
    }

    /// No place of the input, some of which are one when cut to 16, 32 or 63 bits.
    fn go_past(&mut self, draw: &mut Draw) {
        let length = self.input.len();
        let cut = [1 << 16, 1 << 32, 1 << 63].map(|bit| self.place | bit);
        let past = [length, length + 1, length + FRAME, usize::MAX];
        self.place = match draw.turn % 7 {
            turn @ 0..4 => past[turn],
            turn => cut[turn - 4],
        };
    }

    fn over_long(&mut self, draw: &mut Draw) {
        *self = Ask::any(input_of(draw.in_turn(&OVER_LONG_INPUTS), draw), draw);
    }
}

impl Case for Ask {
    const CALL: Call = Call {
        name: "hpsdr_why_byte",
        answers: &[0, 3, 9],
    };
    const TWISTS: &'static [Twist<Self>] = &[
        |case, _| case.place = 0,
        |case, _| case.place = case.last(),
        Ask::of_length,
        Ask::near_the_end,
        Ask::near_miss,
        Ask::of_a_good_frame,
        Ask::cut_short,
        |case, draw| damage(&mut case.input, draw),
        Ask::go_past,
        Ask::over_long,
        |case, draw| resize(&mut case.input, draw.in_turn(&OVER_LONG_INPUTS), draw),
        |case, draw| {
            case.over_long(draw);
            case.go_past(draw);
        },
    ];

    fn valid(draw: &mut Draw) -> Self {
        Ask::any(plain::input(draw), draw)
    }

    fn compare(self, guards: &Guards) -> Outcome {
        self.told(guards).map(|told| told.returned)
    }
}

/// All bytes of an input, of which each was asked.
pub struct Whole {
    /// What the plain reader returned.
    pub returned: u64,
    pub told: Vec<Told>,
    loses: bool,
}

impl Whole {
    fn counts(&self) -> [u32; 3] {
        let Parts {
            found,
            skipped,
            left,
            ..
        } = Parts::of(self.returned);
        [found * FRAME as u32, skipped, left]
    }

    /// As many bytes are told to be inside a frame, skipped and held as the plain reader hands out, skips and leaves.
    fn check(self) -> Result<Whole, String> {
        let count = |is: fn(&Told) -> bool| self.told.iter().filter(|told| is(told)).count() as u32;
        let told = [
            count(|told| told.is(INSIDE)),
            count(Told::is_skipped),
            count(|told| told.is(HELD)),
        ];
        let read = self.counts();
        match told == read {
            true => Ok(self),
            false => Err(format!(
                "T-05: inside, skipped and held {told:?}, and the plain reader's {read:?}"
            )),
        }
    }
}

/// Such inputs that must come.
pub const WHOLE: &[Part<Whole>] = &[
    Part::of("- every byte asked of", &[0], |_| true),
    Part::of("- every byte, frames", &[0], |whole| whole.counts()[0] > 0),
    Part::of("- every byte, skipped", &[0], |whole| whole.counts()[1] > 0),
    Part::of("- every byte, left", &[0], |whole| whole.counts()[2] > 0),
    Part::of("- every byte, all three", &[0], |whole| {
        whole.counts().iter().all(|&count| count > 0)
    }),
    Part::of("- every byte, a lost frame", &[0], |whole| whole.loses),
];

/// A short input: one in which a frame is imitated, one with a frame that may be a near miss, or any.
fn short_input(draw: &mut Draw) -> Vec<u8> {
    let any = draw.random.below(3 * FRAME);
    match draw.turn % 4 {
        0 => {
            let mut input = frames(draw.random.below(2), draw);
            input.extend(imitated::short_middle(draw));
            input.extend(frames(1, draw));
            input.extend(SYNC);
            input
        }
        1 => {
            let mut input = laid(any % FRAME, SYNC_BYTES.get(draw.turn / 4 % 7), draw);
            input.extend(text(any / 3, draw));
            input
        }
        2 => stretch(any, draw),
        _ => text(any, draw),
    }
}

/// Asks of every byte of a short input.
pub fn every_byte(draw: &mut Draw, guards: &Guards) -> Result<Whole, String> {
    let input = short_input(draw);
    let reading = Reading::of(&input);
    let (returned, _) = plain::frames_of(&input, guards)?;
    let told = (0..input.len()).map(|place| reading.ask(place, guards));
    let whole = Whole {
        returned,
        told: told.collect::<Result<_, _>>()?,
        loses: !reading.lost.is_empty(),
    };
    whole.check()
}
