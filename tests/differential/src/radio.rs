//! Frames from the radio, read and written.

use crate::both;
use crate::case::{outcome, Call, Case, Draw, Outcome, Part, Twist};
use crate::cells::{self, LEVELS, STATUS_MOST, VERSIONS};
use crate::flaw::Flaw;
use crate::lent::Guards;
use crate::levels;
use crate::twist::{
    cell_count, cell_value, damage, damage_sync, frame_length, slice_length, valid_cells,
    valid_numbers, FRAME, STRANGE_COUNTS, SYNC,
};
use reference::row;

/// Samples at and around both ends of 24 bits, and some that are in range only when cut.
const EDGES: [i32; 12] = [
    -8_388_608,
    8_388_607,
    -8_388_609,
    8_388_608,
    -1,
    0,
    0x00ff_ffff,
    0x0100_0000,
    -0x0100_0000,
    -0x0100_0001,
    i32::MIN,
    i32::MAX,
];

/// Levels at and around the end of twelve bits, and some that are in range only when cut.
const WIDE: [u32; 10] = [
    4_095, 4_096, 4_097, 8_191, 8_192, 16_384, 32_768, 36_864, 40_000, 65_535,
];

pub fn slots(receivers: usize) -> usize {
    row(receivers).map_or(63, |row| row.slots)
}

pub fn samples(receivers: usize) -> usize {
    row(receivers).map_or(126, |row| 2 * receivers * row.slots)
}

pub fn frame(receivers: usize, draw: &mut Draw) -> Vec<u8> {
    let mut frame = draw.random.bytes(FRAME);
    if draw.random.one_in(4) {
        // Bytes that make samples at both ends of their range, and sync in the payload.
        for byte in &mut frame {
            *byte = [0x00, 0x7f, 0x80, 0xff][usize::from(*byte % 4)];
        }
    }
    frame[..3].copy_from_slice(&SYNC);
    let any = draw.random.below(32);
    let address = draw.random.pick(&[draw.turn % 32, draw.turn % 5, any]);
    frame[3] = (address << 3) as u8 | draw.random.below(8) as u8;
    levels::cut(&mut frame);
    if let Ok(row) = row(receivers) {
        frame[FRAME - row.padding..].fill(0);
    }
    frame
}

/// A record to read into. Its levels are now and then any that a cell holds, which is no fault.
pub fn status(draw: &mut Draw) -> Vec<u32> {
    let mut status = valid_cells(&STATUS_MOST, draw);
    if !draw.random.one_in(4) {
        levels::cut_cells(&mut status);
    }
    status
}

fn padding(receivers: usize) -> usize {
    row(receivers).map_or(0, |row| row.padding)
}

/// The padding bytes of all layouts, each after its receiver count.
pub fn padding_bytes() -> Vec<(usize, usize)> {
    let of = |receivers| {
        let bytes = FRAME - padding(receivers)..FRAME;
        bytes.map(move |byte| (receivers, byte))
    };
    (1..=8).flat_map(of).collect()
}

/// Another padding byte: one behind, or before the last, which has none behind it.
pub fn other_padding_byte((receivers, byte): (usize, usize), draw: &mut Draw) -> usize {
    match FRAME - 1 - byte {
        0 => byte - 1 - draw.random.below(padding(receivers) - 1),
        behind => byte + 1 + draw.random.below(behind),
    }
}

pub fn damage_padding(byte: &mut u8, draw: &mut Draw) {
    let any = 1 + draw.random.below(255) as u8;
    *byte = draw.random.pick(&[1, 0x80, any]);
}

pub struct Read {
    frame: Vec<u8>,
    receivers: usize,
    iq: Vec<i32>,
    mic: Vec<i16>,
    status: Vec<u32>,
}

impl Read {
    fn of(receivers: usize, draw: &mut Draw) -> Read {
        Read {
            frame: frame(receivers, draw),
            receivers,
            iq: valid_numbers(samples(receivers), draw),
            mic: valid_numbers(slots(receivers), draw),
            status: status(draw),
        }
    }

    /// Each padding byte of each layout that has some.
    fn damage_padding(&mut self, draw: &mut Draw) {
        let (receivers, byte) = draw.in_turn(&padding_bytes());
        *self = Read::of(receivers, draw);
        damage_padding(&mut self.frame[byte], draw);
    }

    fn damage_padding_twice(&mut self, draw: &mut Draw) {
        self.damage_padding(draw);
        let other = other_padding_byte(draw.in_turn(&padding_bytes()), draw);
        damage_padding(&mut self.frame[other], draw);
    }

    /// Whether nothing is wrong before the frame is looked at.
    fn comes_to_frame(&self) -> bool {
        row(self.receivers).is_ok()
            && self.frame.len() == FRAME
            && self.iq.len() >= samples(self.receivers)
            && self.mic.len() >= slots(self.receivers)
            && cells::status(&self.status).is_some()
    }

    /// Whether nothing is wrong.
    fn reads(&self) -> bool {
        self.comes_to_frame() && Flaw::of_radio(&self.frame, self.receivers).is_none()
    }

    /// Whether a level is above 4,095, and the frame is refused for such a flaw before that.
    fn hides_a_level(&self, by: fn(Flaw) -> bool) -> bool {
        self.flaw().is_some_and(by) && !levels::above(&self.frame).is_empty()
    }

    /// Whether nothing is wrong, and the record has a level above 4,095 that the word carries, or none of them.
    fn finds_a_stray(&self, carried: bool) -> bool {
        let word = || usize::from(self.frame[3] >> 3);
        let carries = |level: &usize| levels::word_of(*level) == word();
        let strays = || levels::strays(&self.status);
        self.reads() && !strays().is_empty() && strays().iter().any(carries) == carried
    }
}

impl Case for Read {
    const CALL: Call = Call {
        name: "hpsdr_radio_read",
        answers: &[0, 1, 2, 3, 4, 6, 7, 8],
    };
    const TWISTS: &'static [Twist<Self>] = &[
        Read::damage_padding,
        Read::damage_padding_twice,
        |case, draw| levels::widen(&mut case.frame, draw),
        |case, draw| {
            levels::widen(&mut case.frame, draw);
            damage_sync(&mut case.frame, draw)
        },
        |case, draw| {
            case.damage_padding(draw);
            levels::widen(&mut case.frame, draw)
        },
        |case, draw| damage(&mut case.frame, draw),
        |case, draw| damage_sync(&mut case.frame, draw),
        |case, draw| frame_length(&mut case.frame, draw),
        |case, draw| case.receivers = draw.in_turn(&STRANGE_COUNTS),
        |case, draw| slice_length(&mut case.iq, samples(case.receivers), draw),
        |case, draw| slice_length(&mut case.mic, slots(case.receivers), draw),
        |case, draw| cell_value(&mut case.status, &STATUS_MOST, draw),
        |case, draw| cell_count(&mut case.status, STATUS_MOST.len(), draw),
    ];
    const PARTS: &'static [Part<Self>] = &[
        Part::of("- a level, and no sync", &[6], |case| {
            case.hides_a_level(|flaw| matches!(flaw, Flaw::Sync(_)))
        }),
        Part::of("- a level, and padding", &[7], |case| {
            case.hides_a_level(|flaw| matches!(flaw, Flaw::Padding { .. }))
        }),
        Part::of("- top bits of no level", &[0], |case| {
            case.reads() && levels::none_but_bits(&case.frame)
        }),
        Part::of("- a level of 4,095", &[0], |case| {
            case.reads() && levels::at_most(&case.frame)
        }),
        Part::of("- a stray level stays", &[0], |case| {
            case.finds_a_stray(false)
        }),
        Part::of("- a stray is replaced", &[0], |case| {
            case.finds_a_stray(true)
        }),
    ];

    fn valid(draw: &mut Draw) -> Self {
        Read::of(1 + draw.random.below(8), draw)
    }

    fn compare(self, guards: &Guards) -> Outcome {
        let mut frame = guards.lend("frame", &self.frame);
        let mut iq = guards.lend("iq", &self.iq);
        let mut mic = guards.lend("mic", &self.mic);
        let mut status = guards.lend("status", &self.status);
        let both = both::radio_read(&mut frame, self.receivers, &mut iq, &mut mic, &mut status);
        let returned = outcome(both, &[&frame, &iq, &mic, &status])?;
        levels::check_read(&self.status, status.left())?;
        Ok(returned)
    }

    fn flaw(&self) -> Option<Flaw> {
        let flaw = || Flaw::of_radio(&self.frame, self.receivers);
        self.comes_to_frame().then(flaw).flatten()
    }

    fn flaws() -> Vec<Flaw> {
        Flaw::every_of_radio()
    }
}

pub struct Write {
    status: Vec<u32>,
    word: usize,
    receivers: usize,
    iq: Vec<i32>,
    mic: Vec<i16>,
    frame: Vec<u8>,
}

impl Write {
    fn set_sample(&mut self, draw: &mut Draw) {
        let needed = samples(self.receivers);
        let value = draw.random.pick(&EDGES);
        // One place past those needed has its turn too, where any value is accepted.
        if let Some(sample) = self.iq.get_mut(draw.turn % (needed + 1)) {
            *sample = value;
        }
    }

    fn set_version(&mut self, draw: &mut Draw) {
        let value = draw.random.pick(&[0, 127, 128, 129, 255]);
        if let Some(cell) = self.status.get_mut(VERSIONS + draw.turn % 4) {
            *cell = value;
        }
    }

    fn set_level(&mut self, draw: &mut Draw) {
        let (level, value) = (draw.turn % levels::NAMES.len(), draw.random.pick(&WIDE));
        if let Some(cell) = self.status.get_mut(LEVELS + level) {
            *cell = value;
        }
    }

    /// The levels that are above 4,095, if nothing else is wrong.
    fn strays(&self) -> Option<Vec<usize>> {
        let needed = samples(self.receivers);
        let sound = row(self.receivers).is_ok()
            && self.frame.len() == FRAME
            && self.iq.len() >= needed
            && self.mic.len() >= slots(self.receivers)
            && self.word <= 4
            && self.iq[..needed]
                .iter()
                .all(|&sample| sample << 8 >> 8 == sample);
        let record = cells::status(&self.status)?;
        let versions = record.versions.iter().all(|&version| version <= 127);
        (sound && versions).then(|| levels::strays(&self.status))
    }

    /// Whether this level is above 4,095 and nothing else is wrong, and the word that carries it is not due.
    fn strays_unseen(&self, level: usize) -> bool {
        self.strays() == Some(vec![level]) && self.word != levels::word_of(level)
    }

    /// The same of any level, and it is due.
    fn strays_seen(&self) -> bool {
        match self.strays().as_deref() {
            Some([level]) => self.word == levels::word_of(*level),
            _ => false,
        }
    }

    fn is_at_most(&self) -> bool {
        let levels = self.status.iter().skip(LEVELS).take(levels::NAMES.len());
        self.strays() == Some(vec![]) && levels.copied().max() == Some(levels::MOST)
    }
}

impl Case for Write {
    const CALL: Call = Call {
        name: "hpsdr_radio_write",
        answers: &[0, 1, 2, 3, 4, 9],
    };
    const TWISTS: &'static [Twist<Self>] = &[
        Write::set_sample,
        Write::set_version,
        Write::set_level,
        |case, draw| case.iq = draw.random.many(case.iq.len()),
        |case, draw| case.word = draw.turn % 7,
        |case, draw| case.word = draw.in_turn(&STRANGE_COUNTS),
        |case, draw| case.receivers = draw.in_turn(&STRANGE_COUNTS),
        |case, draw| frame_length(&mut case.frame, draw),
        |case, draw| slice_length(&mut case.iq, samples(case.receivers), draw),
        |case, draw| slice_length(&mut case.mic, slots(case.receivers), draw),
        |case, draw| cell_value(&mut case.status, &STATUS_MOST, draw),
        |case, draw| cell_count(&mut case.status, STATUS_MOST.len(), draw),
    ];
    const PARTS: &'static [Part<Self>] = &[
        Part::of("- AIN5 strays, not due", &[9], |case| case.strays_unseen(0)),
        Part::of("- AIN1 strays, not due", &[9], |case| case.strays_unseen(1)),
        Part::of("- AIN2 strays, not due", &[9], |case| case.strays_unseen(2)),
        Part::of("- AIN3 strays, not due", &[9], |case| case.strays_unseen(3)),
        Part::of("- AIN4 strays, not due", &[9], |case| case.strays_unseen(4)),
        Part::of("- AIN6 strays, not due", &[9], |case| case.strays_unseen(5)),
        Part::of("- a level strays, due", &[9], Write::strays_seen),
        Part::of("- greatest level 4,095", &[0], Write::is_at_most),
    ];

    fn valid(draw: &mut Draw) -> Self {
        let receivers = 1 + draw.random.below(8);
        let needed = samples(receivers);
        let mut iq: Vec<i32> = valid_numbers(needed, draw);
        for sample in &mut iq[..needed] {
            *sample >>= 8;
        }
        let mut status = valid_cells(&STATUS_MOST, draw);
        for version in &mut status[VERSIONS..VERSIONS + 4] {
            *version &= 127;
        }
        levels::cut_cells(&mut status);
        Write {
            status,
            word: draw.turn % 5,
            receivers,
            iq,
            mic: valid_numbers(slots(receivers), draw),
            frame: draw.random.bytes(FRAME),
        }
    }

    fn compare(self, guards: &Guards) -> Outcome {
        let mut status = guards.lend("status", &self.status);
        let mut iq = guards.lend("iq", &self.iq);
        let mut mic = guards.lend("mic", &self.mic);
        let mut frame = guards.lend("frame", &self.frame);
        let both = both::radio_write(
            &mut status,
            self.word,
            self.receivers,
            &mut iq,
            &mut mic,
            &mut frame,
        );
        let returned = outcome(both, &[&status, &iq, &mic, &frame])?;
        levels::check_write(returned, &self.status)?;
        Ok(returned)
    }
}
