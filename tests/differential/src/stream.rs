//! Single calls on a stream record: whether it is sound, and one feeding.

use crate::across::{Reading, SYNC_BYTES, WINDOW};
use crate::both;
use crate::case::{outcome, Call, Case, Draw, Outcome, Twist};
use crate::cells::{COUNTS, HELD};
use crate::lent::Guards;
use crate::text::{laid, text};
use crate::twist::{cell_count, resize, FRAME};

pub const PIECE_MOST: usize = 4096;
pub const OUTPUT_LEAST: usize = 4096;
const TOTAL_MOST: u64 = 1 << 48;

const HELD_EDGES: [usize; 9] = [0, 1, 2, 3, 509, 511, 512, 513, 514];
const PIECE_LENGTHS: [usize; 17] = [
    0, 1, 2, 3, 509, 510, 511, 512, 513, 514, 515, 516, 1023, 1024, 4094, 4095, 4096,
];
const OVER_LONG_PIECES: [usize; 4] = [4097, 4098, 4608, 8192];
const OUTPUT_LENGTHS: [usize; 9] = [4095, 4096, 4097, 0, 1, 512, 4000, 4608, 8192];
/// A multiple of this many frames is a number of bytes that is 0 in 64 bits.
const WRAPPING_FRAMES: u64 = 1 << 55;

const HELD_COUNT: usize = 0;
const FRAMES: usize = 1;
const SKIPPED: usize = 2;
const TOTAL: usize = 3;

/// How many bytes of a frame and the sync after it are held, where the join is beside a sync byte.
const HELD_BESIDE_SYNC: [usize; 5] = [1, 2, 512, 513, 514];

fn held_count(draw: &mut Draw) -> usize {
    let any = draw.random.below(HELD + 1);
    let edge = draw.random.pick(&HELD_EDGES);
    draw.random.pick(&[any, edge])
}

/// How many bytes are held, and how many of these begin a frame: each pair in its turn.
fn held_anywhere(turn: usize) -> (usize, usize) {
    // The pairs are a table: in a row those with so many held bytes, up to 257, and behind them those with as many
    // fewer than 515. It has 257 rows and 515 columns, which have no common divisor.
    let (row, column) = (turn % (HELD / 2), turn % (HELD + 1));
    match column <= row {
        true => (row + 1, column + 1),
        false => (HELD - row, column - row),
    }
}

fn held_beside_sync(turn: usize) -> (usize, usize) {
    let of_frame = HELD_BESIDE_SYNC[turn % HELD_BESIDE_SYNC.len()];
    let before = turn / HELD_BESIDE_SYNC.len() % (HELD + 1 - of_frame);
    (before + of_frame, of_frame)
}

pub struct Record {
    counts: Vec<u64>,
    held: Vec<u8>,
}

impl Record {
    /// A sound record that holds the given bytes.
    fn holding(bytes: &[u8], draw: &mut Draw) -> Record {
        let held = bytes.len() as u64;
        let near = TOTAL_MOST - draw.random.below(2 * PIECE_MOST) as u64;
        let any = held + draw.random.bits() % (TOTAL_MOST - held);
        let small = held + draw.random.below(100_000) as u64;
        let total = draw.random.pick(&[held, small, any, near, TOTAL_MOST]);
        let whole = (total - held) / FRAME as u64;
        let frames = draw.random.bits() % (whole + 1);
        let frames = draw.random.pick(&[0, frames, whole]);
        let (more_counts, more_held) = (draw.random.below(3), draw.random.below(3));
        let mut counts = vec![held, frames, total - held - FRAME as u64 * frames, total];
        counts.extend(draw.random.many::<u64>(more_counts));
        let mut cells = bytes.to_vec();
        cells.resize(HELD, 0);
        cells.extend(draw.random.bytes(more_held));
        Record {
            counts,
            held: cells,
        }
    }

    fn valid(draw: &mut Draw) -> Record {
        let count = held_count(draw);
        Record::holding(&text(count, draw), draw)
    }

    /// Each cell in its turn, off by one or by more.
    fn shift_count(&mut self, draw: &mut Draw) {
        let any = draw.random.bits();
        let shifts = [1, u64::MAX, 512, 1 << 32, 1 << 63, any];
        let shift = shifts[draw.turn / COUNTS % shifts.len()];
        self.add(draw.turn % COUNTS, shift);
    }

    fn add(&mut self, cell: usize, amount: u64) {
        if let Some(cell) = self.counts.get_mut(cell) {
            *cell = cell.wrapping_add(amount);
        }
    }

    /// Sums that are right in 64 bits and, where a count wraps on the way, wrong in exact arithmetic.
    fn wrap_sum(&mut self, draw: &mut Draw) {
        let times = 1 + draw.random.below(511) as u64;
        match draw.turn % 4 {
            0 => self.add(FRAMES, WRAPPING_FRAMES * times),
            1 => {
                self.add(FRAMES, times);
                self.add(SKIPPED, (times * FRAME as u64).wrapping_neg());
            }
            2 => {
                self.add(SKIPPED, times);
                self.add(HELD_COUNT, times.wrapping_neg());
            }
            _ => {
                self.add(FRAMES, WRAPPING_FRAMES - 1);
                self.add(SKIPPED, FRAME as u64);
            }
        }
    }

    /// More held than may be, with sums that agree.
    fn hold_too_many(&mut self, draw: &mut Draw) {
        let counts = [515, 516, 1024, 1 << 16, 1 << 32, (1 << 32) + 3, 1 << 47];
        let count: u64 = draw.in_turn(&counts);
        *self = Record::holding(&text(HELD, draw), draw);
        self.counts[..COUNTS].copy_from_slice(&[count, 0, 0, count]);
        if draw.random.one_in(4) {
            self.counts[HELD_COUNT] = draw.random.pick(&[1 << 63, u64::MAX]);
        }
    }

    /// A cell that is not zero, each place in its turn, in a record that holds fewer or just these.
    fn dirty_cell(&mut self, draw: &mut Draw) {
        let place = draw.turn % HELD;
        let count = match draw.random.one_in(2) {
            true => place,
            false => draw.random.below(place + 2),
        };
        *self = Record::holding(&text(count, draw), draw);
        self.held[place] = 1 + draw.random.below(255) as u8;
    }

    /// Moves the total, and the sums with it.
    fn end_near(&mut self, total: u64) {
        if let [held, frames, skipped, all, ..] = &mut self.counts[..] {
            *all = total;
            *frames = (*frames).min((total - *held) / FRAME as u64);
            *skipped = total - *held - FRAME as u64 * *frames;
        }
    }

    /// The total at its most and above it.
    fn end_at_edge(&mut self, draw: &mut Draw) {
        *self = Record::valid(draw);
        let above = draw.in_turn(&[0, 1, 2, 512, 1 << 20, 1 << 48]);
        self.end_near(TOTAL_MOST + above);
    }
}

/// Twists of a record that both calls have.
macro_rules! record_twists {
    ($($more:expr),* $(,)?) => { &[
        |case, draw| case.record.shift_count(draw),
        |case, draw| case.record.wrap_sum(draw),
        |case, draw| case.record.hold_too_many(draw),
        |case, draw| case.record.dirty_cell(draw),
        |case, draw| case.record.end_at_edge(draw),
        |case, draw| cell_count(&mut case.record.counts, COUNTS, draw),
        |case, draw| cell_count(&mut case.record.held, HELD, draw),
        $($more),*
    ] };
}

pub struct Sound {
    record: Record,
}

impl Case for Sound {
    const CALL: Call = Call {
        name: "hpsdr_stream_sound",
        answers: &[0, 1],
    };
    const TWISTS: &'static [Twist<Self>] = record_twists!();

    fn valid(draw: &mut Draw) -> Self {
        Sound {
            record: Record::valid(draw),
        }
    }

    fn compare(self, guards: &Guards) -> Outcome {
        let mut counts = guards.lend("counts", &self.record.counts);
        let mut held = guards.lend("held", &self.record.held);
        let both = both::stream_sound(&mut counts, &mut held);
        outcome(both, &[&counts, &held])
    }
}

pub struct Feed {
    record: Record,
    piece: Vec<u8>,
    output: Vec<u8>,
}

impl Feed {
    /// A call from a fresh record on, or from what the call before it left.
    pub fn fresh() -> Feed {
        Feed {
            record: Record {
                counts: vec![0; COUNTS],
                held: vec![0; HELD],
            },
            piece: Vec::new(),
            output: vec![0xee; OUTPUT_LEAST],
        }
    }

    /// Held bytes and piece are neighbours in one text, so that frames and sync lie across both.
    fn of_text(text: &[u8], held: usize, draw: &mut Draw) -> Feed {
        let more = draw.random.pick(&[0, 0, 1, 100]);
        Feed {
            record: Record::holding(&text[..held], draw),
            piece: text[held..].to_vec(),
            output: draw.random.bytes(OUTPUT_LEAST + more),
        }
    }

    /// A frame across the join, good or with a sync byte that is wrong, in a call that is accepted; and its reading.
    pub fn across(draw: &mut Draw) -> (Feed, Reading) {
        let (held, of_frame) = match draw.turn % 2 {
            0 => held_anywhere(draw.turn / 2),
            _ => held_beside_sync(draw.turn / 2),
        };
        let place = held - of_frame;
        // Somewhat more than half of them are good.
        let mut bytes = laid(place, SYNC_BYTES.get(draw.turn % 13), draw);
        let most = PIECE_MOST - (WINDOW - of_frame);
        let any = draw.random.below(most);
        let more = draw.random.pick(&[0, 0, 1, 2, 3, 509, 512, 515, any, most]);
        bytes.extend(text(more, draw));
        let mut feed = Feed::of_text(&bytes, held, draw);
        let room = TOTAL_MOST - feed.piece.len() as u64;
        if feed.record.counts[TOTAL] > room {
            feed.record.end_near(room);
        }
        let mut reading = Reading::new(vec![place]);
        reading.go_on(&bytes, held);
        (feed, reading)
    }

    /// Makes the call on both sides, and takes over what the library left.
    pub fn step(&mut self, piece: &[u8], guards: &Guards) -> Outcome {
        self.piece.clear();
        self.piece.extend_from_slice(piece);
        let mut counts = guards.lend("counts", &self.record.counts);
        let mut held = guards.lend("held", &self.record.held);
        let mut piece = guards.lend("piece", &self.piece);
        let mut output = guards.lend("output", &self.output);
        let both = both::stream_feed(&mut counts, &mut held, &mut piece, &mut output);
        self.record.counts.copy_from_slice(counts.left());
        self.record.held.copy_from_slice(held.left());
        self.output.copy_from_slice(output.left());
        outcome(both, &[&counts, &held, &piece, &output])
    }

    /// The frames that stand at the output's start.
    pub fn frames(&self, count: usize) -> &[u8] {
        &self.output[..count * FRAME]
    }

    pub fn skipped(&self) -> u64 {
        self.record.counts[SKIPPED]
    }

    pub fn held(&self) -> &[u8] {
        &self.record.held[..self.record.counts[HELD_COUNT] as usize]
    }

    /// The total so near its most that the piece just fits, is one too long, or one too short.
    fn fill_up(&mut self, draw: &mut Draw) {
        self.record = Record::valid(draw);
        let room = self.piece.len() as u64 + draw.in_turn(&[0, 1, 2]);
        self.record.end_near((TOTAL_MOST + 1).saturating_sub(room));
    }
}

impl Case for Feed {
    const CALL: Call = Call {
        name: "hpsdr_stream_feed",
        answers: &[0, 1, 3, 4, 5],
    };
    const TWISTS: &'static [Twist<Self>] = record_twists!(
        Feed::fill_up,
        |case, draw| resize(&mut case.piece, draw.in_turn(&PIECE_LENGTHS), draw),
        |case, draw| resize(&mut case.piece, draw.in_turn(&OVER_LONG_PIECES), draw),
        |case, draw| resize(&mut case.output, draw.in_turn(&OUTPUT_LENGTHS), draw),
    );

    fn valid(draw: &mut Draw) -> Self {
        let any = draw.random.below(PIECE_MOST + 1);
        let edge = draw.in_turn(&PIECE_LENGTHS);
        let length = draw.random.pick(&[any, edge, draw.turn % 600]);
        let count = held_count(draw);
        Feed::of_text(&text(count + length, draw), count, draw)
    }

    fn compare(mut self, guards: &Guards) -> Outcome {
        let piece = std::mem::take(&mut self.piece);
        self.step(&piece, guards)
    }
}
