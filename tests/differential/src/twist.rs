//! The twists that calls of more than one kind share: lengths, places and cells.

use crate::case::Draw;
use crate::random::Number;

pub const FRAME: usize = 512;
pub const SYNC: [u8; 3] = [0x7f; 3];

const FRAME_LENGTHS: [usize; 14] = [0, 1, 2, 3, 4, 7, 8, 9, 510, 511, 513, 514, 1023, 1024];

/// Numbers that are no receiver count, some of which are one when cut to 8, 16 or 32 bits.
pub const STRANGE_COUNTS: [usize; 18] = [
    0,
    9,
    10,
    16,
    127,
    128,
    255,
    256,
    257,
    65_536,
    65_537,
    1 << 32,
    (1 << 32) + 1,
    1 << 61,
    1 << 63,
    (1 << 63) + 8,
    usize::MAX - 1,
    usize::MAX,
];

pub fn resize<T: Number>(slice: &mut Vec<T>, length: usize, draw: &mut Draw) {
    slice.truncate(length);
    let missing = length - slice.len();
    slice.extend(draw.random.many::<T>(missing));
}

/// Cut short or over-long.
pub fn frame_length(frame: &mut Vec<u8>, draw: &mut Draw) {
    let length = match draw.turn % 3 {
        0 => draw.random.below(2 * FRAME),
        _ => FRAME_LENGTHS[draw.turn / 3 % FRAME_LENGTHS.len()],
    };
    resize(frame, length, draw);
}

/// One short, empty, shorter, exact or longer.
pub fn slice_length<T: Number>(slice: &mut Vec<T>, needed: usize, draw: &mut Draw) {
    let shorter = draw.random.below(needed);
    let length = draw.in_turn(&[needed - 1, 0, shorter, needed, needed + 1, needed + 40]);
    resize(slice, length, draw);
}

/// Every length from 0 to two more than the record's.
pub fn cell_count<T: Number>(cells: &mut Vec<T>, record: usize, draw: &mut Draw) {
    resize(cells, draw.turn % (record + 3), draw);
}

/// Each cell at its most, just above it, and at the most of its type.
pub fn cell_value(cells: &mut [u32], most: &[u32], draw: &mut Draw) {
    let (place, kind) = (draw.turn % most.len(), draw.turn / most.len());
    let value = match kind % 4 {
        0 => most[place],
        1 => most[place].saturating_add(1),
        2 => u32::MAX,
        _ => draw.random.number(),
    };
    if let Some(cell) = cells.get_mut(place) {
        *cell = value;
    }
}

/// One byte of the frame, each place in its turn.
pub fn damage(frame: &mut [u8], draw: &mut Draw) {
    let damage = 1 + draw.random.below(255) as u8;
    if let Some(byte) = frame.get_mut(draw.turn % FRAME) {
        *byte ^= damage;
    }
}

/// One of the sync bytes, two or all, each by one bit or by any.
pub fn damage_sync(frame: &mut [u8], draw: &mut Draw) {
    let set = 1 + draw.turn % 7;
    let bytes = frame.iter_mut().take(SYNC.len()).enumerate();
    for (_, byte) in bytes.filter(|(place, _)| set >> place & 1 == 1) {
        let bit = 1 << draw.random.below(8);
        let any = 1 + draw.random.below(255) as u8;
        *byte ^= draw.random.pick(&[bit, any]);
    }
}

/// A record of cells that each fit, now and then longer than the record.
pub fn valid_cells(most: &[u32], draw: &mut Draw) -> Vec<u32> {
    let value = |&most: &u32| match draw.random.below(8) {
        0 => most,
        1 => 0,
        _ => draw.random.below(most as usize + 1) as u32,
    };
    let mut cells: Vec<u32> = most.iter().map(value).collect();
    let more = draw.random.pick(&[0, 0, 1, 5]);
    cells.extend(draw.random.many::<u32>(more));
    cells
}

/// Numbers of which the first `needed` are used, in a slice that is exact or longer.
pub fn valid_numbers<T: Number>(needed: usize, draw: &mut Draw) -> Vec<T> {
    let more = draw.random.pick(&[0, 0, 1, 9]);
    draw.random.many(needed + more)
}
