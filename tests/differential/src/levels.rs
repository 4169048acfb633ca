//! The levels of radio words 1 to 3 and of status records, which are twelve bits. Besides the reference's
//! word on every call, request T-08 is stated directly, of what was put in.

use crate::case::Draw;
use crate::cells::LEVELS;
use crate::model::Parts;

/// In the order of their cells and of the words that carry them, two a word.
pub const NAMES: [&str; 6] = ["AIN5", "AIN1", "AIN2", "AIN3", "AIN4", "AIN6"];
pub const MOST: u32 = 4_095;

/// C0, and the high bytes of the word's two levels.
const C0: usize = 3;
const HIGH: [usize; 2] = [4, 6];

/// Top four bits of which more than one is set.
const SEVERAL: [u8; 11] = [3, 5, 6, 7, 9, 10, 11, 12, 13, 14, 15];

/// The word that carries a level.
pub fn word_of(level: usize) -> usize {
    1 + level / 2
}

/// The two levels of a frame's word, each with its number, if the word has some.
fn of_frame(frame: &[u8]) -> Option<[(usize, u32); 2]> {
    let word = usize::from(frame[C0] >> 3);
    let level = |place| {
        let [high, low] = [0, 1].map(|low| u32::from(frame[HIGH[place] + low]));
        (2 * (word - 1) + place, 256 * high + low)
    };
    (1..=3).contains(&word).then(|| [0, 1].map(level))
}

/// The levels of a frame that are above the most, each with its number.
pub fn above(frame: &[u8]) -> Vec<(usize, u32)> {
    let levels = of_frame(frame).into_iter().flatten();
    levels.filter(|(_, number)| *number > MOST).collect()
}

/// Whether a level of the frame is just the most.
pub fn at_most(frame: &[u8]) -> bool {
    of_frame(frame).is_some_and(|levels| levels.iter().any(|(_, number)| *number == MOST))
}

/// Whether the word has no levels, and there would be one above the most if it had.
pub fn none_but_bits(frame: &[u8]) -> bool {
    of_frame(frame).is_none() && HIGH.iter().any(|&high| frame[high] > 0x0f)
}

/// The levels of a record that are above the most.
pub fn strays(status: &[u32]) -> Vec<usize> {
    let levels = status[LEVELS..].iter().take(NAMES.len());
    let strays = levels.enumerate().filter(|(_, level)| **level > MOST);
    strays.map(|(level, _)| level).collect()
}

/// Cuts the levels of a frame's word, if it has some, so that it reads.
pub fn cut(frame: &mut [u8]) {
    if of_frame(frame).is_some() {
        HIGH.iter().for_each(|&high| frame[high] &= 0x0f);
    }
}

/// Cuts the levels of a record, so that it can be written.
pub fn cut_cells(status: &mut [u32]) {
    let levels = status[LEVELS..].iter_mut().take(NAMES.len());
    levels.for_each(|level| *level &= MOST);
}

/// The turns in which [`widen`] comes to each level of each word, and to both, by each bit alone and by several.
pub const ROUND: usize = 3 * 3 * 5;

/// Sets top bits of a level, or of both of a word. In every fourth round the word is any, which mostly has no
/// levels.
pub fn widen(frame: &mut [u8], draw: &mut Draw) {
    let [_, _, _, c0, c1, _, c3, ..] = frame else {
        return;
    };
    let (word, set) = (1 + draw.turn % 3, 1 + draw.turn / 3 % 3);
    let several = draw.random.pick(&SEVERAL);
    let bits = [1, 2, 4, 8, several][draw.turn / 9 % 5];
    let behind = 1 + draw.random.below(15) as u8;
    let address = match draw.turn / ROUND % 4 {
        3 => draw.random.below(32),
        _ => word,
    };
    *c0 = (address << 3) as u8 | *c0 & 7;
    let [first, second] = [[bits, 0], [0, bits], [bits, behind]][set - 1];
    *c1 = first << 4 | *c1 & 0x0f;
    *c3 = second << 4 | *c3 & 0x0f;
}

/// T-08: a read leaves each level as it was, or at most 4,095.
pub fn check_read(before: &[u32], after: &[u32]) -> Result<(), String> {
    let cells = before.iter().zip(after).skip(LEVELS).zip(NAMES);
    let mut changed = cells.filter(|((before, after), _)| before != after);
    match changed.find(|((_, after), _)| **after > MOST) {
        None => Ok(()),
        Some(((_, after), name)) => Err(format!("T-08: {name} is {after}")),
    }
}

/// T-08: a record is written only if each level is at most 4,095.
pub fn check_write(returned: u64, status: &[u32]) -> Result<(), String> {
    if Parts::of(returned).answer != 0 {
        return Ok(());
    }
    match strays(status).first() {
        None => Ok(()),
        Some(&level) => Err(format!("T-08: {} is written", NAMES[level])),
    }
}
