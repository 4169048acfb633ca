//! Request T-13, stated directly on bytes of any content. A place is clear if it begins a good frame and none of the up
//! to 511 places before it does. The frame of a clear place is handed out, and so is each good frame that follows
//! directly. Which frame it is, a shorter reading tells: that of the bytes up to the place and 514 more. And a good frame
//! that is not handed out is overlapped by one that is.

use crate::across::WINDOW;
use crate::case::{Draw, Part};
use crate::lent::Guards;
use crate::model::Parts;
use crate::plain;
use crate::twist::{FRAME, SYNC};
use std::collections::BTreeMap;

/// None of so many places before a clear one begins a good frame.
const BEFORE: usize = 511;
/// One byte too few to settle a place.
const LEFT_MOST: usize = WINDOW - 1;

pub fn begins_good_frame(bytes: &[u8], place: usize) -> bool {
    let sync_at = |place: usize| bytes[place..].starts_with(&SYNC);
    place + FRAME < bytes.len() && sync_at(place) && sync_at(place + FRAME)
}

/// In their order.
pub fn good_places(bytes: &[u8]) -> Vec<usize> {
    let places = 0..bytes.len();
    places
        .filter(|&place| begins_good_frame(bytes, place))
        .collect()
}

/// What T-13 was held to in one whole stream.
pub struct Found {
    /// Whether T-13 speaks of it: it has a clear place.
    pub speaks: bool,
    /// The clear places whose frame was looked for.
    pub clear: Vec<Clear>,
    /// Of each frame handed out inside which good frames begin, how far inside the last of these does: it is lost.
    pub lost: Vec<usize>,
}

/// A clear place, and which of the frames handed out is its.
pub struct Clear {
    /// What a reading of the bytes up to it and 514 more returned.
    pub up_to: u64,
    /// What a reading from the end of its row on returned.
    pub behind: u64,
    place: usize,
    /// So many good frames stand one after another from it on.
    row: usize,
    /// The frames that are handed out before it.
    number: usize,
    good_512_before: bool,
    behind_skipped: bool,
    behind_lost: bool,
}

/// Such places that must come.
pub const CLEAR: &[Part<Clear>] = &[
    Part::of("- up to a clear place", &[0], |_| true),
    Part::of("- clear, place 0", &[0], |clear| clear.place == 0),
    Part::of("- clear, place 1 to 510", &[0], |clear| {
        (1..BEFORE).contains(&clear.place)
    }),
    Part::of("- clear, good 512 before", &[0], |clear| {
        clear.good_512_before
    }),
    Part::of("- clear, behind skipped", &[0], |clear| {
        clear.behind_skipped
    }),
    Part::of("- clear, behind lost", &[0], |clear| clear.behind_lost),
    Part::of("- clear, row of 1", &[0], |clear| clear.row == 1),
    Part::of("- clear, row of 2", &[0], |clear| clear.row == 2),
    Part::of("- clear, longer row", &[0], |clear| clear.row > 2),
    Part::of("- clear, frame 0", &[0], |clear| clear.number == 0),
    Part::of("- clear, later frame", &[0], |clear| clear.number > 0),
];

/// An input, and what was handed out of it.
struct Reading<'a> {
    bytes: &'a [u8],
    handed_out: &'a [u8],
    good: Vec<usize>,
    clear: Vec<usize>,
    /// The places of the frames handed out.
    at: Vec<usize>,
    /// The good places whose frame is not handed out.
    lost: Vec<usize>,
}

fn clear_places(good: &[usize]) -> Vec<usize> {
    let is_clear = |index: &usize| {
        let before = good[..*index].last();
        before.is_none_or(|before| good[*index] - before > BEFORE)
    };
    let clear = (0..good.len()).filter(is_clear);
    clear.map(|index| good[index]).collect()
}

/// Each frame handed out stands at the first good place with its bytes, behind the frame before it.
fn placed(bytes: &[u8], handed_out: &[u8], good: &[usize]) -> Result<Vec<usize>, String> {
    let (mut good, mut at, mut end) = (good.iter(), Vec::new(), 0);
    for (number, frame) in handed_out.chunks(FRAME).enumerate() {
        let place = good.find(|&&place| place >= end && bytes[place..].starts_with(frame));
        let place = place.ok_or_else(|| {
            format!(
                "T-13: frame {number} of those handed out stands at no good place from {end} on"
            )
        })?;
        end = place + FRAME;
        at.push(*place);
    }
    Ok(at)
}

impl<'a> Reading<'a> {
    fn of(bytes: &'a [u8], handed_out: &'a [u8]) -> Result<Reading<'a>, String> {
        let good = good_places(bytes);
        let at = placed(bytes, handed_out, &good)?;
        let is_lost = |place: &usize| at.binary_search(place).is_err();
        Ok(Reading {
            bytes,
            handed_out,
            clear: clear_places(&good),
            lost: good.iter().copied().filter(is_lost).collect(),
            good,
            at,
        })
    }

    fn is_good(&self, place: usize) -> bool {
        self.good.binary_search(&place).is_ok()
    }

    /// How many good frames stand one after another from a place on.
    fn row(&self, place: usize) -> usize {
        let places = (place..).step_by(FRAME);
        places.take_while(|&place| self.is_good(place)).count()
    }

    /// The clear places, and those of the good frames that follow directly.
    fn promised(&self) -> Vec<usize> {
        let mut promised: Vec<usize> = Vec::new();
        for &place in &self.clear {
            // A row that goes on through a clear place has come already.
            if promised.last().is_none_or(|&last| last < place) {
                promised.extend((place..).step_by(FRAME).take(self.row(place)));
            }
        }
        promised
    }

    /// They are handed out in their order.
    fn check_promised(&self) -> Result<(), String> {
        let mut frames = self.handed_out.chunks(FRAME);
        for place in self.promised() {
            let promised = &self.bytes[place..][..FRAME];
            if !frames.any(|frame| frame == promised) {
                return Err(format!(
                    "T-13: the frame of place {place} is not handed out"
                ));
            }
        }
        Ok(())
    }

    /// Each good frame that is not handed out begins inside one that is. Gives how far inside, for the last of those
    /// that begin inside the same.
    fn check_lost(&self) -> Result<Vec<usize>, String> {
        let mut last_inside = BTreeMap::new();
        let (mut at, mut last) = (self.at.iter().peekable(), None);
        for place in &self.lost {
            while let Some(before) = at.next_if(|before| *before < place) {
                last = Some(before);
            }
            let overlaps = last.filter(|before| place - *before < FRAME);
            let before = overlaps.ok_or_else(|| {
                format!(
                    "T-13: the good frame of place {place} is neither handed out nor overlapped"
                )
            })?;
            last_inside.insert(before, place - before);
        }
        Ok(last_inside.into_values().collect())
    }

    /// The first clear place behind a lost frame, and any.
    fn drawn(&self, draw: &mut Draw) -> Vec<usize> {
        let lost = self.lost.first();
        let behind = lost.and_then(|lost| self.clear.iter().find(|&place| place > lost));
        let any = self.clear.get(draw.random.below(self.clear.len()));
        let mut drawn: Vec<usize> = behind.into_iter().chain(any).copied().collect();
        drawn.dedup();
        drawn
    }

    /// What is handed out is what the bytes up to a clear place and 514 more give, its row, and what the bytes behind that
    /// give. The shorter reading comes to the place, and leaves the 514.
    fn check_clear(&self, place: usize, guards: &Guards) -> Result<Clear, String> {
        let wrong = |what: &str| format!("T-13: clear place {place}: {what}");
        let row = self.row(place);
        let end = place + row * FRAME;
        if begins_good_frame(self.bytes, end) {
            return Err(wrong("its row goes on"));
        }
        let (up_to, before) = plain::frames_of(&self.bytes[..place + LEFT_MOST], guards)
            .map_err(|difference| wrong(&difference))?;
        let (behind, after) = plain::frames_of(&self.bytes[end..], guards)
            .map_err(|difference| wrong(&difference))?;
        let Parts {
            found,
            skipped,
            left,
            ..
        } = Parts::of(up_to);
        let number = found as usize;
        if FRAME * number + skipped as usize != place || left as usize != LEFT_MOST {
            let counts = format!("before it {number} frames, {skipped} skipped, {left} left");
            return Err(wrong(&counts));
        }
        let parts = [
            ("the frames before it differ", &before[..]),
            ("its row differs", &self.bytes[place..end]),
            ("the frames behind its row differ", &after),
        ];
        let mut rest = self.handed_out;
        for (what, frames) in parts {
            rest = rest.strip_prefix(frames).ok_or_else(|| wrong(what))?;
        }
        if !rest.is_empty() {
            return Err(wrong("more frames are handed out behind its row"));
        }
        let last_end = self.at[..number].last().map_or(0, |last| last + FRAME);
        Ok(Clear {
            up_to,
            behind,
            place,
            row,
            number,
            good_512_before: place >= FRAME && self.is_good(place - FRAME),
            behind_skipped: last_end < place,
            behind_lost: self.lost.first().is_some_and(|&lost| lost < place),
        })
    }
}

/// Holds what was handed out of an input to T-13.
pub fn check(
    bytes: &[u8],
    handed_out: &[u8],
    draw: &mut Draw,
    guards: &Guards,
) -> Result<Found, String> {
    let reading = Reading::of(bytes, handed_out)?;
    reading.check_promised()?;
    let lost = reading.check_lost()?;
    let drawn = reading.drawn(draw).into_iter();
    let clear = drawn.map(|place| reading.check_clear(place, guards));
    Ok(Found {
        speaks: !reading.clear.is_empty(),
        clear: clear.collect::<Result<_, _>>()?,
        lost,
    })
}
