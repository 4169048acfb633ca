//! Whole streams, fed piece by piece from a fresh record on. Besides the reference's word on every
//! call, demand 3 is stated directly, of what was put in: where good frames are followed by a middle of
//! which no place begins a good frame, and that by good frames and sync, then in every cutting just
//! those frames come out, and the skipped count is the middle's length. So is request T-10: the plain
//! reader gives of all the bytes at once what the stream reader gave of the pieces. So is request T-13,
//! of every stream, whatever its bytes are.

use crate::across::{Across, Reading};
use crate::case::{Draw, Outcome, Part};
use crate::found::{self, begins_good_frame, good_places, Found};
use crate::imitated;
use crate::lent::Guards;
use crate::model::Parts;
use crate::plain;
use crate::stream::{Feed, PIECE_MOST};
use crate::text::{frames, stretch};
use crate::twist::{FRAME, SYNC};

const MIDDLE_LENGTHS: [usize; 16] = [
    0, 1, 2, 3, 4, 5, 509, 510, 511, 512, 513, 514, 515, 516, 1024, 1027,
];

/// Good frames, a middle, good frames, and sync.
pub struct Whole {
    bytes: Vec<u8>,
    before: usize,
    middle: usize,
}

/// What a whole stream did.
pub struct Ran {
    /// What each call returned.
    pub returned: Vec<u64>,
    pub at_once: AtOnce,
    /// Whether demand 3 spoke of it.
    pub demanded: bool,
    /// What T-13 was held to.
    pub found: Found,
    /// How its frames lay across joins. Where demand 3 does not speak, frames come by chance, and do not count.
    pub across: Vec<Across>,
}

/// A reading by the plain reader of what was fed in pieces.
pub struct AtOnce {
    pub returned: u64,
    pieces: Vec<usize>,
}

impl AtOnce {
    fn parts(&self) -> Parts {
        Parts::of(self.returned)
    }
}

/// Such readings that must come.
pub const AT_ONCE: &[Part<AtOnce>] = &[
    Part::of("- as the stream", &[0], |_| true),
    Part::of("- as the stream, frames", &[0], |at| at.parts().found > 0),
    Part::of("- as the stream, skipped", &[0], |at| {
        at.parts().skipped > 0
    }),
    Part::of("- as the stream, left", &[0], |at| at.parts().left > 0),
    Part::of("- as the stream, all three", &[0], |at| {
        let Parts {
            found,
            skipped,
            left,
            ..
        } = at.parts();
        [found, skipped, left].iter().all(|&count| count > 0)
    }),
    Part::of("- a piece of 0", &[0], |at| at.pieces.contains(&0)),
    Part::of("- a piece of 1", &[0], |at| at.pieces.contains(&1)),
    Part::of("- a piece of 4,096", &[0], |at| {
        at.pieces.contains(&PIECE_MOST)
    }),
];

/// A way to draw and to feed one.
pub type Stream = fn(&mut Draw, &Guards) -> Result<Ran, String>;

impl Whole {
    fn of(before: usize, length: usize, after: usize, draw: &mut Draw) -> Whole {
        let middle = stretch(length, draw);
        Whole::around(middle, before, after, draw)
    }

    fn around(middle: Vec<u8>, before: usize, after: usize, draw: &mut Draw) -> Whole {
        let length = middle.len();
        let mut bytes = frames(before, draw);
        bytes.extend(middle);
        bytes.extend(frames(after, draw));
        bytes.extend(SYNC);
        if before > 0 {
            // The last of the first frames is good by the sync after it.
            bytes[before * FRAME..][..SYNC.len()].copy_from_slice(&SYNC);
        }
        Whole {
            bytes,
            before: before * FRAME,
            middle: length,
        }
    }

    fn drawn(draw: &mut Draw) -> Whole {
        let length = match draw.random.one_in(3) {
            true => draw.random.below(1600),
            false => draw.random.pick(&MIDDLE_LENGTHS),
        };
        let (before, after) = (draw.random.below(4), 1 + draw.random.below(4));
        Whole::of(before, length, after, draw)
    }

    /// A short one, for cutting into single bytes.
    fn short(draw: &mut Draw) -> Whole {
        let (before, length) = (draw.random.below(2), draw.random.below(60));
        Whole::of(before, length, 1, draw)
    }

    /// One in whose middle frames are imitated.
    fn imitated(draw: &mut Draw) -> Whole {
        let middle = imitated::middle(draw);
        let (before, after) = (draw.random.below(3), 1 + draw.random.below(3));
        Whole::around(middle, before, after, draw)
    }

    /// The places of the syncs: of the first frames, with the one after them, and of those after the middle.
    fn syncs(&self) -> Vec<usize> {
        let first = (0..self.before + 1).step_by(FRAME);
        let after = (self.before + self.middle..self.bytes.len()).step_by(FRAME);
        let mut syncs: Vec<_> = first.filter(|_| self.before > 0).chain(after).collect();
        syncs.dedup();
        syncs
    }

    /// Demand 3's premise: no place of the middle begins a good frame. (It may, by imitation.)
    fn middle_is_bad(&self) -> bool {
        (0..self.middle).all(|place| !begins_good_frame(&self.bytes, self.before + place))
    }

    /// Demand 3's promise, of all that was handed out and of the skipped count.
    fn check(&self, handed_out: &[u8], skipped: u64) -> Result<(), String> {
        let after = &self.bytes[self.before + self.middle..];
        let promised = [
            &self.bytes[..self.before],
            &after[..after.len() - SYNC.len()],
        ]
        .concat();
        if skipped != self.middle as u64 {
            return Err(format!(
                "demand 3: {} bytes skipped, not {}",
                skipped, self.middle
            ));
        }
        if handed_out == promised {
            return Ok(());
        }
        let place = handed_out
            .iter()
            .zip(&promised)
            .position(|(got, promised)| got != promised);
        let place = place.unwrap_or(promised.len().min(handed_out.len()));
        Err(format!(
            "demand 3: what is handed out ({} bytes, {} promised) differs at byte {place}",
            handed_out.len(),
            promised.len(),
        ))
    }

    /// Feeds it in pieces that end at the given places.
    fn run_to(&self, ends: Vec<usize>, draw: &mut Draw, guards: &Guards) -> Result<Ran, String> {
        self.run(pieces_to(ends, self.bytes.len()), draw, guards)
    }

    fn across(&self, pieces: &[usize]) -> Vec<Across> {
        let (mut reading, mut start) = (Reading::new(self.syncs()), 0);
        for length in pieces {
            let end = start + length;
            reading.go_on(&self.bytes[..end], start);
            start = end;
        }
        reading.across
    }

    fn run(&self, pieces: Vec<usize>, draw: &mut Draw, guards: &Guards) -> Result<Ran, String> {
        let fed = Fed::of(&self.bytes, &pieces, guards)?;
        let demanded = self.middle_is_bad();
        let mut across = Vec::new();
        if demanded {
            self.check(&fed.handed_out, fed.feed.skipped())?;
            across = self.across(&pieces);
        }
        let ran = fed.ran(&self.bytes, pieces, draw, guards)?;
        Ok(Ran {
            demanded,
            across,
            ..ran
        })
    }
}

/// What came of feeding bytes in pieces, from a fresh record on.
struct Fed {
    feed: Feed,
    handed_out: Vec<u8>,
    returned: Vec<u64>,
}

impl Fed {
    fn of(bytes: &[u8], pieces: &[usize], guards: &Guards) -> Result<Fed, String> {
        let (mut feed, mut handed_out) = (Feed::fresh(), Vec::new());
        let (mut returned, mut rest) = (Vec::with_capacity(pieces.len()), bytes);
        for &length in pieces {
            let (piece, later) = rest.split_at(length);
            let got = feed.step(piece, guards)?;
            let Parts { answer, found, .. } = Parts::of(got);
            if answer != 0 {
                return Err(format!("a piece of {length} bytes is refused: {answer}"));
            }
            handed_out.extend_from_slice(feed.frames(found as usize));
            returned.push(got);
            rest = later;
        }
        Ok(Fed {
            feed,
            handed_out,
            returned,
        })
    }

    /// T-10, of the same bytes.
    fn check(&self, bytes: &[u8], guards: &Guards) -> Outcome {
        let read = plain::frames_of(bytes, guards);
        let (returned, frames) = read.map_err(|difference| format!("all at once: {difference}"))?;
        let Parts { skipped, left, .. } = Parts::of(returned);
        let left = &bytes[bytes.len() - left as usize..];
        let same = [
            ("frames", frames == self.handed_out),
            ("skipped counts", u64::from(skipped) == self.feed.skipped()),
            ("bytes left", left == self.feed.held()),
        ];
        match same.into_iter().find(|(_, same)| !same) {
            Some((what, _)) => Err(format!("T-10: the {what} of the two readers differ")),
            None => Ok(returned),
        }
    }

    /// One that demand 3 does not speak of. T-13 is said of both readers: they handed out the same.
    fn ran(
        self,
        bytes: &[u8],
        pieces: Vec<usize>,
        draw: &mut Draw,
        guards: &Guards,
    ) -> Result<Ran, String> {
        let returned = self.check(bytes, guards)?;
        Ok(Ran {
            returned: self.returned,
            at_once: AtOnce { returned, pieces },
            demanded: false,
            found: found::check(bytes, &self.handed_out, draw, guards)?,
            across: Vec::new(),
        })
    }
}

/// The lengths of pieces that end at the given places and, past the last of them, at the end.
fn pieces_to(mut ends: Vec<usize>, length: usize) -> Vec<usize> {
    ends.retain(|&end| end < length);
    ends.push(length);
    ends.sort_unstable();
    let mut start = 0;
    let mut pieces = Vec::new();
    for end in ends {
        while end - start > PIECE_MOST {
            pieces.push(PIECE_MOST);
            start += PIECE_MOST;
        }
        pieces.push(end - start);
        start = end;
    }
    pieces
}

/// Places near the edges of frames, those of the frames after the middle included.
fn frame_edges(whole: &Whole, draw: &mut Draw) -> Vec<usize> {
    let from = draw.random.pick(&[0, whole.before + whole.middle]);
    let edges = (from..whole.bytes.len()).step_by(FRAME);
    edges
        .map(|edge| (edge + draw.random.below(7)).saturating_sub(3))
        .collect()
}

/// Each sync after its first byte, after its second, or after both; or only each second sync. A piece then has the sync
/// behind it too, and one call hands out the frame whose far sync is cut and the frame whose near sync that is.
fn in_syncs(syncs: Vec<usize>, turn: usize) -> Vec<usize> {
    let cuts: &[usize] = [&[1][..], &[2], &[1, 2]][turn % 3];
    let (first, step) = [(0, 1), (0, 2), (1, 2)][turn / 3 % 3];
    let syncs = syncs.into_iter().skip(first).step_by(step);
    syncs
        .flat_map(|sync| cuts.iter().map(move |cut| sync + cut))
        .collect()
}

/// Each frame at the same place, every one of which has its turn.
fn in_frames(syncs: Vec<usize>, turn: usize) -> Vec<usize> {
    let syncs = syncs.into_iter();
    syncs.map(|sync| sync + turn % FRAME).collect()
}

/// Each byte from somewhat before a sync to somewhat behind it.
fn around_sync(syncs: Vec<usize>, draw: &mut Draw) -> Vec<usize> {
    let sync = draw.random.pick(&syncs);
    (sync.saturating_sub(4)..sync + 8).collect()
}

/// At most sixteen places of frames, true and imitated.
fn some_good_places(whole: &Whole, draw: &mut Draw) -> Vec<usize> {
    let good = good_places(&whole.bytes);
    let step = good.len().div_ceil(16);
    let first = draw.random.below(step);
    good.into_iter().skip(first).step_by(step).collect()
}

/// They are fewer than so many bytes apart.
fn random_ends(length: usize, most: usize, draw: &mut Draw) -> Vec<usize> {
    let mut ends = vec![draw.random.below(most)];
    while ends.last().is_some_and(|&end| end < length) {
        let next = ends[ends.len() - 1] + draw.random.below(most);
        ends.push(next);
    }
    ends
}

/// A whole stream whose syncs are cut.
pub fn run_in_syncs(draw: &mut Draw, guards: &Guards) -> Result<Ran, String> {
    let whole = Whole::drawn(draw);
    whole.run_to(in_syncs(whole.syncs(), draw.turn), draw, guards)
}

/// A whole stream whose frames are cut.
pub fn run_in_frames(draw: &mut Draw, guards: &Guards) -> Result<Ran, String> {
    let whole = Whole::drawn(draw);
    whole.run_to(in_frames(whole.syncs(), draw.turn), draw, guards)
}

/// A whole stream, in a cutting of which every kind has its turn.
pub fn run(draw: &mut Draw, guards: &Guards) -> Result<Ran, String> {
    let every_byte = draw.turn % 24 == 23;
    let whole = match every_byte {
        true => Whole::short(draw),
        false => Whole::drawn(draw),
    };
    let length = whole.bytes.len();
    let ends = match draw.turn % 4 {
        _ if every_byte => (1..length).collect(),
        0 => Vec::new(),
        1 => vec![draw.turn / 4 % length],
        2 => frame_edges(&whole, draw),
        _ => {
            let most = draw.random.pick(&[20, 600, 2 * PIECE_MOST]);
            random_ends(length, most, draw)
        }
    };
    whole.run_to(ends, draw, guards)
}

/// A short stream in whose middle a frame is imitated, byte by byte.
fn run_imitated_bytes(draw: &mut Draw, guards: &Guards) -> Result<Ran, String> {
    let middle = imitated::short_middle(draw);
    let whole = Whole::around(middle, 0, 1, draw);
    whole.run_to((1..whole.bytes.len()).collect(), draw, guards)
}

/// A whole stream in whose middle frames are imitated, in a cutting of any kind.
pub fn run_imitated(draw: &mut Draw, guards: &Guards) -> Result<Ran, String> {
    if draw.turn % 512 == 511 {
        return run_imitated_bytes(draw, guards);
    }
    let whole = Whole::imitated(draw);
    let length = whole.bytes.len();
    let good = some_good_places(&whole, draw);
    let any = draw.random.below(length);
    let ends = match draw.random.below(8) {
        0 => Vec::new(),
        1 => vec![any],
        2 => frame_edges(&whole, draw),
        3 => in_syncs(good, any),
        4 => in_frames(good, any),
        5 => around_sync(good, draw),
        _ => {
            let most = draw.random.pick(&[1000, 2 * PIECE_MOST]);
            random_ends(length, most, draw)
        }
    };
    whole.run_to(ends, draw, guards)
}

/// Bytes of any kind and length that the plain reader takes, in any cutting.
pub fn run_any(draw: &mut Draw, guards: &Guards) -> Result<Ran, String> {
    let bytes = plain::input(draw);
    let some_sixty = 2 + bytes.len() / 32;
    let most = draw.random.pick(&[some_sixty, 600, 8 * PIECE_MOST]);
    let ends = random_ends(bytes.len(), most, draw);
    let pieces = pieces_to(ends, bytes.len());
    Fed::of(&bytes, &pieces, guards)?.ran(&bytes, pieces, draw, guards)
}
