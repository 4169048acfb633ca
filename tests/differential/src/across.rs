//! Frames that lie across the join of held bytes and piece, good ones and those that one byte of sync keeps from being
//! good. They are found in what is fed, by the scope's rule.

use crate::model::Parts;
use crate::twist::{FRAME, SYNC};
use std::fmt;

/// The bytes that settle whether a place begins a good frame: the frame and the sync after it.
pub const WINDOW: usize = FRAME + SYNC.len();
/// The sync bytes among them, near and far.
pub const SYNC_BYTES: [usize; 6] = [0, 1, 2, FRAME, FRAME + 1, FRAME + 2];

/// How many of a window's bytes are held.
#[derive(Clone, Copy, PartialEq, Eq, PartialOrd, Ord)]
pub enum Cut {
    Near(usize),
    Inside,
    /// The frame, and not the sync after it.
    Frame,
    Far(usize),
}

impl Cut {
    fn after(held: usize) -> Cut {
        match held {
            1 | 2 => Cut::Near(held),
            FRAME => Cut::Frame,
            _ if held > FRAME => Cut::Far(held - FRAME),
            _ => Cut::Inside,
        }
    }
}

impl fmt::Display for Cut {
    fn fmt(&self, f: &mut fmt::Formatter) -> fmt::Result {
        match self {
            Cut::Near(held) => write!(f, "near sync, {held} of 3 held"),
            Cut::Inside => write!(f, "inside the frame"),
            Cut::Frame => write!(f, "between frame and far sync"),
            Cut::Far(held) => write!(f, "far sync, {held} of 3 held"),
        }
    }
}

/// A frame that was laid across the join and that the reading comes to, good or a near miss.
#[derive(Clone, Copy, PartialEq, Eq, PartialOrd, Ord)]
pub struct Across {
    pub cut: Cut,
    /// The one of the sync bytes that is not 7F.
    pub wrong: Option<usize>,
}

/// Cases that lay frames across joins.
pub struct Theme {
    pub name: &'static str,
    /// The cuts that must come.
    cuts: &'static [Cut],
    /// Whether they must come with each near miss too.
    near_misses: bool,
}

pub const SINGLE: Theme = Theme {
    name: "single calls",
    cuts: &[
        Cut::Near(1),
        Cut::Near(2),
        Cut::Inside,
        Cut::Frame,
        Cut::Far(1),
        Cut::Far(2),
    ],
    near_misses: true,
};

pub const SYNCS_CUT: Theme = Theme {
    name: "syncs cut",
    cuts: &[Cut::Near(1), Cut::Near(2), Cut::Far(1), Cut::Far(2)],
    near_misses: false,
};

pub const FRAMES_CUT: Theme = Theme {
    name: "frames cut",
    cuts: &[Cut::Inside],
    near_misses: false,
};

impl Theme {
    pub fn must_come(&self) -> impl Iterator<Item = Across> + '_ {
        let misses = if self.near_misses {
            SYNC_BYTES.len()
        } else {
            0
        };
        let wrong = move || [None].into_iter().chain((0..misses).map(Some));
        let cuts = self.cuts.iter();
        cuts.flat_map(move |&cut| wrong().map(move |wrong| Across { cut, wrong }))
    }
}

impl fmt::Display for Across {
    fn fmt(&self, f: &mut fmt::Formatter) -> fmt::Result {
        write!(f, "{}", self.cut)?;
        match self.wrong {
            None => write!(f, ", good"),
            Some(byte) => write!(f, ", byte {} wrong", SYNC_BYTES[byte]),
        }
    }
}

/// The reading, place by place, of a text that is fed in pieces.
pub struct Reading {
    /// The places at which frames were laid. By chance others come, which do not count.
    laid: Vec<usize>,
    place: usize,
    frames: u32,
    pub across: Vec<Across>,
}

impl Reading {
    pub fn new(laid: Vec<usize>) -> Reading {
        Reading {
            laid,
            place: 0,
            frames: 0,
            across: Vec::new(),
        }
    }

    /// Goes on with a text of which all from the join on is new.
    pub fn go_on(&mut self, text: &[u8], join: usize) {
        while let Some(window) = text[self.place..].first_chunk::<WINDOW>() {
            let held = join.saturating_sub(self.place);
            let mut wrong = (0..SYNC_BYTES.len()).filter(|&byte| window[SYNC_BYTES[byte]] != 0x7f);
            let (wrong, more) = (wrong.next(), wrong.next());
            let laid = (1..WINDOW).contains(&held) && self.laid.contains(&self.place);
            if laid && more.is_none() {
                let cut = Cut::after(held);
                self.across.push(Across { cut, wrong });
            }
            self.frames += u32::from(wrong.is_none());
            self.place += if wrong.is_none() { FRAME } else { 1 };
        }
    }

    /// A call that is accepted hands out the frames that were read.
    pub fn check(&self, returned: u64) -> Result<u64, String> {
        let promised = Parts {
            found: self.frames,
            ..Parts::default()
        };
        match promised.returned() {
            promised if promised == returned => Ok(returned),
            _ => Err(format!(
                "{returned:#x}, and {} frames stand there",
                self.frames
            )),
        }
    }
}
