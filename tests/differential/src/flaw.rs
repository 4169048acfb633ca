//! What is wrong with a frame whose refusal says a place. Besides the reference's word on every call,
//! requests T-02 and T-08 are stated directly, of what was put in.

use crate::levels;
use crate::model::Parts;
use crate::radio::padding_bytes;
use crate::twist::{FRAME, SYNC};
use reference::row;
use std::fmt;

const NO_SYNC: u32 = 6;
const PADDING: u32 = 7;
const RESERVED: u32 = 8;

/// The causes of a frame from the host. Those of a frame from the radio, its levels, go on after them.
const CAUSES: [&str; 4] = [
    "10 MHz source",
    "transmit relay",
    "word 9's C4 bit 7",
    "word 10's C1 bit 7",
];

#[derive(Clone, Copy, PartialEq, Eq, PartialOrd, Ord)]
pub enum Flaw {
    /// The set of the bytes 0 to 2 that are not 7F.
    Sync(u8),
    /// The first padding byte that is not 0, and whether one behind it is not either.
    Padding {
        receivers: usize,
        followed: bool,
        byte: usize,
    },
    /// The set of causes, from bit 0 on.
    Reserved(u8),
    /// The set of levels above 4,095, and the one bit that the first has above its twelve, if there is one alone.
    Levels { set: u8, alone: Option<u32> },
}

fn members(set: u8) -> impl Iterator<Item = usize> {
    (0..8).filter(move |place| set >> place & 1 == 1)
}

fn of_sync(frame: &[u8]) -> Option<Flaw> {
    let wrong = (0..SYNC.len()).filter(|&byte| frame[byte] != SYNC[byte]);
    let set = wrong.fold(0, |set, byte| set | 1 << byte);
    (set != 0).then_some(Flaw::Sync(set))
}

fn of_padding(frame: &[u8], receivers: usize) -> Option<Flaw> {
    let padding = FRAME - row(receivers).ok()?.padding..FRAME;
    let mut wrong = padding.filter(|&byte| frame[byte] != 0);
    let byte = wrong.next()?;
    Some(Flaw::Padding {
        receivers,
        followed: wrong.next().is_some(),
        byte,
    })
}

fn of_levels(frame: &[u8]) -> Option<Flaw> {
    let above = levels::above(frame);
    let (_, first) = above.first()?;
    let bit = first.ilog2();
    Some(Flaw::Levels {
        set: above.iter().fold(0, |set, (level, _)| set | 1 << level),
        alone: (first - (1 << bit) <= levels::MOST).then_some(bit),
    })
}

fn of_word(frame: &[u8]) -> Option<Flaw> {
    let (c1, c4) = (frame[4], frame[7]);
    let set = match frame[3] >> 1 {
        0 => u8::from(c1 & 0b1100 == 0b1100) | u8::from(c4 & 0b11 == 0b11) << 1,
        9 => u8::from(c4 >= 0x80) << 2,
        10 => u8::from(c1 >= 0x80) << 3,
        _ => 0,
    };
    (set != 0).then_some(Flaw::Reserved(set))
}

impl Flaw {
    /// Of a whole frame from the radio.
    pub fn of_radio(frame: &[u8], receivers: usize) -> Option<Flaw> {
        of_sync(frame)
            .or_else(|| of_padding(frame, receivers))
            .or_else(|| of_levels(frame))
    }

    /// Of a whole frame from the host.
    pub fn of_host(frame: &[u8]) -> Option<Flaw> {
        of_sync(frame).or_else(|| of_word(frame))
    }

    /// Each sync byte by itself, with another, and all.
    fn every_sync() -> impl Iterator<Item = Flaw> {
        (1..8).map(Flaw::Sync)
    }

    /// Each padding byte by itself, and each but the last with another behind it.
    fn every_padding() -> impl Iterator<Item = Flaw> {
        let of = |followed| {
            move |(receivers, byte)| Flaw::Padding {
                receivers,
                followed,
                byte,
            }
        };
        let bytes = padding_bytes().into_iter();
        let but_the_last = bytes.clone().filter(|&(_, byte)| byte != FRAME - 1);
        bytes.map(of(false)).chain(but_the_last.map(of(true)))
    }

    /// Each cause by itself, and the two that one word can have.
    fn every_cause() -> impl Iterator<Item = Flaw> {
        [0b0001, 0b0010, 0b0011, 0b0100, 0b1000]
            .into_iter()
            .map(Flaw::Reserved)
    }

    /// Each level by itself and the two of each word, by each bit alone and by more.
    fn every_level() -> impl Iterator<Item = Flaw> {
        let alone = [Some(12), Some(13), Some(14), Some(15), None];
        let sets = [0, 2, 4]
            .into_iter()
            .flat_map(|first| [1, 2, 3].map(|set| set << first));
        sets.flat_map(move |set| alone.map(|alone| Flaw::Levels { set, alone }))
    }

    pub fn every_of_radio() -> Vec<Flaw> {
        Flaw::every_sync()
            .chain(Flaw::every_padding())
            .chain(Flaw::every_level())
            .collect()
    }

    pub fn every_of_host() -> Vec<Flaw> {
        Flaw::every_sync().chain(Flaw::every_cause()).collect()
    }

    /// The answer and the place.
    fn refusal(self) -> (u32, u32) {
        match self {
            Flaw::Sync(set) => (NO_SYNC, set.trailing_zeros()),
            Flaw::Padding { byte, .. } => (PADDING, byte as u32),
            Flaw::Reserved(set) => (RESERVED, 1 + set.trailing_zeros()),
            Flaw::Levels { set, .. } => (RESERVED, 1 + CAUSES.len() as u32 + set.trailing_zeros()),
        }
    }

    /// T-02: the flaw's refusal comes with its place, and without a flaw none of the three and no place.
    pub fn check(flaw: Option<Flaw>, returned: u64) -> Result<(), String> {
        let Parts { answer, place, .. } = Parts::of(returned);
        let says = place != 0 || (NO_SYNC..=RESERVED).contains(&answer);
        let said = says.then_some((answer, place));
        let promised = flaw.map(Flaw::refusal);
        match said == promised {
            true => Ok(()),
            false => Err(format!("T-02: {said:?} is said, and {promised:?} promised")),
        }
    }

    /// Its line of the table, which the padding bytes of a layout share, and the bits of a level.
    pub fn line(&self) -> String {
        match *self {
            Flaw::Sync(set) => {
                let bytes: Vec<_> = members(set).map(|byte| byte.to_string()).collect();
                format!("sync byte {}", bytes.join(" and "))
            }
            Flaw::Padding {
                receivers,
                followed,
                ..
            } => {
                let more = if followed { " and others" } else { "" };
                format!("{receivers} receivers, a padding byte{more}")
            }
            Flaw::Reserved(set) => {
                let causes: Vec<_> = members(set).map(|cause| CAUSES[cause]).collect();
                causes.join(" and ")
            }
            Flaw::Levels { set, .. } => {
                let names: Vec<_> = members(set).map(|level| levels::NAMES[level]).collect();
                format!("{} above 4,095", names.join(" and "))
            }
        }
    }
}

impl fmt::Display for Flaw {
    fn fmt(&self, f: &mut fmt::Formatter) -> fmt::Result {
        write!(f, "{}", self.line())?;
        match self {
            Flaw::Padding { byte, .. } => write!(f, ", the first {byte}"),
            Flaw::Levels {
                alone: Some(bit), ..
            } => write!(f, ", bit {bit} alone of the first"),
            Flaw::Levels { alone: None, .. } => write!(f, ", more bits of the first"),
            _ => Ok(()),
        }
    }
}
