//! The answer of a case, as it is written and as the door returns it.
//!
//!     answer 0                            a call that finds nothing
//!     answer 0 word 1                     what the call finds, by its name
//!     answer 0 frames 1 skipped 0 left 3  the plain reader counts what it skips and leaves, too
//!     answer 0 inside 512                 a byte's reason: it is inside the frame that begins there
//!     answer 0 near 2                     it is skipped for that byte of the near sync; or of the far one: far 2
//!     answer 0 held                       it is held; beside a refusal no reason stands: answer 9
//!     answer 7 word 0 byte 509            refusals 6 and 7: the place, a byte of the frame
//!     answer 8 address 0 cause relay      refusal 8: the cause, by its name
//!     answer 8 word 0 cause ain5          of a frame from the radio: the level
//!
//! The three refusals must say it, and no other answer may.

use crate::call::{Call, Found};
use crate::entry::{Clause, Mistake};
use differential::model::Parts;

const REFUSALS: u32 = 9;
/// The most that can be returned of what is found, skipped and left.
const FOUND_MOST: [u32; 3] = [0xFF, 0xFFFF, 0xFFFF];
/// The reasons of a byte, from 1 on, with the most of what belongs to each: a frame begins at 65,536 less 515 or before.
const REASONS: [(&str, Option<u32>); 4] = [
    ("inside", Some(65_021)),
    ("near", Some(2)),
    ("far", Some(2)),
    ("held", None),
];
/// The causes of refusal 8, from 1 on.
#[rustfmt::skip]
const CAUSES: [&str; 10] = [
    "source10", "relay", "word9_c4_bit7", "word10_c1_bit7",
    "ain5", "ain1", "ain2", "ain3", "ain4", "ain6",
];

/// What an answer says of where the frame is wrong.
enum Place {
    Byte { most: u32 },
    Cause,
}

fn place_of(answer: u32) -> Option<Place> {
    match answer {
        6 => Some(Place::Byte { most: 2 }),
        7 => Some(Place::Byte { most: 511 }),
        8 => Some(Place::Cause),
        _ => None,
    }
}

/// As the door returns it.
pub fn answer(call: &Call, clause: &Clause) -> Result<u64, Mistake> {
    let mut words = Words { clause, next: 1 };
    let answer = words.number("the answer", REFUSALS)?;
    let found = match call.found {
        Found::Counts(names) => words.counts(names)?,
        Found::Reason if answer == 0 => words.reason()?,
        Found::Reason => Parts::default(),
    };
    let place = match place_of(answer) {
        Some(Place::Byte { most }) => words.named("byte")?.number("byte", most)?,
        Some(Place::Cause) => words.named("cause")?.cause()?,
        None => 0,
    };
    clause.ends_at(words.next)?;
    let parts = Parts {
        answer,
        place,
        ..found
    };
    Ok(parts.returned())
}

/// As it is written. What a call should not return is shown too.
pub fn shown(call: &Call, returned: u64) -> String {
    let parts = Parts::of(returned);
    let found = match call.found {
        Found::Counts(names) => counts_shown(names, &parts),
        Found::Reason => reason_shown(&parts),
    };
    let Parts { answer, place, .. } = parts;
    let place = match place_of(answer) {
        Some(Place::Byte { .. }) => format!(" byte {place}"),
        Some(Place::Cause) => format!(" cause {}", cause_name(place)),
        None if place != 0 => format!(" and place {place}"),
        None => String::new(),
    };
    format!("answer {answer}{found}{place}")
}

fn counts_shown(names: &[&str], parts: &Parts) -> String {
    let counts = (0..).zip([parts.found, parts.skipped, parts.left]);
    counts
        .map(|(number, count)| match names.get(number) {
            Some(name) => format!(" {name} {count}"),
            None if count != 0 => format!(" and {count}"),
            None => String::new(),
        })
        .collect()
}

fn reason_shown(parts: &Parts) -> String {
    let (reason, detail) = (parts.found, parts.detail());
    let mut reasons = (1..).zip(REASONS);
    let known = reasons.find(|(number, _)| *number == reason);
    let name = match known {
        Some((_, (name, _))) => format!(" {name}"),
        None if reason != 0 => format!(" reason {reason}"),
        None => String::new(),
    };
    match known {
        Some((_, (_, Some(_)))) => format!("{name} {detail}"),
        _ if detail != 0 => format!("{name} and {detail}"),
        _ => name,
    }
}

fn cause_name(cause: u32) -> String {
    let mut causes = (1..).zip(CAUSES);
    let known = causes.find(|(number, _)| *number == cause);
    known.map_or(cause.to_string(), |(_, name)| name.to_owned())
}

/// The words that are still to be read.
struct Words<'a> {
    clause: &'a Clause,
    next: usize,
}

impl<'a> Words<'a> {
    fn word(&mut self, wanted: &str) -> Result<&'a str, Mistake> {
        let word = self.clause.word(self.next, wanted)?;
        self.next += 1;
        Ok(word)
    }

    /// What follows its name.
    fn named(&mut self, name: &str) -> Result<&mut Self, Mistake> {
        match self.word(name)? {
            word if word == name => Ok(self),
            other => Err(self.clause.unknown(other)),
        }
    }

    fn number(&mut self, wanted: &str, most: u32) -> Result<u32, Mistake> {
        let word = self.word(wanted)?;
        let number = word.parse().ok().filter(|&number| number <= most);
        let text = || format!("{wanted}: '{word}' is not a number from 0 to {most}");
        number.ok_or_else(|| self.clause.mistake(text()))
    }

    fn counts(&mut self, names: &[&str]) -> Result<Parts, Mistake> {
        let mut counts = [0; FOUND_MOST.len()];
        for (count, (name, most)) in counts.iter_mut().zip(names.iter().zip(FOUND_MOST)) {
            *count = self.named(name)?.number(name, most)?;
        }
        let [found, skipped, left] = counts;
        Ok(Parts {
            found,
            skipped,
            left,
            ..Parts::default()
        })
    }

    fn reason(&mut self) -> Result<Parts, Mistake> {
        let word = self.word("the reason")?;
        let mut reasons = (1..).zip(REASONS);
        let found = reasons.find(|(_, (name, _))| *name == word);
        let (number, (name, most)) = found.ok_or_else(|| self.clause.unknown(word))?;
        let detail = match most {
            Some(most) => self.number(name, most)?,
            None => 0,
        };
        Ok(Parts::of_reason(number, detail))
    }

    fn cause(&mut self) -> Result<u32, Mistake> {
        let word = self.word("cause")?;
        let mut causes = (1..).zip(CAUSES);
        let found = causes.find(|(_, name)| *name == word);
        found.map_or(Err(self.clause.unknown(word)), |(number, _)| Ok(number))
    }
}

#[cfg(test)]
mod tests {
    use super::*;
    use crate::calls;

    #[test]
    fn what_no_byte_can_have_is_shown() {
        let call = calls::find("why_byte").expect("it is a call");
        let all = [
            (0x0200_0000_0100, "answer 0 inside 512"),
            (0x0001_0000_0000_0100, "answer 0 inside 65536"),
            (0x0003_0000_0200, "answer 0 near 3"),
            (0x0400, "answer 0 held"),
            (0x0007_0000_0400, "answer 0 held and 7"),
            (0x0001_0400, "answer 0 held and place 1"),
            (0x0000, "answer 0"),
            (0x0002_0000_0500, "answer 0 reason 5 and 2"),
            (0x0009, "answer 9"),
            (0x0409, "answer 9 held"),
            (0x0001_0000_0009, "answer 9 and 1"),
        ];
        for (returned, text) in all {
            assert_eq!(shown(call, returned), text);
        }
    }
}
