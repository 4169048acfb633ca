//! How a case is made: a valid call of one kind, and then none, one or two of the twists of its kind.

use crate::both::Both;
use crate::flaw::Flaw;
use crate::lent::{Guards, Left};
use crate::random::Random;

/// A call of the header, with the name by which it is reported and the answers that it can give.
#[derive(Clone, Copy)]
pub struct Call {
    pub name: &'static str,
    pub answers: &'static [u8],
}

/// What a case is drawn from. The turn counts the cases that had the same theme, so that a twist
/// comes to each place, cell or length in its turn and does not leave it to chance.
pub struct Draw {
    pub random: Random,
    pub turn: usize,
}

impl Draw {
    pub fn in_turn<T: Copy>(&self, choices: &[T]) -> T {
        choices[self.turn % choices.len()]
    }
}

pub type Twist<C> = fn(&mut C, &mut Draw);

/// Cases of a call in which one thing alone is wrong. They are counted in a line of their own too,
/// since the call's line does not tell the refusals of one number apart.
pub struct Part<C> {
    /// The line's name, and the answers that should come in it.
    pub line: Call,
    pub holds: fn(&C) -> bool,
}

impl<C> Part<C> {
    pub const fn of(name: &'static str, answers: &'static [u8], holds: fn(&C) -> bool) -> Part<C> {
        let line = Call { name, answers };
        Part { line, holds }
    }
}

pub trait Case: Sized + 'static {
    const CALL: Call;
    const TWISTS: &'static [Twist<Self>];
    const PARTS: &'static [Part<Self>] = &[];

    fn valid(draw: &mut Draw) -> Self;

    /// Makes the call on both sides.
    fn compare(self, guards: &Guards) -> Outcome;

    /// What is wrong with the frame for which the call is refused.
    fn flaw(&self) -> Option<Flaw> {
        None
    }

    /// The flaws that must come.
    fn flaws() -> Vec<Flaw> {
        Vec::new()
    }
}

/// What the library returned, or how the two sides differ.
pub type Outcome = Result<u64, String>;

pub fn outcome(both: Both, buffers: &[&dyn Left]) -> Outcome {
    let Both { library, reference } = both;
    if library != reference {
        return Err(format!("library {library:#x}, reference {reference:#x}"));
    }
    match buffers.iter().find_map(|buffer| buffer.difference()) {
        Some(difference) => Err(difference),
        None => Ok(library),
    }
}

/// The case of a number among those of its kind. Its theme is a valid call, or one twist, or two.
pub fn made<C: Case>(number: usize, random: Random) -> C {
    let twists = C::TWISTS;
    let themes = twists.len() + 2;
    let (theme, turn) = (number % themes, number / themes);
    let mut draw = Draw { random, turn };
    let mut case = C::valid(&mut draw);
    if theme <= twists.len() {
        for twist in &twists[theme.saturating_sub(1)..theme] {
            twist(&mut case, &mut draw);
        }
    } else {
        let pair = [turn % twists.len(), turn / twists.len() % twists.len()];
        for twist in pair {
            draw.turn = draw.random.below(1 << 16);
            twists[twist](&mut case, &mut draw);
        }
    }
    case
}
