//! A call as the case files know it, and what it left.

use crate::kind::Kind;
use differential::both::Both;
use differential::lent::{Guards, Left, Lent};
use differential::random::Number;

pub struct Argument {
    pub name: &'static str,
    pub kind: &'static Kind,
}

pub const fn argument(name: &'static str, kind: &'static Kind) -> Argument {
    Argument { name, kind }
}

/// What a call finds, as its answers say it.
pub enum Found {
    /// Numbers by their names: what it finds and, after it, what the plain reader counts.
    Counts(&'static [&'static str]),
    /// The reason of a byte, by its name, with what belongs to it.
    Reason,
}

pub struct Call {
    pub name: &'static str,
    pub arguments: &'static [Argument],
    pub found: Found,
    /// Makes the call on both sides; an error says why the case is none.
    pub run: fn(&Given) -> Result<Ran, String>,
}

/// The arguments of one case: their cells, and one cell for a number.
pub struct Given<'a> {
    pub call: &'static Call,
    pub cells: &'a [Vec<i128>],
    pub guards: Guards,
}

impl Given<'_> {
    pub fn cells(&self, name: &str) -> &[i128] {
        let mut arguments = self.call.arguments.iter().zip(self.cells);
        let found = arguments.find(|(argument, _)| argument.name == name);
        found.map(|(_, cells)| &cells[..]).unwrap_or_default()
    }

    pub fn number(&self, name: &str) -> usize {
        let cell = self.cells(name).first();
        cell.and_then(|&cell| usize::try_from(cell).ok())
            .unwrap_or_default()
    }

    /// The cells as the call takes them. Their kind has seen to it that they fit.
    pub fn typed<T: TryFrom<i128>>(&self, name: &str) -> Vec<T> {
        let cells = self.cells(name).iter();
        cells.filter_map(|&cell| T::try_from(cell).ok()).collect()
    }

    pub fn lend<T: Number + TryFrom<i128>>(&self, name: &'static str) -> Lent<T> {
        self.guards.lend(name, &self.typed::<T>(name))
    }
}

/// What a lent slice held after the call, on each side.
pub struct After {
    pub name: &'static str,
    pub library: Vec<i128>,
    pub reference: Vec<i128>,
    /// A cell beside the slice that has changed.
    pub stray: Option<String>,
}

impl After {
    pub fn of<T: Copy + Into<i128>>(name: &'static str, library: &[T], reference: &[T]) -> After {
        let plain = |cells: &[T]| cells.iter().map(|&cell| cell.into()).collect();
        After {
            name,
            library: plain(library),
            reference: plain(reference),
            stray: None,
        }
    }
}

impl<T: Number + Into<i128>> From<Lent<T>> for After {
    fn from(mut lent: Lent<T>) -> After {
        let (library, difference) = (lent.left().to_vec(), lent.difference());
        let reference = lent.reference();
        After {
            stray: difference.filter(|_| library == reference),
            ..After::of(lent.name(), &library, lent.reference())
        }
    }
}

pub struct Ran {
    pub both: Both,
    pub after: Vec<After>,
}
