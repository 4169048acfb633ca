//! Buffers that are lent: one copy for the library and one for the reference, each between guards.

use crate::random::Number;

const GUARD_BYTES: usize = 64;

/// How the buffers of one case are laid out.
pub struct Guards {
    case: usize,
    exact: bool,
}

impl Guards {
    /// Guards on both sides. Their length moves with the case, and with it the alignment of bytes.
    pub fn around(case: usize) -> Guards {
        Guards { case, exact: false }
    }

    /// No guards: a memory checker sees the end of the allocation where the slice ends.
    pub fn none() -> Guards {
        Guards {
            case: 0,
            exact: true,
        }
    }

    pub fn lend<T: Number>(&self, name: &'static str, contents: &[T]) -> Lent<T> {
        let guard = match self.exact {
            true => 0,
            false => GUARD_BYTES / size_of::<T>() + self.case % 8,
        };
        let mut library = Vec::with_capacity(contents.len() + 2 * guard);
        library.extend((0..guard).map(pattern::<T>));
        library.extend_from_slice(contents);
        library.extend((guard..2 * guard).map(pattern::<T>));
        Lent {
            name,
            reference: library.clone(),
            library,
            guard,
        }
    }
}

fn pattern<T: Number>(place: usize) -> T {
    T::from_bits((place as u64 + 1).wrapping_mul(0x9E37_79B9_7F4A_7CA5))
}

pub struct Lent<T> {
    name: &'static str,
    library: Vec<T>,
    reference: Vec<T>,
    guard: usize,
}

impl<T: Number> Lent<T> {
    pub fn name(&self) -> &'static str {
        self.name
    }

    pub fn length(&self) -> usize {
        self.library.len() - 2 * self.guard
    }

    /// What the library is lent.
    pub fn pointer(&mut self) -> *mut T {
        self.library[self.guard..].as_mut_ptr()
    }

    /// What the reference is lent.
    pub fn reference(&mut self) -> &mut [T] {
        let end = self.guard + self.length();
        &mut self.reference[self.guard..end]
    }

    /// What the library left.
    pub fn left(&self) -> &[T] {
        &self.library[self.guard..self.guard + self.length()]
    }
}

/// A buffer of any type, after both calls.
pub trait Left {
    /// The first cell that differs, guards included; those before the slice have negative places.
    fn difference(&self) -> Option<String>;
}

impl<T: Number> Left for Lent<T> {
    fn difference(&self) -> Option<String> {
        if self.library == self.reference {
            return None;
        }
        let cells = self.library.iter().zip(&self.reference);
        let (place, (library, reference)) = cells.enumerate().find(|(_, (l, r))| l != r)?;
        let place = place as isize - self.guard as isize;
        let (name, length) = (self.name, self.length());
        Some(format!(
            "{name}[{place}] of {length}: library {library}, reference {reference}"
        ))
    }
}
