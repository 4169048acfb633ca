//! The way from a record's fields to its cells and back.

use std::slice::{Iter, IterMut};

/// What one cell holds. The library gives no cell that no field has, so `of` need not be right for one.
pub(crate) trait Field: Copy {
    fn cell(self) -> u32;
    fn of(cell: u32) -> Self;
}

impl Field for bool {
    #[inline]
    fn cell(self) -> u32 {
        self.into()
    }
    #[inline]
    fn of(cell: u32) -> bool {
        cell != 0
    }
}

impl Field for u8 {
    #[inline]
    fn cell(self) -> u32 {
        self.into()
    }
    #[inline]
    fn of(cell: u32) -> u8 {
        cell as u8
    }
}

impl Field for u16 {
    #[inline]
    fn cell(self) -> u32 {
        self.into()
    }
    #[inline]
    fn of(cell: u32) -> u16 {
        cell as u16
    }
}

impl Field for u32 {
    #[inline]
    fn cell(self) -> u32 {
        self
    }
    #[inline]
    fn of(cell: u32) -> u32 {
        cell
    }
}

/// A record whose fields are listed once, in the header's order, for both directions.
pub(crate) trait Record<const CELLS: usize>: Sized {
    /// The record, each field of it passed by `way` in the order of the cells.
    fn each(way: &mut impl Way<Self>) -> Self;

    #[inline]
    fn cells(&self) -> [u32; CELLS] {
        let mut cells = [0; CELLS];
        Self::each(&mut ToCells {
            record: self,
            cells: cells.iter_mut(),
        });
        cells
    }

    #[inline]
    fn of_cells(cells: &[u32; CELLS]) -> Self {
        Self::each(&mut OfCells {
            cells: cells.iter(),
        })
    }
}

/// One of the two directions.
pub(crate) trait Way<R> {
    fn pass<F: Field>(&mut self, field: impl FnOnce(&R) -> F) -> F;
}

struct ToCells<'a, R> {
    record: &'a R,
    cells: IterMut<'a, u32>,
}

impl<R> Way<R> for ToCells<'_, R> {
    #[inline]
    fn pass<F: Field>(&mut self, field: impl FnOnce(&R) -> F) -> F {
        let value = field(self.record);
        if let Some(cell) = self.cells.next() {
            *cell = value.cell();
        }
        value
    }
}

struct OfCells<'a> {
    cells: Iter<'a, u32>,
}

impl<R> Way<R> for OfCells<'_> {
    #[inline]
    fn pass<F: Field>(&mut self, _: impl FnOnce(&R) -> F) -> F {
        F::of(self.cells.next().copied().unwrap_or(0))
    }
}
