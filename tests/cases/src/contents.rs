//! What a slice holds, as far as it has been said.

#[derive(Clone)]
pub struct Contents {
    /// A cell of a record may not have been said yet.
    cells: Vec<Option<i128>>,
    /// What all cells held at first, where they held the same.
    fill: Option<i128>,
}

/// Items that stand at a place, and again so many times in all, so many cells apart.
pub struct Run {
    pub place: usize,
    pub every: usize,
    pub times: usize,
    pub items: Vec<Item>,
}

/// A number, and how much it grows from one time to the next.
#[derive(Clone, Copy)]
pub struct Item {
    pub first: i128,
    pub step: i128,
}

impl Contents {
    pub fn filled(length: usize, fill: i128) -> Contents {
        Contents {
            cells: vec![Some(fill); length],
            fill: Some(fill),
        }
    }

    /// A record of which nothing has been said.
    pub fn unsaid(cells: usize) -> Contents {
        Contents {
            cells: vec![None; cells],
            fill: None,
        }
    }

    pub fn length(&self) -> usize {
        self.cells.len()
    }

    /// At least so many cells: those past the ones there are have not been said.
    pub fn widened(mut self, cells: usize) -> Contents {
        let length = self.length().max(cells);
        self.cells.resize(length, None);
        self
    }

    pub fn put(&mut self, place: usize, value: i128) -> Result<(), String> {
        let length = self.length();
        let cell = self.cells.get_mut(place);
        *cell.ok_or(format!("there is no place {place} among {length}"))? = Some(value);
        Ok(())
    }

    /// Each value of the run goes by `checked` on its way in.
    pub fn put_run(
        &mut self,
        run: &Run,
        checked: impl Fn(i128) -> Result<i128, String>,
    ) -> Result<(), String> {
        for time in 0..run.times {
            let place = run.place + time * run.every;
            for (place, item) in (place..).zip(&run.items) {
                self.put(place, checked(item.first + item.step * time as i128)?)?;
            }
        }
        Ok(())
    }

    pub fn paste(&mut self, other: &Contents, place: usize) -> Result<(), String> {
        for (place, cell) in (place..).zip(&other.cells) {
            self.put(place, cell.ok_or("what is put is not said whole")?)?;
        }
        Ok(())
    }

    /// Cut, or longer by cells that hold the given number or what all held at first.
    pub fn resize(&mut self, length: usize, more: Option<i128>) -> Result<(), String> {
        let more = more.or(self.fill);
        if length > self.length() && more.is_none() {
            return Err("what the new cells hold is not said".to_owned());
        }
        self.cells.resize(length, more);
        Ok(())
    }

    /// Every cell, or the first that has not been said.
    pub fn said(&self) -> Result<Vec<i128>, usize> {
        let cells = self.cells.iter().enumerate();
        cells.map(|(place, cell)| cell.ok_or(place)).collect()
    }
}
