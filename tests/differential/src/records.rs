//! The calls that only write a record: the layout's row and the fresh records.

use crate::both::{self, Both};
use crate::case::{outcome, Call, Case, Draw, Outcome, Twist};
use crate::cells;
use crate::lent::{Guards, Lent};
use crate::twist::{cell_count, STRANGE_COUNTS};
use std::marker::PhantomData;

/// What a fresh record is written over is not looked at, so it is any cells at all.
fn any_cells(record: usize, draw: &mut Draw) -> Vec<u32> {
    let more = draw.random.below(3);
    draw.random.many(record + more)
}

pub struct Layout {
    receivers: usize,
    row: Vec<u32>,
}

impl Case for Layout {
    const CALL: Call = Call {
        name: "hpsdr_layout",
        answers: &[0, 1, 2],
    };
    const TWISTS: &'static [Twist<Self>] = &[
        |case, draw| case.receivers = draw.in_turn(&STRANGE_COUNTS),
        |case, draw| case.receivers = draw.turn % 12,
        |case, draw| case.receivers = draw.random.bits() as usize,
        |case, draw| cell_count(&mut case.row, cells::ROW, draw),
    ];

    fn valid(draw: &mut Draw) -> Self {
        Layout {
            receivers: 1 + draw.turn % 8,
            row: any_cells(cells::ROW, draw),
        }
    }

    fn compare(self, guards: &Guards) -> Outcome {
        let mut row = guards.lend("row", &self.row);
        let both = both::layout(self.receivers, &mut row);
        outcome(both, &[&row])
    }
}

/// A record of cells that a call makes fresh.
pub trait Record: 'static {
    const NAME: &'static str;
    const CELLS: usize;

    fn made_fresh(cells: &mut Lent<u32>) -> Both;
}

pub struct Fresh<R> {
    cells: Vec<u32>,
    record: PhantomData<R>,
}

impl<R: Record> Case for Fresh<R> {
    const CALL: Call = Call {
        name: R::NAME,
        answers: &[0, 1],
    };
    const TWISTS: &'static [Twist<Self>] =
        &[|case, draw| cell_count(&mut case.cells, R::CELLS, draw)];

    fn valid(draw: &mut Draw) -> Self {
        Fresh {
            cells: any_cells(R::CELLS, draw),
            record: PhantomData,
        }
    }

    fn compare(self, guards: &Guards) -> Outcome {
        let mut cells = guards.lend("cells", &self.cells);
        let both = R::made_fresh(&mut cells);
        outcome(both, &[&cells])
    }
}

macro_rules! fresh_record {
    ($record:ident, $cells:expr, $call:ident, $both:path) => {
        pub struct $record;

        impl Record for $record {
            const NAME: &'static str = stringify!($call);
            const CELLS: usize = $cells;

            fn made_fresh(cells: &mut Lent<u32>) -> Both {
                $both(cells)
            }
        }
    };
}

fresh_record!(
    Status,
    cells::STATUS_MOST.len(),
    hpsdr_status_fresh,
    both::status_fresh
);
fresh_record!(Host, cells::HOST, hpsdr_host_fresh, both::host_fresh);
fresh_record!(
    Builder,
    cells::BUILDER_MOST.len(),
    hpsdr_builder_fresh,
    both::builder_fresh
);

pub struct StreamFresh {
    counts: Vec<u64>,
    held: Vec<u8>,
}

impl Case for StreamFresh {
    const CALL: Call = Call {
        name: "hpsdr_stream_fresh",
        answers: &[0, 1],
    };
    const TWISTS: &'static [Twist<Self>] = &[
        |case, draw| cell_count(&mut case.counts, cells::COUNTS, draw),
        |case, draw| cell_count(&mut case.held, cells::HELD, draw),
    ];

    fn valid(draw: &mut Draw) -> Self {
        let (more_counts, more_held) = (draw.random.below(3), draw.random.below(3));
        StreamFresh {
            counts: draw.random.many(cells::COUNTS + more_counts),
            held: draw.random.bytes(cells::HELD + more_held),
        }
    }

    fn compare(self, guards: &Guards) -> Outcome {
        let mut counts = guards.lend("counts", &self.counts);
        let mut held = guards.lend("held", &self.held);
        let both = both::stream_fresh(&mut counts, &mut held);
        outcome(both, &[&counts, &held])
    }
}
