//! What the cases and the benchmarks use too: the calls on both sides, what is lent to them, the model of
//! the door's cells, and the generator.

pub mod both;
pub mod cells;
pub mod lent;
pub mod model;
pub mod random;
