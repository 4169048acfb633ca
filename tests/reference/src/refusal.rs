//! The nine refusals of the scope, and what request T-02 has three of them say.

/// Why a call is refused. The refusals stand in the order in which they are tested, and so do the
/// places of each: the least that holds is the answer.
#[derive(Clone, Copy, Debug, PartialEq, Eq, PartialOrd, Ord)]
pub enum Refusal {
    /// An unsound stream record, or a turn above 10.
    BadState,
    /// A receiver count not 1 to 8.
    BadCount,
    /// A frame, piece, transfer or input of a length that it cannot have.
    Length,
    /// A slice too short.
    ShortBuffer,
    /// A total above 2^48.
    StreamFull,
    /// No sync.
    NoSync {
        /// The first of the bytes 0 to 2 that is not 7F.
        byte: usize,
    },
    /// Padding that is not zero.
    Padding {
        /// The first such byte, as a byte of the frame.
        byte: usize,
    },
    /// An unassigned host code or bit, or a level of the radio above 4,095.
    Reserved {
        /// The first such.
        cause: Cause,
    },
    /// A value that does not fit, or a place that is not below the input's length.
    Range,
}

/// The unassigned host codes and bits, and then the radio's levels, which are twelve bits (T-08):
/// each in the order in which they are tested.
#[derive(Clone, Copy, Debug, PartialEq, Eq, PartialOrd, Ord)]
pub enum Cause {
    /// Word 0's 10 MHz source of code 3.
    Source10,
    /// Word 0's transmit relay of code 3.
    Relay,
    /// Word 9's C4 bit 7.
    Word9C4Bit7,
    /// Word 10's C1 bit 7.
    Word10C1Bit7,
    /// Radio word 1's C1C2.
    Ain5,
    /// Radio word 1's C3C4.
    Ain1,
    /// Radio word 2's C1C2.
    Ain2,
    /// Radio word 2's C3C4.
    Ain3,
    /// Radio word 3's C1C2.
    Ain4,
    /// Radio word 3's C3C4.
    Ain6,
}

impl Refusal {
    /// Its number in the scope's table.
    pub fn number(self) -> u8 {
        match self {
            Refusal::BadState => 1,
            Refusal::BadCount => 2,
            Refusal::Length => 3,
            Refusal::ShortBuffer => 4,
            Refusal::StreamFull => 5,
            Refusal::NoSync { .. } => 6,
            Refusal::Padding { .. } => 7,
            Refusal::Reserved { .. } => 8,
            Refusal::Range => 9,
        }
    }
}
