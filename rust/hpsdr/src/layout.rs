use crate::raw;
use crate::refusal::{found, Refusal};

/// How the samples of a number of receivers fill a radio frame.
#[derive(Clone, Copy, Debug, PartialEq, Eq)]
pub struct Row {
    /// Bytes of a slot.
    pub slot: usize,
    /// Slots of a frame: as many microphone values, and 2 · receivers times as many of I and Q.
    pub slots: usize,
    /// Zero bytes after the slots.
    pub padding: usize,
}

/// The row of 1 to 8 receivers. A frame does not carry their number; [`Status::read`](crate::Status::read) says what a
/// wrong one does. Refusal: [`BadCount`](Refusal::BadCount).
///
/// ```
/// use hpsdr::{layout, Refusal, Row};
///
/// assert_eq!(layout(3), Ok(Row { slot: 20, slots: 25, padding: 4 }));
/// assert_eq!(layout(0), Err(Refusal::BadCount));
/// assert_eq!(layout(256 + 3), Err(Refusal::BadCount));
/// ```
pub fn layout(receivers: usize) -> Result<Row, Refusal> {
    let mut cells = [0; raw::ROW_CELLS];
    // SAFETY: the pointer and the number are those of one array, which nothing else has for the time of the call.
    let got = unsafe { raw::hpsdr_layout(receivers, cells.as_mut_ptr(), cells.len()) };
    found(got)?;
    let [slot, slots, padding] = cells.map(|cell| cell as usize);
    Ok(Row {
        slot,
        slots,
        padding,
    })
}
