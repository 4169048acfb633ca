//! What radio and host frames share: sync, control bytes, payload, and the
//! layout of radio slots.

use crate::refusal::Refusal;

pub(crate) const FRAME: usize = 512;
pub(crate) const SYNC: [u8; 3] = [0x7F; 3];
const HEADER: usize = 8;
const PAYLOAD: usize = FRAME - HEADER;
/// Bytes of one I and one Q.
pub(crate) const IQ_SIZE: usize = 6;
const MICROPHONE_SIZE: usize = 2;

/// C0 to C4.
pub(crate) type Control = [u8; 5];

/// The layout of a radio frame's payload for one receiver count.
#[derive(Clone, Copy, Debug, PartialEq, Eq)]
pub struct Row {
    /// Bytes in a slot.
    pub slot: usize,
    /// Whole slots in the payload.
    pub slots: usize,
    /// Zero bytes after the last slot.
    pub padding: usize,
}

/// One I and one Q of 24 bits for each receiver, then one microphone sample.
#[inline]
pub(crate) fn slot_size(receivers: usize) -> usize {
    IQ_SIZE * receivers + MICROPHONE_SIZE
}

/// The layout for a receiver count of 1 to 8; any other is refused 2.
#[inline]
pub fn row(receivers: usize) -> Result<Row, Refusal> {
    if !(1..=8).contains(&receivers) {
        return Err(Refusal::BadCount);
    }
    let slot = slot_size(receivers);
    let slots = PAYLOAD / slot;
    let padding = PAYLOAD - slots * slot;
    Ok(Row {
        slot,
        slots,
        padding,
    })
}

/// The slice as a frame, if it is 512 bytes long.
#[inline]
pub(crate) fn whole(frame: &[u8]) -> Result<&[u8; FRAME], Refusal> {
    frame.try_into().map_err(|_| Refusal::Length)
}

/// The slice as a frame to write, if it is 512 bytes long.
#[inline]
pub(crate) fn whole_mut(frame: &mut [u8]) -> Result<&mut [u8; FRAME], Refusal> {
    frame.try_into().map_err(|_| Refusal::Length)
}

/// C0 to C4 and the payload of a frame that begins with sync.
#[inline]
pub(crate) fn open(frame: &[u8; FRAME]) -> Result<(Control, &[u8]), Refusal> {
    let [s0, s1, s2, c0, c1, c2, c3, c4, payload @ ..] = frame;
    if [*s0, *s1, *s2] != SYNC {
        return Err(no_sync(frame));
    }
    Ok(([*c0, *c1, *c2, *c3, *c4], payload))
}

#[cold]
fn no_sync(frame: &[u8; FRAME]) -> Refusal {
    let byte = sync_standing(frame);
    Refusal::NoSync { byte }
}

/// How many bytes of sync the slice begins with. Where it is not all three,
/// this is the first that is wrong.
#[inline]
pub(crate) fn sync_standing(bytes: &[u8]) -> usize {
    let bytes = bytes.iter().zip(SYNC);
    bytes.take_while(|(&byte, sync)| byte == *sync).count()
}

/// Writes sync and C0 to C4; gives the payload still to be written.
#[inline]
pub(crate) fn begin(frame: &mut [u8; FRAME], control: Control) -> &mut [u8] {
    let (header, payload) = frame.split_at_mut(HEADER);
    header[..SYNC.len()].copy_from_slice(&SYNC);
    header[SYNC.len()..].copy_from_slice(&control);
    payload
}
