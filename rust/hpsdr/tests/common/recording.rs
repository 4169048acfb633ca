//! Recordings made by hand.

use crate::common::frame;

/// A frame whose payload is like that of no other number.
pub fn numbered(number: u8) -> [u8; 512] {
    let mut frame = frame([0; 5]);
    frame[8..].fill(number);
    frame
}

/// Frame 1; 40 bytes with a lone sync among them; frames 2 and 3; a cut frame of 300 bytes; frames 4 to 6, and the
/// sync of a last one.
pub fn recording() -> Vec<u8> {
    let mut stray = [0x11; 40];
    stray[..3].fill(0x7F);
    stray[20..23].fill(0x7F);
    let parts: [&[u8]; 9] = [
        &numbered(1),
        &stray,
        &numbered(2),
        &numbered(3),
        &numbered(9)[..300],
        &numbered(4),
        &numbered(5),
        &numbered(6),
        &[0x7F; 3],
    ];
    parts.concat()
}
