//! Frames made by hand.

/// A frame of the control bytes C0 to C4 and a payload of zeros.
pub fn frame(control: [u8; 5]) -> [u8; 512] {
    let mut frame = [0; 512];
    frame[..3].fill(0x7F);
    frame[3..8].copy_from_slice(&control);
    frame
}
