//! Bytes made by a rule.

/// Bytes of which most are 7F, so that sync stands at many places.
pub fn mostly_sync(length: usize) -> Vec<u8> {
    let mut state: u32 = 1;
    let mut byte = || {
        state = state.wrapping_mul(1_664_525).wrapping_add(1_013_904_223);
        if state >> 28 < 12 {
            0x7F
        } else {
            (state >> 16) as u8
        }
    };
    (0..length).map(|_| byte()).collect()
}
