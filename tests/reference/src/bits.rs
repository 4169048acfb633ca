//! Single bits and short codes inside a control byte.

/// Bit `place` of `byte`.
#[inline]
pub(crate) fn bit(byte: u8, place: u32) -> bool {
    byte >> place & 1 == 1
}

/// The low `N` bits of `byte`, bit 0 first.
#[inline]
pub(crate) fn flags<const N: usize>(byte: u8) -> [bool; N] {
    std::array::from_fn(|place| byte >> place & 1 == 1)
}

/// The byte whose bit `i` is `flags[i]`.
#[inline]
pub(crate) fn byte<const N: usize>(flags: [bool; N]) -> u8 {
    flags
        .iter()
        .rev()
        .fold(0, |byte, &flag| byte << 1 | u8::from(flag))
}

/// The two-bit code whose low bit is bit `place`.
#[inline]
pub(crate) fn code(byte: u8, place: u32) -> u8 {
    byte >> place & 0b11
}
