//! The host's named choices.

use crate::cells::Field;

/// A choice that a cell holds as its code.
trait Choice: Copy + PartialEq + 'static {
    /// Every choice, at the place that is its code.
    const BY_CODE: &'static [Self];
}

impl<C: Choice> Field for C {
    #[inline]
    fn cell(self) -> u32 {
        (0..)
            .zip(C::BY_CODE)
            .find_map(|(code, &choice)| (choice == self).then_some(code))
            .unwrap_or(0)
    }
    #[inline]
    fn of(cell: u32) -> C {
        C::BY_CODE
            .get(cell as usize)
            .copied()
            .unwrap_or(C::BY_CODE[0])
    }
}

/// The sampling speed.
#[derive(Clone, Copy, Debug, PartialEq, Eq, Hash)]
pub enum Speed {
    /// 48 kHz.
    Khz48,
    /// 96 kHz.
    Khz96,
    /// 192 kHz.
    Khz192,
    /// 384 kHz.
    Khz384,
}

impl Choice for Speed {
    const BY_CODE: &'static [Speed] = &[Speed::Khz48, Speed::Khz96, Speed::Khz192, Speed::Khz384];
}

/// The source of the 10 MHz reference.
#[derive(Clone, Copy, Debug, PartialEq, Eq, Hash)]
pub enum Source10 {
    /// Atlas or Excalibur.
    AtlasOrExcalibur,
    /// Penelope.
    Penelope,
    /// Mercury.
    Mercury,
}

impl Choice for Source10 {
    const BY_CODE: &'static [Source10] = &[
        Source10::AtlasOrExcalibur,
        Source10::Penelope,
        Source10::Mercury,
    ];
}

/// The source of the 122.88 MHz clock.
#[derive(Clone, Copy, Debug, PartialEq, Eq, Hash)]
pub enum Source122 {
    /// Penelope.
    Penelope,
    /// Mercury.
    Mercury,
}

impl Choice for Source122 {
    const BY_CODE: &'static [Source122] = &[Source122::Penelope, Source122::Mercury];
}

/// The boards that are there.
#[derive(Clone, Copy, Debug, PartialEq, Eq, Hash)]
pub enum Boards {
    /// Neither Penelope nor Mercury.
    None,
    /// Penelope.
    Penelope,
    /// Mercury.
    Mercury,
    /// Both.
    Both,
}

impl Choice for Boards {
    const BY_CODE: &'static [Boards] = &[
        Boards::None,
        Boards::Penelope,
        Boards::Mercury,
        Boards::Both,
    ];
}

/// The source of the microphone values.
#[derive(Clone, Copy, Debug, PartialEq, Eq, Hash)]
pub enum Microphone {
    /// Janus.
    Janus,
    /// Penelope.
    Penelope,
}

impl Choice for Microphone {
    const BY_CODE: &'static [Microphone] = &[Microphone::Janus, Microphone::Penelope];
}

/// The Alex attenuator.
#[derive(Clone, Copy, Debug, PartialEq, Eq, Hash)]
pub enum Attenuator {
    /// 0 dB.
    Db0,
    /// 10 dB.
    Db10,
    /// 20 dB.
    Db20,
    /// 30 dB.
    Db30,
}

impl Choice for Attenuator {
    const BY_CODE: &'static [Attenuator] = &[
        Attenuator::Db0,
        Attenuator::Db10,
        Attenuator::Db20,
        Attenuator::Db30,
    ];
}

/// The receive antenna.
#[derive(Clone, Copy, Debug, PartialEq, Eq, Hash)]
pub enum Antenna {
    /// None.
    None,
    /// Rx1.
    Rx1,
    /// Rx2.
    Rx2,
    /// XV.
    Xv,
}

impl Choice for Antenna {
    const BY_CODE: &'static [Antenna] = &[Antenna::None, Antenna::Rx1, Antenna::Rx2, Antenna::Xv];
}

/// The transmit relay.
#[derive(Clone, Copy, Debug, PartialEq, Eq, Hash)]
pub enum Relay {
    /// Tx1.
    Tx1,
    /// Tx2.
    Tx2,
    /// Tx3.
    Tx3,
}

impl Choice for Relay {
    const BY_CODE: &'static [Relay] = &[Relay::Tx1, Relay::Tx2, Relay::Tx3];
}

/// The contact of Orion's microphone jack to which the PTT goes; the microphone goes to the other.
#[derive(Clone, Copy, Debug, PartialEq, Eq, Hash)]
pub enum Jack {
    /// PTT to the ring, microphone to the tip.
    PttToRing,
    /// PTT to the tip, microphone to the ring.
    PttToTip,
}

impl Choice for Jack {
    const BY_CODE: &'static [Jack] = &[Jack::PttToRing, Jack::PttToTip];
}
