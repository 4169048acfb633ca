use crate::cells::Record;
use crate::host::Host;
use crate::raw;
use crate::refusal::{found, Refusal};

/// A host record and the word that is due. A record left unchanged is wholly sent within eleven accepted builds.
#[derive(Clone, Copy, Debug, PartialEq, Eq)]
pub struct Builder {
    /// What the host tells its radio.
    pub host: Host,
    /// The address of the word that is due, 0 to 10.
    pub turn: u8,
}

/// The header's struct: `BUILDER_CELLS` cells and nothing between them.
#[repr(C)]
struct Cells {
    host: [u32; raw::HOST_CELLS],
    turn: u32,
}

impl Cells {
    #[inline]
    fn of(builder: &Builder) -> Cells {
        Cells {
            host: builder.host.cells(),
            turn: builder.turn.into(),
        }
    }

    #[inline]
    fn builder(&self) -> Builder {
        Builder {
            host: Host::of_cells(&self.host),
            turn: self.turn as u8,
        }
    }
}

impl Builder {
    /// A fresh host record, and turn 0.
    ///
    /// ```
    /// use hpsdr::{Builder, Host};
    ///
    /// assert_eq!(Builder::fresh(), Builder { host: Host::fresh(), turn: 0 });
    /// ```
    pub fn fresh() -> Builder {
        let mut cells = Cells {
            host: [0; raw::HOST_CELLS],
            turn: 0,
        };
        // Refused for too few cells only, so there is no answer to look at.
        // SAFETY: the pointer is to a struct of `BUILDER_CELLS` cells, which nothing else has for the time of the call.
        unsafe { raw::hpsdr_builder_fresh((&raw mut cells).cast(), raw::BUILDER_CELLS) };
        cells.builder()
    }

    /// Writes the frame whose word is due, with the first 252 numbers of `audio`, I and Q swapped (see
    /// [`AUDIO`](crate::AUDIO)), and moves the turn on by one, 10 going to 0. The whole record is tested, whichever word
    /// is due.
    ///
    /// Refusals: `BadState`, `Length`, `ShortBuffer`, `Range`.
    ///
    /// ```
    /// use hpsdr::{Builder, Refusal, AUDIO, FRAME};
    ///
    /// let (mut builder, mut audio, mut frame) = (Builder::fresh(), [0; AUDIO], [0; FRAME]);
    /// builder.turn = 2;
    /// builder.host.frequencies[0] = 7_100_000;
    /// // L, R, I and Q of the first slot. I goes into the bytes drawn as Q, and Q into those drawn as I.
    /// audio[..4].copy_from_slice(&[-2, 3, 5, 7]);
    /// assert_eq!(builder.build(&audio, &mut frame), Ok(()));
    /// assert_eq!(frame[..8], [0x7F, 0x7F, 0x7F, 0x04, 0x00, 0x6C, 0x56, 0x60]);
    /// assert_eq!(frame[8..17], [0xFF, 0xFE, 0x00, 0x03, 0x00, 0x07, 0x00, 0x05, 0x00]);
    /// assert_eq!(builder.turn, 3);
    ///
    /// builder.host.receivers = 9;
    /// assert_eq!(builder.build(&audio, &mut frame), Err(Refusal::Range));
    /// assert_eq!((builder.turn, frame[3]), (3, 0x04));
    ///
    /// // Receiver 1's preamp and a line-in gain of 31 go out with word 10, the last.
    /// let mut builder = Builder { turn: 10, ..Builder::fresh() };
    /// builder.host.rx_preamps[0] = true;
    /// builder.host.line_in_gain = 31;
    /// assert_eq!(builder.build(&audio, &mut frame), Ok(()));
    /// assert_eq!((&frame[3..8], builder.turn), (&[0x14, 0x01, 0x1F, 0, 0][..], 0));
    /// ```
    pub fn build(&mut self, audio: &[i16], frame: &mut [u8]) -> Result<(), Refusal> {
        let mut cells = Cells::of(self);
        // SAFETY: each pointer and number are those of one slice, or of a struct of `BUILDER_CELLS` cells; those to be
        // written are borrowed for writing, so they overlap nothing.
        let got = unsafe {
            raw::hpsdr_build(
                (&raw mut cells).cast(),
                raw::BUILDER_CELLS,
                audio.as_ptr(),
                audio.len(),
                frame.as_mut_ptr(),
                frame.len(),
            )
        };
        found(got)?;
        *self = cells.builder();
        Ok(())
    }
}
