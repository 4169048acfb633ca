use crate::cells::{Record, Way};
use crate::choices::{
    Antenna, Attenuator, Boards, Jack, Microphone, Relay, Source10, Source122, Speed,
};
use crate::raw;
use crate::refusal::{found, Refusal};

/// What a host tells its radio.
#[derive(Clone, Copy, Debug, PartialEq, Eq)]
pub struct Host {
    /// Every frame: MOX.
    pub mox: bool,
    /// Word 0: the sampling speed.
    pub speed: Speed,
    /// Word 0: the source of the 10 MHz reference.
    pub source10: Source10,
    /// Word 0: the source of the 122.88 MHz clock.
    pub source122: Source122,
    /// Word 0: the boards that are there.
    pub boards: Boards,
    /// Word 0: the source of the microphone values.
    pub microphone: Microphone,
    /// Word 0: class E.
    pub class_e: bool,
    /// Word 0: the open collector outputs; a frame holds up to 127.
    pub outputs: u8,
    /// Word 0: the Alex attenuator.
    pub attenuator: Attenuator,
    /// Word 0: preamp.
    pub preamp: bool,
    /// Word 0: dither.
    pub dither: bool,
    /// Word 0: random.
    pub random: bool,
    /// Word 0: the receive antenna.
    pub antenna: Antenna,
    /// Word 0: receive out.
    pub rx_out: bool,
    /// Word 0: the transmit relay.
    pub relay: Relay,
    /// Word 0: duplex.
    pub duplex: bool,
    /// Word 0: the number of receivers; a frame holds 1 to 8.
    pub receivers: u8,
    /// Word 0: time stamp.
    pub time_stamp: bool,
    /// Word 0: common frequency.
    pub common_frequency: bool,
    /// Word 1: the transmitter's frequency in Hz.
    pub transmitter: u32,
    /// Words 2 to 8: the frequencies of receivers 1 to 7 in Hz.
    pub frequencies: [u32; 7],
    /// Word 9: drive.
    pub drive: u8,
    /// Word 9: microphone boost.
    pub mic_boost: bool,
    /// Word 9: line-in.
    pub line_in: bool,
    /// Word 9: Apollo filter.
    pub apollo_filter: bool,
    /// Word 9: Apollo tuner.
    pub apollo_tuner: bool,
    /// Word 9: auto tune.
    pub auto_tune: bool,
    /// Word 9: filter board.
    pub filter_board: bool,
    /// Word 9: manual filters.
    pub manual_filters: bool,
    /// Word 9: VNA.
    pub vna: bool,
    /// Word 9: high-pass 13 MHz.
    pub high_pass_13: bool,
    /// Word 9: high-pass 20 MHz.
    pub high_pass_20: bool,
    /// Word 9: high-pass 9.5 MHz.
    pub high_pass_9_5: bool,
    /// Word 9: high-pass 6.5 MHz.
    pub high_pass_6_5: bool,
    /// Word 9: high-pass 1.5 MHz.
    pub high_pass_1_5: bool,
    /// Word 9: bypass.
    pub bypass: bool,
    /// Word 9: 6 m amplifier.
    pub amplifier_6m: bool,
    /// Word 9: T/R relay disabled.
    pub tr_disabled: bool,
    /// Word 9: low-pass 30/20 m.
    pub low_pass_30_20: bool,
    /// Word 9: low-pass 60/40 m.
    pub low_pass_60_40: bool,
    /// Word 9: low-pass 80 m.
    pub low_pass_80: bool,
    /// Word 9: low-pass 160 m.
    pub low_pass_160: bool,
    /// Word 9: low-pass 6 m.
    pub low_pass_6: bool,
    /// Word 9: low-pass 12/10 m.
    pub low_pass_12_10: bool,
    /// Word 9: low-pass 17/15 m.
    pub low_pass_17_15: bool,
    /// Word 10: the preamps of receivers 1 to 4. Word 0's `preamp` is a field of its own.
    pub rx_preamps: [bool; 4],
    /// Word 10: the contacts of Orion's microphone jack.
    pub orion_jack: Jack,
    /// Word 10: microphone bias.
    pub mic_bias: bool,
    /// Word 10: microphone PTT disabled.
    pub mic_ptt_disabled: bool,
    /// Word 10: the line-in gain; a frame holds up to 31.
    pub line_in_gain: u8,
    /// Word 10: bits 7 to 5 of C2, as a plain number; a frame holds up to 7.
    pub word10_c2_top: u8,
    /// Word 10: C3, as a plain number.
    pub word10_c3: u8,
    /// Word 10: C4, as a plain number.
    pub word10_c4: u8,
}

impl Record<{ raw::HOST_CELLS }> for Host {
    #[inline]
    fn each(way: &mut impl Way<Host>) -> Host {
        Host {
            mox: way.pass(|host| host.mox),
            speed: way.pass(|host| host.speed),
            source10: way.pass(|host| host.source10),
            source122: way.pass(|host| host.source122),
            boards: way.pass(|host| host.boards),
            microphone: way.pass(|host| host.microphone),
            class_e: way.pass(|host| host.class_e),
            outputs: way.pass(|host| host.outputs),
            attenuator: way.pass(|host| host.attenuator),
            preamp: way.pass(|host| host.preamp),
            dither: way.pass(|host| host.dither),
            random: way.pass(|host| host.random),
            antenna: way.pass(|host| host.antenna),
            rx_out: way.pass(|host| host.rx_out),
            relay: way.pass(|host| host.relay),
            duplex: way.pass(|host| host.duplex),
            receivers: way.pass(|host| host.receivers),
            time_stamp: way.pass(|host| host.time_stamp),
            common_frequency: way.pass(|host| host.common_frequency),
            transmitter: way.pass(|host| host.transmitter),
            frequencies: std::array::from_fn(|at| way.pass(|host| host.frequencies[at])),
            drive: way.pass(|host| host.drive),
            mic_boost: way.pass(|host| host.mic_boost),
            line_in: way.pass(|host| host.line_in),
            apollo_filter: way.pass(|host| host.apollo_filter),
            apollo_tuner: way.pass(|host| host.apollo_tuner),
            auto_tune: way.pass(|host| host.auto_tune),
            filter_board: way.pass(|host| host.filter_board),
            manual_filters: way.pass(|host| host.manual_filters),
            vna: way.pass(|host| host.vna),
            high_pass_13: way.pass(|host| host.high_pass_13),
            high_pass_20: way.pass(|host| host.high_pass_20),
            high_pass_9_5: way.pass(|host| host.high_pass_9_5),
            high_pass_6_5: way.pass(|host| host.high_pass_6_5),
            high_pass_1_5: way.pass(|host| host.high_pass_1_5),
            bypass: way.pass(|host| host.bypass),
            amplifier_6m: way.pass(|host| host.amplifier_6m),
            tr_disabled: way.pass(|host| host.tr_disabled),
            low_pass_30_20: way.pass(|host| host.low_pass_30_20),
            low_pass_60_40: way.pass(|host| host.low_pass_60_40),
            low_pass_80: way.pass(|host| host.low_pass_80),
            low_pass_160: way.pass(|host| host.low_pass_160),
            low_pass_6: way.pass(|host| host.low_pass_6),
            low_pass_12_10: way.pass(|host| host.low_pass_12_10),
            low_pass_17_15: way.pass(|host| host.low_pass_17_15),
            rx_preamps: std::array::from_fn(|at| way.pass(|host| host.rx_preamps[at])),
            orion_jack: way.pass(|host| host.orion_jack),
            mic_bias: way.pass(|host| host.mic_bias),
            mic_ptt_disabled: way.pass(|host| host.mic_ptt_disabled),
            line_in_gain: way.pass(|host| host.line_in_gain),
            word10_c2_top: way.pass(|host| host.word10_c2_top),
            word10_c3: way.pass(|host| host.word10_c3),
            word10_c4: way.pass(|host| host.word10_c4),
        }
    }
}

impl Host {
    /// The record that all-zero words give: one receiver.
    ///
    /// ```
    /// let host = hpsdr::Host::fresh();
    /// assert_eq!(host.receivers, 1);
    /// assert_eq!(host.speed, hpsdr::Speed::Khz48);
    /// assert_eq!(host.frequencies, [0; 7]);
    /// ```
    pub fn fresh() -> Host {
        let mut cells = [0; raw::HOST_CELLS];
        // Refused for too few cells only, so there is no answer to look at.
        // SAFETY: the pointer and the number are those of one array, which nothing else has for the time of the call.
        unsafe { raw::hpsdr_host_fresh(cells.as_mut_ptr(), cells.len()) };
        Host::of_cells(&cells)
    }

    /// Reads a frame: its 252 numbers to the start of `audio`, I and Q swapped back (see [`AUDIO`](crate::AUDIO)), its word
    /// into the record. Gives the word's address, 0 to 127, of which 0 to 10 are listed.
    ///
    /// Refusals: `Length`, `ShortBuffer`, `NoSync`, `Reserved`. The last two say which byte of the frame it was, and which
    /// code or bit.
    ///
    /// ```
    /// use hpsdr::{Cause, Host, Refusal, Relay, AUDIO, FRAME};
    ///
    /// let (mut host, mut audio, mut frame) = (Host::fresh(), [0; AUDIO], [0; FRAME]);
    /// // Sync, word 2 with 7,100,000 Hz.
    /// frame[..8].copy_from_slice(&[0x7F, 0x7F, 0x7F, 0x04, 0x00, 0x6C, 0x56, 0x60]);
    /// // The first slot: L, R, and in the bytes drawn as I the sender's Q, in those drawn as Q its I.
    /// frame[8..16].copy_from_slice(&[0xFF, 0xFE, 0x00, 0x03, 0x00, 0x07, 0x00, 0x05]);
    /// assert_eq!(host.read(&frame, &mut audio), Ok(2));
    /// assert_eq!(host.frequencies, [7_100_000, 0, 0, 0, 0, 0, 0]);
    /// assert_eq!(audio[..5], [-2, 3, 5, 7, 0]);
    ///
    /// // Word 10: the preamps of receivers 1 and 4, a line-in gain of 31.
    /// frame[3..8].copy_from_slice(&[0x14, 0x09, 0x1F, 0, 0]);
    /// assert_eq!(host.read(&frame, &mut audio), Ok(10));
    /// assert_eq!((host.rx_preamps, host.preamp), ([true, false, false, true], false));
    /// assert_eq!((host.line_in_gain, host.word10_c2_top), (31, 0));
    ///
    /// // Word 0: three receivers, duplex, Tx1.
    /// frame[3..8].copy_from_slice(&[0, 0, 0, 0, 0x14]);
    /// assert_eq!(host.read(&frame, &mut audio), Ok(0));
    /// assert_eq!((host.receivers, host.duplex, host.relay), (3, true, Relay::Tx1));
    ///
    /// // There is no fourth relay.
    /// frame[7] = 0x17;
    /// let refusal = host.read(&frame, &mut audio).unwrap_err();
    /// assert_eq!(refusal, Refusal::Reserved { cause: Cause::Relay });
    /// assert_eq!(host.receivers, 3);
    /// ```
    pub fn read(&mut self, frame: &[u8], audio: &mut [i16]) -> Result<u8, Refusal> {
        let mut cells = self.cells();
        // SAFETY: each pointer and number are those of one slice or array; those to be written are borrowed for
        // writing, so they overlap nothing.
        let got = unsafe {
            raw::hpsdr_host_read(
                frame.as_ptr(),
                frame.len(),
                audio.as_mut_ptr(),
                audio.len(),
                cells.as_mut_ptr(),
                cells.len(),
            )
        };
        let address = found(got)?;
        *self = Host::of_cells(&cells);
        Ok(address as u8)
    }
}
