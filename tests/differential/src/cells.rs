//! Records as the door lends them, cells, and as the reference holds them, structs: a model written
//! from the header.

use reference::{Builder, Host, Row, Status, Stream};

const FLAG: u32 = 1;
const BYTE: u32 = 0xff;
const LEVEL: u32 = 0xffff;
const ANY: u32 = u32::MAX;

pub const ROW: usize = 3;
pub const COUNTS: usize = 4;
pub const HELD: usize = 514;

/// The most that each cell of a status record holds.
#[rustfmt::skip]
pub const STATUS_MOST: [u32; 26] = [
    FLAG, FLAG, FLAG,                         // dot, dash, ptt
    FLAG, FLAG, FLAG, FLAG,                   // adc1 to adc4
    FLAG, FLAG, FLAG, FLAG,                   // io1 to io4
    FLAG, FLAG,                               // pll, toggle
    BYTE, BYTE, BYTE,                         // mercury, penelope, main
    LEVEL, LEVEL, LEVEL, LEVEL, LEVEL, LEVEL, // ain5, ain1, ain2, ain3, ain4, ain6
    BYTE, BYTE, BYTE, BYTE,                   // board1 to board4
];
/// Cell of the first level, AIN5.
pub const LEVELS: usize = 16;
/// Cell of the first board's version.
pub const VERSIONS: usize = 22;

/// The most that each cell of a builder holds; all but the last are a host record's.
#[rustfmt::skip]
pub const BUILDER_MOST: [u32; HOST + 1] = [
    FLAG,                                           // mox
    3, 2, 1, 3, 1,                                  // speed, source10, source122, boards, microphone
    FLAG, BYTE,                                     // class_e, outputs
    3, FLAG, FLAG, FLAG,                            // attenuator, preamp, dither, random
    3, FLAG, 2, FLAG,                               // antenna, rx_out, relay, duplex
    BYTE, FLAG, FLAG,                               // receivers, time_stamp, common_frequency
    ANY, ANY, ANY, ANY, ANY, ANY, ANY, ANY,         // transmitter, frequencies
    BYTE,                                           // drive
    FLAG, FLAG, FLAG, FLAG, FLAG, FLAG, FLAG, FLAG, // mic_boost to vna
    FLAG, FLAG, FLAG, FLAG, FLAG, FLAG, FLAG, FLAG, // high_pass_13 to tr_disabled
    FLAG, FLAG, FLAG, FLAG, FLAG, FLAG, FLAG,       // low_pass_30_20 to low_pass_17_15
    FLAG, FLAG, FLAG, FLAG,                         // rx_preamps
    1, FLAG, FLAG,                                  // orion_jack, mic_bias, mic_ptt_disabled
    BYTE, BYTE, BYTE, BYTE,                         // line_in_gain, word10_c2_top, word10_c3, word10_c4
    BYTE,                                           // turn, of which a build takes 0 to 10
];
/// Those of a host record.
pub const HOST_MOST: &[u32] = BUILDER_MOST.split_at(HOST).0;
pub const HOST: usize = 62;
pub const OUTPUTS: usize = 7;
pub const RECEIVERS: usize = 16;
pub const LINE_IN_GAIN: usize = 58;
pub const WORD10_C2_TOP: usize = 59;
pub const TURN: usize = HOST;

/// The cells of a record in their order, each known to fit.
struct Taken<'a>(std::slice::Iter<'a, u32>);

impl Taken<'_> {
    /// None if the cells hold no record.
    fn from<'a>(cells: &'a [u32], most: &[u32]) -> Option<Taken<'a>> {
        let record = cells.get(..most.len())?;
        let fits = record.iter().zip(most).all(|(cell, most)| cell <= most);
        fits.then(|| Taken(record.iter()))
    }

    fn word(&mut self) -> u32 {
        *self.0.next().expect("the record has this cell")
    }

    fn flag(&mut self) -> bool {
        self.word() == 1
    }

    fn level(&mut self) -> u16 {
        self.word() as u16
    }

    fn byte(&mut self) -> u8 {
        self.word() as u8
    }

    fn flags<const N: usize>(&mut self) -> [bool; N] {
        std::array::from_fn(|_| self.flag())
    }

    fn host(&mut self) -> Host {
        Host {
            mox: self.flag(),
            speed: self.byte(),
            source10: self.byte(),
            source122: self.byte(),
            boards: self.byte(),
            microphone: self.byte(),
            class_e: self.flag(),
            outputs: self.byte(),
            attenuator: self.byte(),
            preamp: self.flag(),
            dither: self.flag(),
            random: self.flag(),
            antenna: self.byte(),
            rx_out: self.flag(),
            relay: self.byte(),
            duplex: self.flag(),
            receivers: self.byte(),
            timestamp: self.flag(),
            common: self.flag(),
            transmitter: self.word(),
            frequencies: std::array::from_fn(|_| self.word()),
            drive: self.byte(),
            controls: self.flags(),
            high_pass: self.flags(),
            low_pass: self.flags(),
            rx_preamps: self.flags(),
            orion_jack: self.byte(),
            mic_bias: self.flag(),
            mic_ptt_disabled: self.flag(),
            line_in_gain: self.byte(),
            word10_c2_top: self.byte(),
            word10_c3: self.byte(),
            word10_c4: self.byte(),
        }
    }
}

pub fn status(cells: &[u32]) -> Option<Status> {
    let mut taken = Taken::from(cells, &STATUS_MOST)?;
    Some(Status {
        dot: taken.flag(),
        dash: taken.flag(),
        ptt: taken.flag(),
        overflow: taken.flags(),
        io: taken.flags(),
        pll: taken.flag(),
        toggle: taken.flag(),
        mercury: taken.byte(),
        penelope: taken.byte(),
        main: taken.byte(),
        ain5: taken.level(),
        ain1: taken.level(),
        ain2: taken.level(),
        ain3: taken.level(),
        ain4: taken.level(),
        ain6: taken.level(),
        versions: std::array::from_fn(|_| taken.byte()),
    })
}

pub fn host(cells: &[u32]) -> Option<Host> {
    Some(Taken::from(cells, HOST_MOST)?.host())
}

pub fn builder(cells: &[u32]) -> Option<Builder> {
    let mut taken = Taken::from(cells, &BUILDER_MOST)?;
    Some(Builder {
        host: taken.host(),
        turn: taken.byte(),
    })
}

/// A record that is not sound is still a record here.
pub fn stream(counts: &[u64], held: &[u8]) -> Option<Stream> {
    let &[count, frames, skipped, total, ..] = counts else {
        return None;
    };
    Some(Stream {
        held: *held.first_chunk()?,
        count: usize::try_from(count).ok()?,
        frames,
        skipped,
        total,
    })
}

/// Writes cells over the first of those lent, in their order.
struct Given<'a>(std::slice::IterMut<'a, u32>);

impl Given<'_> {
    fn cell(&mut self, value: impl Into<u32>) -> &mut Self {
        *self.0.next().expect("the record has this cell") = value.into();
        self
    }

    fn cells<T: Into<u32> + Copy>(&mut self, values: &[T]) -> &mut Self {
        values.iter().fold(self, |given, &value| given.cell(value))
    }
}

pub fn row_into(row: &Row, cells: &mut [u32]) {
    for (cell, value) in cells.iter_mut().zip([row.slot, row.slots, row.padding]) {
        *cell = value as u32;
    }
}

pub fn status_into(status: &Status, cells: &mut [u32]) {
    let Status {
        ain5,
        ain1,
        ain2,
        ain3,
        ain4,
        ain6,
        ..
    } = *status;
    Given(cells.iter_mut())
        .cells(&[status.dot, status.dash, status.ptt])
        .cells(&status.overflow)
        .cells(&status.io)
        .cells(&[status.pll, status.toggle])
        .cells(&[status.mercury, status.penelope, status.main])
        .cells(&[ain5, ain1, ain2, ain3, ain4, ain6])
        .cells(&status.versions);
}

pub fn host_into(host: &Host, cells: &mut [u32]) {
    Given(cells.iter_mut())
        .cell(host.mox)
        .cells(&[host.speed, host.source10, host.source122])
        .cells(&[host.boards, host.microphone])
        .cell(host.class_e)
        .cells(&[host.outputs, host.attenuator])
        .cells(&[host.preamp, host.dither, host.random])
        .cell(host.antenna)
        .cell(host.rx_out)
        .cell(host.relay)
        .cell(host.duplex)
        .cell(host.receivers)
        .cells(&[host.timestamp, host.common])
        .cell(host.transmitter)
        .cells(&host.frequencies)
        .cell(host.drive)
        .cells(&host.controls)
        .cells(&host.high_pass)
        .cells(&host.low_pass)
        .cells(&host.rx_preamps)
        .cell(host.orion_jack)
        .cells(&[host.mic_bias, host.mic_ptt_disabled])
        .cells(&[host.line_in_gain, host.word10_c2_top])
        .cells(&[host.word10_c3, host.word10_c4]);
}

pub fn builder_into(builder: &Builder, cells: &mut [u32]) {
    host_into(&builder.host, cells);
    cells[TURN] = builder.turn.into();
}

pub fn stream_into(stream: &Stream, counts: &mut [u64], held: &mut [u8]) {
    let count = stream.count as u64;
    counts[..COUNTS].copy_from_slice(&[count, stream.frames, stream.skipped, stream.total]);
    held[..HELD].copy_from_slice(&stream.held);
}
