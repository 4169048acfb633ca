//! Every call of the header, done by the reference: cells in, the reference's work, cells out.

use crate::cells;
use reference::{Builder, Cause, Host, Reason, Refusal, Status, Stopped, Stream};

/// What was found, or the refusal.
pub type Answer = Result<u32, Refusal>;

/// The parts of what the door returns. A byte's reason has its [detail](Parts::detail) where the plain reader has two counts.
#[derive(Default)]
pub struct Parts {
    /// Bits 7 to 0: the refusal's number, or 0.
    pub answer: u32,
    /// Bits 15 to 8: what was found.
    pub found: u32,
    /// Bits 31 to 16: the place of a refusal that says one.
    pub place: u32,
    /// Bits 47 to 32, of the plain reader alone: the bytes skipped.
    pub skipped: u32,
    /// Bits 63 to 48, of the plain reader alone: the bytes left.
    pub left: u32,
}

impl Parts {
    pub fn of(returned: u64) -> Parts {
        let bits = |from: u32, count: u32| (returned >> from) as u32 & ((1 << count) - 1);
        Parts {
            answer: bits(0, 8),
            found: bits(8, 8),
            place: bits(16, 16),
            skipped: bits(32, 16),
            left: bits(48, 16),
        }
    }

    /// A reason, by its number, and what belongs to it.
    pub fn of_reason(reason: u32, detail: u32) -> Parts {
        Parts {
            found: reason,
            ..Parts::of(u64::from(detail) << 32)
        }
    }

    /// Bits 63 to 32, of a byte's reason alone: the frame's start, or the byte of sync.
    pub fn detail(&self) -> u32 {
        self.left << 16 | self.skipped
    }

    pub fn returned(self) -> u64 {
        let lower = self.place << 16 | self.found << 8 | self.answer;
        u64::from(self.detail()) << 32 | u64::from(lower)
    }
}

/// An answer as the door returns it.
pub fn returned(answer: Answer) -> u64 {
    let parts = match answer {
        Ok(found) => Parts {
            found,
            ..Parts::default()
        },
        Err(refusal) => Parts {
            answer: refusal.number().into(),
            place: place(refusal),
            ..Parts::default()
        },
    };
    parts.returned()
}

fn place(refusal: Refusal) -> u32 {
    match refusal {
        Refusal::NoSync { byte } | Refusal::Padding { byte } => byte as u32,
        Refusal::Reserved { cause } => match cause {
            Cause::Source10 => 1,
            Cause::Relay => 2,
            Cause::Word9C4Bit7 => 3,
            Cause::Word10C1Bit7 => 4,
            Cause::Ain5 => 5,
            Cause::Ain1 => 6,
            Cause::Ain2 => 7,
            Cause::Ain3 => 8,
            Cause::Ain4 => 9,
            Cause::Ain6 => 10,
        },
        _ => 0,
    }
}

pub fn layout(receivers: usize, row: &mut [u32]) -> Answer {
    let row = row.get_mut(..cells::ROW).ok_or(Refusal::BadState)?;
    cells::row_into(&reference::row(receivers)?, row);
    Ok(0)
}

pub fn status_fresh(status: &mut [u32]) -> Answer {
    let length = cells::STATUS_MOST.len();
    let status = status.get_mut(..length).ok_or(Refusal::BadState)?;
    cells::status_into(&Status::fresh(), status);
    Ok(0)
}

pub fn host_fresh(host: &mut [u32]) -> Answer {
    let host = host.get_mut(..cells::HOST).ok_or(Refusal::BadState)?;
    cells::host_into(&Host::fresh(), host);
    Ok(0)
}

pub fn builder_fresh(builder: &mut [u32]) -> Answer {
    let length = cells::BUILDER_MOST.len();
    let builder = builder.get_mut(..length).ok_or(Refusal::BadState)?;
    let (host, turn) = (Host::fresh(), 0);
    cells::builder_into(&Builder { host, turn }, builder);
    Ok(0)
}

pub fn radio_read(
    frame: &[u8],
    receivers: usize,
    iq: &mut [i32],
    mic: &mut [i16],
    status: &mut [u32],
) -> Answer {
    let mut record = cells::status(status).ok_or(Refusal::BadState)?;
    let address = reference::radio_read(frame, receivers, iq, mic, &mut record)?;
    cells::status_into(&record, status);
    Ok(address.into())
}

/// As the door returns it: the frames that were read are found on a refusal too.
pub fn radio_read_transfer(
    input: &[u8],
    receivers: usize,
    iq: &mut [i32],
    mic: &mut [i16],
    status: &mut [u32],
) -> u64 {
    let Some(mut record) = cells::status(status) else {
        return returned(Err(Refusal::BadState));
    };
    let got = reference::radio_read_transfer(input, receivers, iq, mic, &mut record);
    cells::status_into(&record, status);
    match got {
        Ok(frames) => returned(Ok(frames as u32)),
        Err(Stopped { refusal, frames }) => returned(Ok(frames as u32)) | returned(Err(refusal)),
    }
}

pub fn radio_write(
    status: &[u32],
    word: usize,
    receivers: usize,
    iq: &[i32],
    mic: &[i16],
    frame: &mut [u8],
) -> Answer {
    let record = cells::status(status).ok_or(Refusal::BadState)?;
    reference::radio_write(&record, word, receivers, iq, mic, frame)?;
    Ok(0)
}

pub fn host_read(frame: &[u8], audio: &mut [i16], host: &mut [u32]) -> Answer {
    let mut record = cells::host(host).ok_or(Refusal::BadState)?;
    let address = reference::host_read(frame, audio, &mut record)?;
    cells::host_into(&record, host);
    Ok(address.into())
}

pub fn build(builder: &mut [u32], audio: &[i16], frame: &mut [u8]) -> Answer {
    let mut record = cells::builder(builder).ok_or(Refusal::BadState)?;
    reference::build(&mut record, audio, frame)?;
    cells::builder_into(&record, builder);
    Ok(0)
}

pub fn stream_fresh(counts: &mut [u64], held: &mut [u8]) -> Answer {
    let counts = counts.get_mut(..cells::COUNTS).ok_or(Refusal::BadState)?;
    let held = held.get_mut(..cells::HELD).ok_or(Refusal::BadState)?;
    cells::stream_into(&Stream::fresh(), counts, held);
    Ok(0)
}

pub fn stream_sound(counts: &[u64], held: &[u8]) -> Answer {
    let record = cells::stream(counts, held).ok_or(Refusal::BadState)?;
    record.sound().then_some(0).ok_or(Refusal::BadState)
}

pub fn stream_feed(counts: &mut [u64], held: &mut [u8], piece: &[u8], output: &mut [u8]) -> Answer {
    let mut record = cells::stream(counts, held).ok_or(Refusal::BadState)?;
    let frames = record.feed(piece, output)?;
    cells::stream_into(&record, counts, held);
    Ok(frames as u32)
}

/// As the door returns it: the bytes skipped and left are counted too.
pub fn plain_read(input: &[u8], output: &mut [u8]) -> u64 {
    match reference::plain_read(input, output) {
        Ok(reading) => Parts {
            found: reading.frames as u32,
            skipped: reading.skipped as u32,
            left: reading.left as u32,
            ..Parts::default()
        }
        .returned(),
        Err(refusal) => returned(Err(refusal)),
    }
}

/// As the door returns it: what belongs to the reason is told too.
pub fn why_byte(input: &[u8], place: usize) -> u64 {
    let (reason, detail) = match reference::explain(input, place) {
        Ok(Reason::Inside { start }) => (1, start),
        Ok(Reason::NearSync { byte }) => (2, byte),
        Ok(Reason::FarSync { byte }) => (3, byte),
        Ok(Reason::Held) => (4, 0),
        Err(refusal) => return returned(Err(refusal)),
    };
    Parts::of_reason(reason, detail as u32).returned()
}
