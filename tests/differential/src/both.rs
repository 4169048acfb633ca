//! Every call of the header, made on both sides: by the library on its copy of what is lent, and by the
//! reference on its own.

use crate::lent::Lent;
use crate::model::{self, returned, Answer};
use hpsdr::raw;

/// What a call returned on each side, as the door returns it.
#[derive(Clone, Copy)]
pub struct Both {
    pub library: u64,
    pub reference: u64,
}

impl Both {
    fn of(library: u32, reference: Answer) -> Both {
        Both {
            library: library.into(),
            reference: returned(reference),
        }
    }
}

/// What the library returns.
fn read_by(
    call: raw::RadioRead,
    input: &mut Lent<u8>,
    receivers: usize,
    iq: &mut Lent<i32>,
    mic: &mut Lent<i16>,
    status: &mut Lent<u32>,
) -> u32 {
    // SAFETY: the slices are whole and apart.
    unsafe {
        call(
            input.pointer(),
            input.length(),
            receivers,
            iq.pointer(),
            iq.length(),
            mic.pointer(),
            mic.length(),
            status.pointer(),
            status.length(),
        )
    }
}

pub fn layout(receivers: usize, row: &mut Lent<u32>) -> Both {
    // SAFETY: the slice is whole.
    let library = unsafe { raw::hpsdr_layout(receivers, row.pointer(), row.length()) };
    Both::of(library, model::layout(receivers, row.reference()))
}

pub fn status_fresh(status: &mut Lent<u32>) -> Both {
    // SAFETY: the slice is whole.
    let library = unsafe { raw::hpsdr_status_fresh(status.pointer(), status.length()) };
    Both::of(library, model::status_fresh(status.reference()))
}

pub fn host_fresh(host: &mut Lent<u32>) -> Both {
    // SAFETY: the slice is whole.
    let library = unsafe { raw::hpsdr_host_fresh(host.pointer(), host.length()) };
    Both::of(library, model::host_fresh(host.reference()))
}

pub fn builder_fresh(builder: &mut Lent<u32>) -> Both {
    // SAFETY: the slice is whole.
    let library = unsafe { raw::hpsdr_builder_fresh(builder.pointer(), builder.length()) };
    Both::of(library, model::builder_fresh(builder.reference()))
}

pub fn radio_read(
    frame: &mut Lent<u8>,
    receivers: usize,
    iq: &mut Lent<i32>,
    mic: &mut Lent<i16>,
    status: &mut Lent<u32>,
) -> Both {
    let library = read_by(raw::hpsdr_radio_read, frame, receivers, iq, mic, status);
    let reference = model::radio_read(
        frame.reference(),
        receivers,
        iq.reference(),
        mic.reference(),
        status.reference(),
    );
    Both::of(library, reference)
}

pub fn radio_read_transfer(
    input: &mut Lent<u8>,
    receivers: usize,
    iq: &mut Lent<i32>,
    mic: &mut Lent<i16>,
    status: &mut Lent<u32>,
) -> Both {
    let call = raw::hpsdr_radio_read_transfer;
    let library = read_by(call, input, receivers, iq, mic, status);
    let reference = model::radio_read_transfer(
        input.reference(),
        receivers,
        iq.reference(),
        mic.reference(),
        status.reference(),
    );
    Both {
        library: library.into(),
        reference,
    }
}

pub fn radio_write(
    status: &mut Lent<u32>,
    word: usize,
    receivers: usize,
    iq: &mut Lent<i32>,
    mic: &mut Lent<i16>,
    frame: &mut Lent<u8>,
) -> Both {
    // SAFETY: the slices are whole and apart.
    let library = unsafe {
        raw::hpsdr_radio_write(
            status.pointer(),
            status.length(),
            word,
            receivers,
            iq.pointer(),
            iq.length(),
            mic.pointer(),
            mic.length(),
            frame.pointer(),
            frame.length(),
        )
    };
    let reference = model::radio_write(
        status.reference(),
        word,
        receivers,
        iq.reference(),
        mic.reference(),
        frame.reference(),
    );
    Both::of(library, reference)
}

pub fn host_read(frame: &mut Lent<u8>, audio: &mut Lent<i16>, host: &mut Lent<u32>) -> Both {
    // SAFETY: the slices are whole and apart.
    let library = unsafe {
        raw::hpsdr_host_read(
            frame.pointer(),
            frame.length(),
            audio.pointer(),
            audio.length(),
            host.pointer(),
            host.length(),
        )
    };
    let reference = model::host_read(frame.reference(), audio.reference(), host.reference());
    Both::of(library, reference)
}

pub fn build(builder: &mut Lent<u32>, audio: &mut Lent<i16>, frame: &mut Lent<u8>) -> Both {
    // SAFETY: the slices are whole and apart.
    let library = unsafe {
        raw::hpsdr_build(
            builder.pointer(),
            builder.length(),
            audio.pointer(),
            audio.length(),
            frame.pointer(),
            frame.length(),
        )
    };
    let reference = model::build(builder.reference(), audio.reference(), frame.reference());
    Both::of(library, reference)
}

pub fn stream_fresh(counts: &mut Lent<u64>, held: &mut Lent<u8>) -> Both {
    // SAFETY: the slices are whole and apart.
    let library = unsafe {
        raw::hpsdr_stream_fresh(
            counts.pointer(),
            counts.length(),
            held.pointer(),
            held.length(),
        )
    };
    let reference = model::stream_fresh(counts.reference(), held.reference());
    Both::of(library, reference)
}

pub fn stream_sound(counts: &mut Lent<u64>, held: &mut Lent<u8>) -> Both {
    // SAFETY: the slices are whole and apart.
    let library = unsafe {
        raw::hpsdr_stream_sound(
            counts.pointer(),
            counts.length(),
            held.pointer(),
            held.length(),
        )
    };
    let reference = model::stream_sound(counts.reference(), held.reference());
    Both::of(library, reference)
}

pub fn stream_feed(
    counts: &mut Lent<u64>,
    held: &mut Lent<u8>,
    piece: &mut Lent<u8>,
    output: &mut Lent<u8>,
) -> Both {
    // SAFETY: the slices are whole and apart.
    let library = unsafe {
        raw::hpsdr_stream_feed(
            counts.pointer(),
            counts.length(),
            held.pointer(),
            held.length(),
            piece.pointer(),
            piece.length(),
            output.pointer(),
            output.length(),
        )
    };
    let reference = model::stream_feed(
        counts.reference(),
        held.reference(),
        piece.reference(),
        output.reference(),
    );
    Both::of(library, reference)
}

pub fn plain_read(input: &mut Lent<u8>, output: &mut Lent<u8>) -> Both {
    // SAFETY: the slices are whole and apart.
    let library = unsafe {
        raw::hpsdr_plain_read(
            input.pointer(),
            input.length(),
            output.pointer(),
            output.length(),
        )
    };
    let reference = model::plain_read(input.reference(), output.reference());
    Both { library, reference }
}

pub fn why_byte(input: &mut Lent<u8>, place: usize) -> Both {
    // SAFETY: the slice is whole.
    let library = unsafe { raw::hpsdr_why_byte(input.pointer(), input.length(), place) };
    let reference = model::why_byte(input.reference(), place);
    Both { library, reference }
}
