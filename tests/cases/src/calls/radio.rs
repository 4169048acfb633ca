//! Frames from the radio, read and written.

use crate::call::{argument, Call, Found, Given, Ran};
use crate::kind;
use differential::both::{self, Both};
use differential::lent::Lent;

pub static READ: Call = Call {
    name: "radio_read",
    arguments: &[
        argument("frame", &kind::BYTES),
        argument("receivers", &kind::NUMBER),
        argument("iq", &kind::I32),
        argument("mic", &kind::I16),
        argument("status", &kind::STATUS),
    ],
    found: Found::Counts(&["word"]),
    run: |given| read(given, "frame", both::radio_read),
};

pub static READ_TRANSFER: Call = Call {
    name: "radio_read_transfer",
    arguments: &[
        argument("input", &kind::BYTES),
        argument("receivers", &kind::NUMBER),
        argument("iq", &kind::I32),
        argument("mic", &kind::I16),
        argument("status", &kind::STATUS),
    ],
    found: Found::Counts(&["frames"]),
    run: |given| read(given, "input", both::radio_read_transfer),
};

type Read = fn(&mut Lent<u8>, usize, &mut Lent<i32>, &mut Lent<i16>, &mut Lent<u32>) -> Both;

fn read(given: &Given, input: &'static str, call: Read) -> Result<Ran, String> {
    let mut input = given.lend(input);
    let (mut iq, mut mic) = (given.lend("iq"), given.lend("mic"));
    let mut status = given.lend("status");
    let receivers = given.number("receivers");
    let both = call(&mut input, receivers, &mut iq, &mut mic, &mut status);
    let after = vec![input.into(), iq.into(), mic.into(), status.into()];
    Ok(Ran { both, after })
}

pub static WRITE: Call = Call {
    name: "radio_write",
    arguments: &[
        argument("status", &kind::STATUS),
        argument("word", &kind::NUMBER),
        argument("receivers", &kind::NUMBER),
        argument("iq", &kind::I32),
        argument("mic", &kind::I16),
        argument("frame", &kind::BYTES),
    ],
    found: Found::Counts(&[]),
    run: write,
};

fn write(given: &Given) -> Result<Ran, String> {
    let mut status = given.lend("status");
    let (mut iq, mut mic) = (given.lend("iq"), given.lend("mic"));
    let mut frame = given.lend("frame");
    let (word, receivers) = (given.number("word"), given.number("receivers"));
    let both = both::radio_write(&mut status, word, receivers, &mut iq, &mut mic, &mut frame);
    let after = vec![status.into(), iq.into(), mic.into(), frame.into()];
    Ok(Ran { both, after })
}
