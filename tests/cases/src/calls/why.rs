//! Why a byte was thrown out.

use crate::call::{argument, Call, Found, Given, Ran};
use crate::kind;
use differential::both;

pub static BYTE: Call = Call {
    name: "why_byte",
    arguments: &[
        argument("input", &kind::BYTES),
        argument("place", &kind::NUMBER),
    ],
    found: Found::Reason,
    run: byte,
};

fn byte(given: &Given) -> Result<Ran, String> {
    let mut input = given.lend("input");
    let both = both::why_byte(&mut input, given.number("place"));
    let after = vec![input.into()];
    Ok(Ran { both, after })
}
