//! The plain reader.

use crate::call::{argument, Call, Found, Given, Ran};
use crate::kind;
use differential::both;

pub static READ: Call = Call {
    name: "plain_read",
    arguments: &[
        argument("input", &kind::BYTES),
        argument("output", &kind::BYTES),
    ],
    found: Found::Counts(&["frames", "skipped", "left"]),
    run: read,
};

fn read(given: &Given) -> Result<Ran, String> {
    let (mut input, mut output) = (given.lend("input"), given.lend("output"));
    let both = both::plain_read(&mut input, &mut output);
    let after = vec![input.into(), output.into()];
    Ok(Ran { both, after })
}
