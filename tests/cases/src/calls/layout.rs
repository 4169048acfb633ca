//! The row of a number of receivers.

use crate::call::{argument, Call, Found, Given, Ran};
use crate::kind;
use differential::both;

pub static LAYOUT: Call = Call {
    name: "layout",
    arguments: &[
        argument("receivers", &kind::NUMBER),
        argument("row", &kind::ROW),
    ],
    found: Found::Counts(&[]),
    run: layout,
};

fn layout(given: &Given) -> Result<Ran, String> {
    let mut row = given.lend("row");
    let both = both::layout(given.number("receivers"), &mut row);
    let after = vec![row.into()];
    Ok(Ran { both, after })
}
