//! Frames from the host, read and built.

use crate::call::{argument, Call, Found, Given, Ran};
use crate::kind;
use differential::both;

pub static READ: Call = Call {
    name: "host_read",
    arguments: &[
        argument("frame", &kind::BYTES),
        argument("audio", &kind::I16),
        argument("host", &kind::HOST),
    ],
    found: Found::Counts(&["address"]),
    run: read,
};

fn read(given: &Given) -> Result<Ran, String> {
    let mut frame = given.lend("frame");
    let (mut audio, mut host) = (given.lend("audio"), given.lend("host"));
    let both = both::host_read(&mut frame, &mut audio, &mut host);
    let after = vec![frame.into(), audio.into(), host.into()];
    Ok(Ran { both, after })
}

pub static BUILD: Call = Call {
    name: "build",
    arguments: &[
        argument("builder", &kind::BUILDER),
        argument("audio", &kind::I16),
        argument("frame", &kind::BYTES),
    ],
    found: Found::Counts(&[]),
    run: build,
};

fn build(given: &Given) -> Result<Ran, String> {
    let mut builder = given.lend("builder");
    let (mut audio, mut frame) = (given.lend("audio"), given.lend("frame"));
    let both = both::build(&mut builder, &mut audio, &mut frame);
    let after = vec![builder.into(), audio.into(), frame.into()];
    Ok(Ran { both, after })
}
