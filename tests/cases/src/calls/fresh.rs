//! The calls that make a record fresh.

use crate::call::{argument, Call, Found, Given, Ran};
use crate::kind;
use differential::both::{self, Both};
use differential::lent::Lent;

pub static STATUS: Call = Call {
    name: "status_fresh",
    arguments: &[argument("status", &kind::STATUS)],
    found: Found::Counts(&[]),
    run: |given| record(given, "status", both::status_fresh),
};

pub static HOST: Call = Call {
    name: "host_fresh",
    arguments: &[argument("host", &kind::HOST)],
    found: Found::Counts(&[]),
    run: |given| record(given, "host", both::host_fresh),
};

pub static BUILDER: Call = Call {
    name: "builder_fresh",
    arguments: &[argument("builder", &kind::BUILDER)],
    found: Found::Counts(&[]),
    run: |given| record(given, "builder", both::builder_fresh),
};

pub static STREAM: Call = Call {
    name: "stream_fresh",
    arguments: &[
        argument("counts", &kind::COUNTS),
        argument("held", &kind::BYTES),
    ],
    found: Found::Counts(&[]),
    run: stream,
};

fn record(
    given: &Given,
    name: &'static str,
    call: fn(&mut Lent<u32>) -> Both,
) -> Result<Ran, String> {
    let mut record = given.lend(name);
    let both = call(&mut record);
    let after = vec![record.into()];
    Ok(Ran { both, after })
}

fn stream(given: &Given) -> Result<Ran, String> {
    let (mut counts, mut held) = (given.lend("counts"), given.lend("held"));
    let both = both::stream_fresh(&mut counts, &mut held);
    let after = vec![counts.into(), held.into()];
    Ok(Ran { both, after })
}
