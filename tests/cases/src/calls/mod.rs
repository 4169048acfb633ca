//! The calls that a case file can make.

mod fresh;
mod host;
mod layout;
mod plain;
mod radio;
mod stream;
mod why;

use crate::call::Call;

static CALLS: [&Call; 15] = [
    &layout::LAYOUT,
    &fresh::STATUS,
    &fresh::HOST,
    &fresh::BUILDER,
    &fresh::STREAM,
    &radio::READ,
    &radio::READ_TRANSFER,
    &radio::WRITE,
    &host::READ,
    &host::BUILD,
    &stream::SOUND,
    &stream::FEED,
    &stream::PIECES,
    &plain::READ,
    &why::BYTE,
];

pub fn find(name: &str) -> Option<&'static Call> {
    CALLS.iter().find(|call| call.name == name).copied()
}
