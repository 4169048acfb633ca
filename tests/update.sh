#!/bin/sh
# Runs tests/update.c against `radio_update` as C links it: the update of a status record where it stands.
set -eu
home=$(cd "$(dirname "$0")/.." && pwd -P)
cd "$home"
name=tests/update.sh
. tools/common.sh
know_toolchain
build lib radio_c --target x86_64-unknown-linux-gnu
mkdir -p target/staticlib
cp crates/radio_c/out/libradio_c.a target/staticlib/libradio.a
tests/x86.sh tests/update.c target/staticlib/libradio.a
