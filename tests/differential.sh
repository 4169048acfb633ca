#!/bin/sh
# Holds the library, through its C door, against the reference in tests/reference on the same inputs, and
# then a shorter run of the same under a memory checker. It prints the table of the calls and their
# answers, and otherwise only what failed. A longer run, without the memory checker:
#     tests/differential.sh --calls 100000000
# POSIX sh, cargo and valgrind; the archive is made by tools/archive.sh.
set -eu
cd "$(dirname "$0")/.."
HPSDR_ARCHIVE=${HPSDR_ARCHIVE:-$PWD/target/archive}
export HPSDR_ARCHIVE
program=${CARGO_TARGET_DIR:-target/cargo}/release/differential

cargo build --offline --release -q -p differential
if [ $# -gt 0 ]; then
    exec "$program" "$@"
fi
"$program"
if ! valgrind --error-exitcode=1 --leak-check=full -q "$program" --short >/dev/null; then
    echo 'tests/differential.sh: the short run under valgrind failed' >&2
    exit 1
fi
