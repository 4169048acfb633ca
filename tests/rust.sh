#!/bin/sh
# Runs the tests of the Rust package, doc tests too, against the archive that tools/archive.sh makes. Then a copy of the
# package that stands alone: it must find the installed archive by pkg-config, and say so where there is none.
set -eu
cd "$(dirname "$0")/.."
room=$(mktemp -d)
trap 'rm -rf "$room"' EXIT
HPSDR_ARCHIVE=$PWD/target/archive cargo test --offline --release -q -p hpsdr

fails() {
    printf 'tests/rust.sh: %s\n' "$*" >&2
    exit 1
}

# Runs the example of the copy, where pkg-config looks in this folder only.
peaks_alone() {
    env -u HPSDR_ARCHIVE -u PKG_CONFIG_PATH PKG_CONFIG_LIBDIR="$1" CARGO_TARGET_DIR="$room/target" \
        cargo run --offline --release -q --manifest-path "$room/hpsdr/Cargo.toml" --example peaks 3 \
        <examples/recording.bin >"$room/got" 2>"$room/said"
}

./install "$room/prefix"
cp -R rust/hpsdr "$room/hpsdr"
if peaks_alone "$room/nowhere"; then
    fails 'the package is built without an archive'
fi
grep -q 'error: there is no libhpsdr.a: ./install PREFIX makes it' "$room/said" || fails "without an archive: $(cat "$room/said")"
peaks_alone "$room/prefix/lib/pkgconfig" || fails "with the installed archive: $(cat "$room/said")"
# Twelve frames of three receivers: the fifth is not whole, the ninth has damaged padding, the twelfth is held.
cat <<'END_OF_TEXT' | diff - "$room/got" || fails 'peaks: "<" is expected, ">" is printed'
receiver 1: peak 1118481
receiver 2: peak 2236962
receiver 3: peak 3355443
frames read 9, frames refused 1, bytes skipped 506, bytes held 512
a last frame may be among the bytes held: it is handed out once sync, 7F 7F 7F, has come after it
END_OF_TEXT
