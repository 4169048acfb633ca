#!/bin/sh
# Makes target/archive/libhpsdr.a, the proved library as C and Rust programs of this machine link it, and the same as
# target/x86_64/libhpsdr.a. For Arm, which the toolchain makes code for but does not run on,
#     tools/archive.sh aarch64
# makes target/aarch64/libhpsdr.a. It makes nothing anew unless a source has changed.
#
# Each of the library's crates is a static library of its own, of one object: what a crate adds changes no
# machine code of another.
set -eu
home=$(cd "$(dirname "$0")/.." && pwd -P)
name=${HPSDR_COMMAND:-tools/archive.sh}
. "$home/tools/common.sh"
crates='hpsdr hpsdr_transfer hpsdr_plain hpsdr_why'
case $*: in
:) machine=x86_64 ;;
aarch64:) machine=aarch64 ;;
*)
    echo 'usage: tools/archive.sh [aarch64]' >&2
    exit 2
    ;;
esac
folder=$home/target/$machine
native=$home/target/archive

know_toolchain
tools=$(machine_tools)
mkdir -p "$folder" "$native"
sources >"$folder/sources.now"
if [ ! -f "$folder/libhpsdr.a" ] || ! cmp -s "$folder/sources" "$folder/sources.now"; then
    rm -f "$folder/sources"
    for crate in $crates; do
        build lib "$crate" --target "$machine-unknown-linux-gnu"
        "$tools/llvm-ar" p "$home/crates/$crate/out/lib$crate.a" "$crate.o" >"$folder/$crate.o"
    done
    rm -f "$folder/libhpsdr.a"
    (cd "$folder" && "$tools/llvm-ar" crs libhpsdr.a $(printf '%s.o ' $crates))
    mv "$folder/sources.now" "$folder/sources"
fi
if [ "$machine" = x86_64 ]; then
    cmp -s "$folder/libhpsdr.a" "$native/libhpsdr.a" || cp "$folder/libhpsdr.a" "$native/libhpsdr.a"
fi
