#!/bin/sh
# Builds a C program against an archive of the library as it ships, for x86-64, and runs it:
#     tests/x86.sh SOURCE ARCHIVE
set -eu
cd "$(dirname "$0")/.."
source=$1 archive=$2
program=target/x86/$(basename "$source" .c)
mkdir -p target/x86
cc -std=c11 -Wall -Wextra -Wpedantic -O1 -Iinclude -o "$program" "$source" "$archive"
exec "$program"
