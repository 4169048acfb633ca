#!/bin/sh
# Runs the case files, whose answers were worked out from document 01 by hand, through the library's C door and
# through the reference. Then it shows that a mistake is found: a copy of a case file with one mistake in it must
# end with status 1, and name the file and the line.
# POSIX sh, awk and cargo; the archive is made by tools/archive.sh.
set -eu
cd "$(dirname "$0")/.."
HPSDR_ARCHIVE=${HPSDR_ARCHIVE:-$PWD/target/archive}
export HPSDR_ARCHIVE
program=${CARGO_TARGET_DIR:-target/cargo}/release/cases
data=tests/cases/data
room=$(mktemp -d)
trap 'rm -rf "$room"' EXIT
found=0

fails() {
    printf 'tests/cases.sh: %s\n' "$*" >&2
    exit 1
}

# Runs a file of the room, which must fail, and say so much at the line, of that file or of the named one.
must_fail() { # NAME LINE SAYS [NAMED]
    status=0
    "$program" "$room/$1" >"$room/out" 2>"$room/said" || status=$?
    [ "$status" -eq 1 ] || fails "$1 with a mistake (\"$3\") ends with status $status"
    awk -v start="$room/${4:-$1}:$2: " -v says="$3" '
        index($0, start) == 1 && index($0, says) { found = 1 }
        END { exit !found }' "$room/said" ||
        fails "$1 with a mistake: no line $2 with \"$3\" in: $(head -n 3 "$room/said")"
    found=$((found + 1))
}

# A copy of the file in which a text that stands there once is another.
copy_with() { # NAME TEXT OTHER
    cp "$data"/*.parts "$room"
    : >"$room/lines"
    awk -v text="$2" -v other="$3" -v lines="$room/lines" '
        (at = index($0, text)) {
            $0 = substr($0, 1, at - 1) other substr($0, at + length(text))
            print NR >lines
            if (index(substr($0, at + length(other)), text)) print NR >lines
        }
        { print }' "$data/$1" >"$room/$1"
    [ "$(wc -l <"$room/lines")" -eq 1 ] || fails "$1 does not have \"$2\" once"
    line=$(cat "$room/lines")
}

line_of() { # NAME TEXT
    grep -n "$2" "$data/$1" | cut -d: -f1
}

# One mistake, which is found at its own line.
mistake() { # NAME TEXT OTHER SAYS
    copy_with "$1" "$2" "$3"
    must_fail "$1" "$line" "$4"
}

# One mistake in a case that begins some lines above it, where it is reported.
mistake_below() { # LINES NAME TEXT OTHER SAYS
    copy_with "$2" "$3" "$4"
    must_fail "$2" $((line - $1)) "$5"
}

# One byte that is claimed to have another reason, or another refusal, behind a text that ends before the answer.
other_reason() { # LINES TEXT REASON OTHER
    mistake_below "$1" why_byte.cases "$2answer $3" "$2answer $4" \
        "expected answer $4; door answer $3; reference answer $3"
}

cargo build --offline --release -q -p cases
"$program" "$data"/*.cases

# An expected number that is one off: of a sample, a byte, a field, a count, a frame that is handed out.
mistake radio_read.cases 'iq at 0 = 8388607' 'iq at 0 = 8388606' \
    'radio_read row a: 7F FF FF: iq[0]: expected 8388606; door 8388607; reference 8388607'
mistake_below 1 host_build.cases 'control 01 BB FF BE C5' 'control 01 BB FF BE C4' \
    'build outputs 127, receivers 1: frame[7]: expected C4; door C5; reference C5'
mistake host_read.cases 'address 2 | host frequencies[0] 7100000' 'address 2 | host frequencies[0] 7100001' \
    'host frequencies[0]: expected 7100001; door 7100000; reference 7100000'
mistake stream.cases 'skipped 3582 total' 'skipped 3583 total' 'counts skipped: expected 3583; door 3582; reference 3582'
mistake_below 3 stream.cases 'at 9 x 503 = 05' 'at 9 x 503 = 04' 'handed[9]: expected 04; door 05; reference 05'
mistake layout.cases 'slots 19 padding 10' 'slots 19 padding 11' 'row padding: expected 11; door 10; reference 10'

# An answer, and what is found, that is another.
mistake radio_read.cases 'receivers 0 | answer 2 word 0' 'receivers 0 | answer 3 word 0' \
    'expected answer 3 word 0; door answer 2 word 0; reference answer 2 word 0'
mistake radio_read.cases 'answer 0 word 31 | status dot 1 ptt 1' 'answer 0 word 30 | status dot 1 ptt 1' \
    'expected answer 0 word 30; door answer 0 word 31; reference answer 0 word 31'
mistake radio_transfer.cases 'answer 6 frames 3 byte 0' 'answer 6 frames 0 byte 0' \
    'expected answer 6 frames 0 byte 0; door answer 6 frames 3 byte 0; reference answer 6 frames 3 byte 0'
mistake radio_write.cases 'word 256 | answer 9' 'word 256 | answer 0' 'expected answer 0; door answer 9; reference answer 9'

# A place that is another: a later sync byte, a later padding byte, one that is counted from the payload, one of the
# transfer's next frame; the index beside it; a cause.
mistake radio_read.cases 'frame at 1 = 80 00    | answer 6 word 0 byte 1' 'frame at 1 = 80 00    | answer 6 word 0 byte 2' \
    'expected answer 6 word 0 byte 2; door answer 6 word 0 byte 1; reference answer 6 word 0 byte 1'
mistake host_read.cases 'frame at 0 = 80 7F FF | answer 6 address 0 byte 0' \
    'frame at 0 = 80 7F FF | answer 6 address 0 byte 2' \
    'expected answer 6 address 0 byte 2; door answer 6 address 0 byte 0; reference answer 6 address 0 byte 0'
mistake radio_read.cases 'frame at 507 = 01 at 511 = FF | answer 7 word 0 byte 507' \
    'frame at 507 = 01 at 511 = FF | answer 7 word 0 byte 511' \
    'expected answer 7 word 0 byte 511; door answer 7 word 0 byte 507; reference answer 7 word 0 byte 507'
mistake radio_read.cases 'frame at 488 = 01 | answer 7 word 0 byte 488' 'frame at 488 = 01 | answer 7 word 0 byte 480' \
    'expected answer 7 word 0 byte 480; door answer 7 word 0 byte 488; reference answer 7 word 0 byte 488'
mistake radio_transfer.cases 'input at 1022 = 01 at 1532 = 01 | answer 7 frames 1 byte 510' \
    'input at 1022 = 01 at 1532 = 01 | answer 7 frames 1 byte 508' \
    'expected answer 7 frames 1 byte 508; door answer 7 frames 1 byte 510; reference answer 7 frames 1 byte 510'
mistake radio_transfer.cases 'input at 1000 = 01 | answer 7 frames 1 byte 488' \
    'input at 1000 = 01 | answer 7 frames 0 byte 488' \
    'expected answer 7 frames 0 byte 488; door answer 7 frames 1 byte 488; reference answer 7 frames 1 byte 488'
mistake host_read.cases 'control 00 0C 00 00 03 | answer 8 address 0 cause source10' \
    'control 00 0C 00 00 03 | answer 8 address 0 cause relay' \
    'expected answer 8 address 0 cause relay; door answer 8 address 0 cause source10; reference answer 8'

# I and Q, which T-03 swaps: left as they were in one direction alone, in the first slot and in the last; and L and R
# swapped too.
mistake_below 1 host_build.cases 'frame silent at 8 = 01 02 03 04 07 08 05 06' \
    'frame silent at 8 = 01 02 03 04 05 06 07 08' \
    'build four numbers, first slot: frame[12]: expected 05; door 07; reference 07'
mistake_below 1 host_build.cases 'audio 252 of 0 at 0 = 258 772 1286 1800' 'audio 252 of 0 at 0 = 258 772 1800 1286' \
    'host_read four numbers, first slot: audio[2]: expected 1800; door 1286; reference 1286'
mistake_below 1 host_build.cases 'frame silent at 504 = FF FE FE FD FC FB FD FC' \
    'frame silent at 504 = FF FE FE FD FD FC FC FB' \
    'build four below 0, last slot: frame[508]: expected FD; door FC; reference FC'
mistake_below 1 host_build.cases 'audio 252 of 0 at 248 = -2 -259 -516 -773' 'audio 252 of 0 at 248 = -2 -259 -773 -516' \
    'host_read four below 0, last slot: audio[250]: expected -773; door -516; reference -516'
mistake_below 1 host_build.cases 'frame silent at 256 = 01 02 03 04 07 08 05 06' \
    'frame silent at 256 = 03 04 01 02 07 08 05 06' \
    'build four numbers, middle slot: frame[256]: expected 03; door 01; reference 01'
mistake_below 1 host_build.cases 'audio 252 of 0 at 124 = 258 772 1286 1800' 'audio 252 of 0 at 124 = 772 258 1286 1800' \
    'host_read four numbers, middle slot: audio[124]: expected 772; door 258; reference 258'

# Levels, which are twelve bits (T-08). A refused one is claimed to be read, whole or cut to its low bits, and one of 4095
# or of a word without levels to be refused; the second level of a word is named, the other of its two, a level before the
# padding, and a later frame's; the index beside it is another; a refused frame's DOT is kept. A level that the record was
# lent with is claimed to be refused or cut. One of 4096 is written, one of 4095 is not.
mistake radio_read.cases 'control 08 9C 40 00 00 | answer 8 word 0 cause ain5' 'control 08 9C 40 00 00 | answer 0 word 1' \
    'radio_read forward power 40000, AIN5: expected answer 0 word 1; door answer 8 word 0 cause ain5; reference answer 8'
mistake radio_read.cases 'AIN6 10 00 | frame control 18 00 00 10 00 | answer 8 word 0 cause ain6' \
    'AIN6 10 00 | frame control 18 00 00 10 00 | answer 0 word 3 | status ain6 0' \
    'status ain6: expected 0; door 1006; reference 1006'
mistake radio_read.cases 'frame control 10 00 00 0F FF | answer 0 word 2' \
    'frame control 10 00 00 0F FF | answer 8 word 0 cause ain3' \
    'expected answer 8 word 0 cause ain3; door answer 0 word 2; reference answer 0 word 2'
mistake radio_read.cases 'control 88 FF FF FF FF | answer 0 word 17' 'control 88 FF FF FF FF | answer 8 word 0 cause ain5' \
    'expected answer 8 word 0 cause ain5; door answer 0 word 17; reference answer 0 word 17'
mistake radio_read.cases 'control 08 FF FF FF FF | answer 8 word 0 cause ain5' \
    'control 08 FF FF FF FF | answer 8 word 0 cause ain1' \
    'expected answer 8 word 0 cause ain1; door answer 8 word 0 cause ain5; reference answer 8 word 0 cause ain5'
mistake radio_read.cases 'control 18 0F FF 10 00 | answer 8 word 0 cause ain6' \
    'control 18 0F FF 10 00 | answer 8 word 0 cause ain4' \
    'expected answer 8 word 0 cause ain4; door answer 8 word 0 cause ain6; reference answer 8 word 0 cause ain6'
mistake radio_read.cases 'control 10 FF FF FF FF at 488 = 01 | answer 7 word 0 byte 488' \
    'control 10 FF FF FF FF at 488 = 01 | answer 8 word 0 cause ain2' \
    'expected answer 8 word 0 cause ain2; door answer 7 word 0 byte 488; reference answer 7 word 0 byte 488'
mistake radio_transfer.cases 'input at 518 = 10 00 at 1540 = FF FF | answer 8 frames 1 cause ain1' \
    'input at 518 = 10 00 at 1540 = FF FF | answer 8 frames 1 cause ain4' \
    'expected answer 8 frames 1 cause ain4; door answer 8 frames 1 cause ain1; reference answer 8 frames 1 cause ain1'
mistake radio_transfer.cases 'input at 518 = 12 34 | answer 8 frames 1 cause ain1' \
    'input at 518 = 12 34 | answer 8 frames 0 cause ain1' \
    'expected answer 8 frames 0 cause ain1; door answer 8 frames 1 cause ain1; reference answer 8 frames 1 cause ain1'
mistake radio_read.cases 'control 0C 10 00 00 00 | answer 8 word 0 cause ain5' \
    'control 0C 10 00 00 00 | answer 8 word 0 cause ain5 | status dot 1' 'status dot: expected 1; door 0; reference 0'
mistake radio_read.cases 'ain6 65535 | frame control 10 01 F4 02 03 | answer 0 word 2' \
    'ain6 65535 | frame control 10 01 F4 02 03 | answer 8 word 0 cause ain6' \
    'expected answer 8 word 0 cause ain6; door answer 0 word 2; reference answer 0 word 2'
mistake_below 1 radio_read.cases 'status silent ain1 65535 ain4 500' 'status silent ain1 4095 ain4 500' \
    'status ain1: expected 4095; door 65535; reference 65535'
mistake radio_write.cases 'status ain6 4096 | word 0 | answer 9' 'status ain6 4096 | word 0 | answer 0' \
    'radio_write AIN6 4096, word 0: expected answer 0; door answer 9; reference answer 9'
mistake radio_write.cases 'status ain2 4095 | word 2 | answer 0' 'status ain2 4095 | word 2 | answer 9' \
    'expected answer 9; door answer 0; reference answer 0'

# Frames across the join of held bytes and piece (T-06). Claimed are a frame that is missed where its near sync is cut,
# and one that is taken though the last byte of a cut sync, near or far, is another; a frame that begins with bytes of
# the piece; held cells that are not cleared, a byte that is lost of those left, and held bytes that a refusal takes; a
# frame that is passed by, three places skipped where one is settled, and a frame that begins inside another.
mistake stream.cases '1 held, a frame                         | answer 0 frames 1' \
    '1 held, a frame                         | answer 0 frames 0' \
    'expected answer 0 frames 0; door answer 0 frames 1; reference answer 0 frames 1'
mistake stream.cases ' 2 held, 7E at 2     | input at 2 = 7E   | answer 0 frames 0' \
    ' 2 held, 7E at 2     | input at 2 = 7E   | answer 0 frames 1' \
    'expected answer 0 frames 1; door answer 0 frames 0; reference answer 0 frames 0'
mistake stream.cases '514 held, FF at 514 | input at 514 = FF | answer 0 frames 0' \
    '514 held, FF at 514 | input at 514 = FF | answer 0 frames 1' \
    'expected answer 0 frames 1; door answer 0 frames 0; reference answer 0 frames 0'
mistake_below 2 stream.cases 'skipped 513 total 1028 | held sync_left | output out1' \
    'skipped 513 total 1028 | held sync_left | output out1 at 0 = 00' 'output[0]: expected 00; door 7F; reference 7F'
mistake_below 2 stream.cases 'frames 2 skipped 1 total 1028 | held sync_left' \
    'frames 2 skipped 1 total 1028 | held sync_left at 513 = 7F' 'held[513]: expected 7F; door 00; reference 00'
mistake_below 1 stream.cases 'held at 414 x 100 = 22' 'held at 413 x 101 = 22' \
    'held[413]: expected 22; door 11; reference 11'
mistake stream.cases 'piece of 4097   | piece 4097 of 7F | answer 3 frames 0' \
    'piece of 4097   | piece 4097 of 7F | answer 3 frames 0 | held nothing' \
    'held[0]: expected 00; door 11; reference 11'
mistake_below 1 stream.cases 'pieces 2 of 5 at 1 = 513 | answer 0 frames 1' \
    'pieces 2 of 5 at 1 = 513 | answer 0 frames 0' \
    '11 11 11 and a frame, 5 held: expected answer 0 frames 0; door answer 0 frames 1; reference answer 0 frames 1'
mistake_below 1 stream.cases 'counts held 514 skipped 1 total 515 | held 514 of 11 at 0 = 22 23 24' \
    'counts held 512 skipped 3 total 515 | held 514 of 11 at 0 = 22 23 24' \
    'counts held: expected 512; door 514; reference 514'
mistake_below 1 stream.cases 'piece settled at 510 = 7F 7F | answer 0 frames 2' \
    'piece settled at 510 = 7F 7F | answer 0 frames 3' \
    'no frame from 512 or 513 on: expected answer 0 frames 3; door answer 0 frames 2; reference answer 0 frames 2'

# The plain reader (T-10). Claimed are a frame on the near sync alone, on two bytes of it, and on a far sync a byte early; a
# frame that a stray 7F hides, and 512 bytes that are skipped after a failed test; a byte skipped where 514 remain, none
# where 515 do, no bytes left behind a frame, and 128 frames; a good frame inside another, a gap between frames, and a
# remainder that is not as before; an input of 65,536 that is refused and one of 65,537 that is read; an output that has
# room for the frames alone, one that a refusal writes to, and one that is refused before the length; and counts beside
# a refusal.
mistake_below 1 plain_read.cases 'input 515 of 00 sync 0 | answer 0 frames 0 skipped 1 left 514' \
    'input 515 of 00 sync 0 | answer 0 frames 1 skipped 0 left 3' \
    'expected answer 0 frames 1 skipped 0 left 3; door answer 0 frames 0 skipped 1 left 514; reference answer 0 frames 0'
mistake plain_read.cases 'input at 2 = FF   | answer 0 frames 0 skipped 1 left 514' \
    'input at 2 = FF   | answer 0 frames 1 skipped 0 left 3 | output put told at 0 at 2 = FF' \
    'expected answer 0 frames 1 skipped 0 left 3; door answer 0 frames 0 skipped 1 left 514; reference answer 0 frames 0'
mistake plain_read.cases 'input 515 of 00 sync 0 511 | answer 0 frames 0 skipped 1 left 514' \
    'input 515 of 00 sync 0 511 | answer 0 frames 1 skipped 0 left 3' \
    'expected answer 0 frames 1 skipped 0 left 3; door answer 0 frames 0 skipped 1 left 514; reference answer 0 frames 0'
mistake_below 1 plain_read.cases 'input 516 of 7F put told at 1 | answer 0 frames 1 skipped 1 left 3' \
    'input 516 of 7F put told at 1 | answer 0 frames 0 skipped 2 left 514' \
    'expected answer 0 frames 0 skipped 2 left 514; door answer 0 frames 1 skipped 1 left 3; reference answer 0 frames 1'
mistake_below 1 plain_read.cases 'put frame2 at 517 sync 1029 | answer 0 frames 2 skipped 5 left 3' \
    'put frame2 at 517 sync 1029 | answer 0 frames 0 skipped 518 left 514' \
    'expected answer 0 frames 0 skipped 518 left 514; door answer 0 frames 2 skipped 5 left 3; reference answer 0 frames 2'
mistake plain_read.cases 'input 514 of 11  | answer 0 frames 0 skipped 0 left 514' \
    'input 514 of 11  | answer 0 frames 0 skipped 1 left 513' \
    'expected answer 0 frames 0 skipped 1 left 513; door answer 0 frames 0 skipped 0 left 514; reference answer 0 frames 0'
mistake plain_read.cases 'input 515 of 11  | answer 0 frames 0 skipped 1 left 514' \
    'input 515 of 11  | answer 0 frames 0 skipped 0 left 515' \
    'expected answer 0 frames 0 skipped 0 left 515; door answer 0 frames 0 skipped 1 left 514; reference answer 0 frames 0'
mistake_below 1 plain_read.cases 'input 515 of 00 sync 0 512 | answer 0 frames 1 skipped 0 left 3' \
    'input 515 of 00 sync 0 512 | answer 0 frames 1 skipped 0 left 0' \
    'expected answer 0 frames 1 skipped 0 left 0; door answer 0 frames 1 skipped 0 left 3; reference answer 0 frames 1'
mistake_below 1 plain_read.cases 'input 65536 of 7F | answer 0 frames 127 skipped 0 left 512' \
    'input 65536 of 7F | answer 0 frames 128 skipped 0 left 0' \
    'expected answer 0 frames 128 skipped 0 left 0; door answer 0 frames 127 skipped 0 left 512; reference answer 0 frames 127'
mistake_below 1 plain_read.cases 'sync 0 100 512 612 | answer 0 frames 1 skipped 0 left 103' \
    'sync 0 100 512 612 | answer 0 frames 2 skipped 0 left 3' \
    'expected answer 0 frames 2 skipped 0 left 3; door answer 0 frames 1 skipped 0 left 103; reference answer 0 frames 1'
mistake_below 2 plain_read.cases 'left 3 | output put frame1 at 0 put frame2 at 512 put frame3 at 1024' \
    'left 3 | output put frame1 at 0 put frame2 at 517 put frame3 at 1024' 'output[512]: expected AA; door 7F; reference 7F'
mistake_below 1 plain_read.cases 'left 514 | output put frame1 at 0' 'left 514 | output put frame1 at 0 at 2099 = 00' \
    'output[2099]: expected 00; door AA; reference AA'
mistake plain_read.cases '65536 bytes without sync | answer 0 frames 0 skipped 65022 left 514' \
    '65536 bytes without sync | answer 3 frames 0 skipped 0 left 0' \
    'expected answer 3 frames 0 skipped 0 left 0; door answer 0 frames 0 skipped 65022 left 514; reference answer 0 frames 0'
mistake plain_read.cases 'input 65537 of 7F  | output length 65537 | answer 3 frames 0 skipped 0 left 0' \
    'input 65537 of 7F  | output length 65537 | answer 0 frames 127 skipped 0 left 513' \
    'expected answer 0 frames 127 skipped 0 left 513; door answer 3 frames 0 skipped 0 left 0; reference answer 3 frames 0'
mistake plain_read.cases 'output length 512 | answer 4 frames 0 skipped 0 left 0' \
    'output length 512 | answer 0 frames 1 skipped 0 left 3' \
    'expected answer 0 frames 1 skipped 0 left 3; door answer 4 frames 0 skipped 0 left 0; reference answer 4 frames 0'
mistake plain_read.cases 'an output of 514          | output length 514 | answer 4 frames 0 skipped 0 left 0' \
    'an output of 514          | output length 514 | answer 4 frames 0 skipped 0 left 0 | output put told at 0' \
    'output[0]: expected 7F; door AA; reference AA'
mistake_below 1 plain_read.cases 'output 65536 of AA | answer 3 frames 0 skipped 0 left 0' \
    'output 65536 of AA | answer 4 frames 0 skipped 0 left 0' \
    'expected answer 4 frames 0 skipped 0 left 0; door answer 3 frames 0 skipped 0 left 0; reference answer 3 frames 0'
mistake_below 1 plain_read.cases 'output 65535 of AA | answer 4 frames 0 skipped 0 left 0' \
    'output 65535 of AA | answer 4 frames 127 skipped 0 left 512' \
    'expected answer 4 frames 127 skipped 0 left 512; door answer 4 frames 0 skipped 0 left 0; reference answer 4 frames 0'

# After a false match (T-13). Claimed are a frame that is found though a false one begins 511 places before it, whole and in
# its place, and one byte skipped too many; a second frame that is lost where only one is; of a false frame 512 places
# before, that it costs a frame, and that it is skipped; a frame lost to a false one that was passed by; a false frame
# that is skipped where another ends; a frame lost behind 510 places, and one in a row of three; and, of which frame it
# is, a number one too low and one too high, a byte skipped too few, and a number for the frame that is lost.
mistake_below 1 stream.cases 'pieces 1026 of 1 | answer 0 frames 1' 'pieces 1026 of 1 | answer 0 frames 2' \
    'a false frame 511 before a frame, byte by byte: expected answer 0 frames 2; door answer 0 frames 1; reference answer 0'
mistake_below 1 stream.cases \
    'at 4 = 2 | answer 0 frames 3 | counts from_lost511 | held sync_left | handed lost511_out' \
    'at 4 = 2 | answer 0 frames 3 | counts from_lost511 | held sync_left | handed lost511_out put frame2 at 512' \
    'handed[520]: expected 02; door 03; reference 03'
mistake_below 1 plain_read.cases 'input lost511 | answer 0 frames 3 skipped 511 left 3' \
    'input lost511 | answer 0 frames 3 skipped 512 left 3' \
    'expected answer 0 frames 3 skipped 512 left 3; door answer 0 frames 3 skipped 511 left 3; reference answer 0 frames 3'
mistake_below 1 plain_read.cases 'input lost1 | answer 0 frames 3 skipped 1 left 3' \
    'input lost1 | answer 0 frames 2 skipped 513 left 3' \
    'expected answer 0 frames 2 skipped 513 left 3; door answer 0 frames 3 skipped 1 left 3; reference answer 0 frames 3'
mistake_below 1 stream.cases 'pieces 2 of 600 at 1 = 1027 | answer 0 frames 3' \
    'pieces 2 of 600 at 1 = 1027 | answer 0 frames 2' \
    'expected answer 0 frames 2; door answer 0 frames 3; reference answer 0 frames 3'
mistake_below 1 plain_read.cases 'input before512 | answer 0 frames 3 skipped 88 left 3' \
    'input before512 | answer 0 frames 2 skipped 600 left 3' \
    'expected answer 0 frames 2 skipped 600 left 3; door answer 0 frames 3 skipped 88 left 3; reference answer 0 frames 3'
mistake_below 1 plain_read.cases 'input passed_by | answer 0 frames 3 skipped 88 left 3' \
    'input passed_by | answer 0 frames 2 skipped 600 left 3' \
    'expected answer 0 frames 2 skipped 600 left 3; door answer 0 frames 3 skipped 88 left 3; reference answer 0 frames 3'
mistake_below 1 stream.cases 'pieces 3 of 512 at 2 = 1215 | answer 0 frames 4' \
    'pieces 3 of 512 at 2 = 1215 | answer 0 frames 3' \
    'expected answer 0 frames 3; door answer 0 frames 4; reference answer 0 frames 4'
mistake_below 1 plain_read.cases 'input from510 | answer 0 frames 2 skipped 510 left 3' \
    'input from510 | answer 0 frames 1 skipped 1022 left 3' \
    'expected answer 0 frames 1 skipped 1022 left 3; door answer 0 frames 2 skipped 510 left 3; reference answer 0 frames 2'
mistake_below 1 stream.cases 'pieces 1 of 3475 | answer 0 frames 6' 'pieces 1 of 3475 | answer 0 frames 5' \
    'expected answer 0 frames 5; door answer 0 frames 6; reference answer 0 frames 6'
mistake_below 1 plain_read.cases 'input twice length 1326 | answer 0 frames 1 skipped 300 left 514' \
    'input twice length 1326 | answer 0 frames 0 skipped 812 left 514' \
    'expected answer 0 frames 0 skipped 812 left 514; door answer 0 frames 1 skipped 300 left 514; reference answer 0 frames 1'
mistake_below 1 plain_read.cases 'input twice length 2962 | answer 0 frames 4 skipped 400 left 514' \
    'input twice length 2962 | answer 0 frames 5 skipped 400 left 2' \
    'expected answer 0 frames 5 skipped 400 left 2; door answer 0 frames 4 skipped 400 left 514; reference answer 0 frames 4'
mistake_below 2 stream.cases 'counts held 514 frames 2 skipped 188 total 1726' \
    'counts held 514 frames 2 skipped 187 total 1726' 'counts skipped: expected 187; door 188; reference 188'
mistake_below 1 plain_read.cases 'input lost511 length 1025 | answer 0 frames 1 skipped 0 left 513' \
    'input lost511 length 1025 | answer 0 frames 0 skipped 511 left 514' \
    'expected answer 0 frames 0 skipped 511 left 514; door answer 0 frames 1 skipped 0 left 513; reference answer 0 frames 1'

# Why a byte was thrown out (T-05). Claimed are the far sync where the near one is wrong too, the second of two wrong bytes of
# either sync, and a byte of the near sync for one of the far one; a frame on the near sync alone; a byte skipped where 514
# remain, one held where 515 do, and a frame where 514 remain; a frame's last byte that is skipped, the byte behind a frame
# that is inside it, a start one too high, and one that is the place; a frame that a stray 7F hides, and one that is passed
# by after a failed test; a good frame inside a false one, behind which it goes on, and one that is skipped in it; an input of
# 65,536 that is refused and one of 65,537 that is read; RANGE before LENGTH; and a place that is the length, one that is cut
# to 32 bits, and one of no byte.
other_reason 0 'input at 2 = 7E at 512 = 7E        | ' '0 near 2' '0 far 0'
other_reason 0 'input at 1 = 7E 7E                 | ' '0 near 1' '0 near 2'
other_reason 0 'input at 513 = 7E 7E               | ' '0 far 1' '0 far 2'
other_reason 0 'input at 514 = FF | ' '0 far 2' '0 near 2'
other_reason 0 'row l, first byte    | input 515 of 00 sync 0     | place 0   | ' '0 far 0' '0 inside 0'
other_reason 0 'input 514 of 11 | place 0   | ' '0 held' '0 near 0'
other_reason 0 'input 515 of 11 | place 0   | ' '0 near 0' '0 held'
other_reason 1 'input length 1026 | place 512 | ' '0 held' '0 inside 512'
other_reason 0 'last of the second   | place 1023 | ' '0 inside 512' '0 near 0'
other_reason 0 'behind both          | place 1024 | ' '0 held' '0 inside 512'
other_reason 0 'frame 1  | place 5    | ' '0 inside 5' '0 inside 6'
other_reason 0 'its last | place 516  | ' '0 inside 5' '0 inside 516'
other_reason 0 '7F and a frame, at 1                      | place 1   | ' '0 inside 1' '0 near 2'
other_reason 0 'input from510 | place 510 | ' '0 inside 510' '0 near 0'
other_reason 0 'input tight | place 511  | ' '0 inside 0' '0 inside 511'
other_reason 0 'input lost511 | place 512  | ' '0 far 2' '0 inside 511'
other_reason 0 'input twice | place 300  | ' '0 inside 0' '0 near 0'
other_reason 0 '65536 of 00, the last    | place 65535 | ' '0 held' '3'
other_reason 0 'input length 65537 | place 0     | ' '3' '0 near 0'
other_reason 0 'input length 65537 | place 65537 | ' '3' '9'
other_reason 0 'place 515   | ' '9' '0 held'
other_reason 0 'place 4294967296 | ' '9' '0 inside 0'
other_reason 0 'input 0 of 00 | place 0   | ' '9' '0 held'

# A cell that is claimed to be as it was: in a record, past what a call writes, in a lent frame; and one that
# is claimed to have changed after a refusal, or to be as it was after one that comes behind frames that were read.
mistake radio_read.cases '| answer 0 word 1 | status dot 1' '| answer 0 word 1' \
    'status dot: expected 0; door 1; reference 1'
mistake radio_read.cases '512 bytes | answer 0 word 1 | iq at 0 x 126' '512 bytes | answer 0 word 1 | iq at 0 x 125' \
    'iq[125]: expected 1234567; door 0; reference 0'
mistake radio_read.cases 'answer 0 word 1 | iq at 0 x 126 = 0 | mic at 0 x 63 = 0 | status heard' 'answer 0 word 1' \
    'iq: and 122 cells more'
mistake radio_transfer.cases 'answer 6 frames 7 byte 2 | iq iq7' 'answer 6 frames 7 byte 2 | iq iq8' \
    'iq[882]: expected 524288; door 1234567; reference 1234567'
mistake radio_transfer.cases 'answer 6 frames 4 byte 1 | iq iq4 | mic mic4 | status after4' \
    'answer 6 frames 4 byte 1 | iq iq4 | mic mic4' 'status dot: expected 1; door 0; reference 0'
mistake host_build.cases 'turn 5 outputs 128 | answer 9' 'turn 5 outputs 128 | answer 9 | builder turn 6' \
    'builder turn: expected 6; door 5; reference 5'
mistake why_byte.cases 'place 514   | answer 0 held' 'place 514   | answer 0 held | input at 514 = 00' \
    'input[514]: expected 00; door 7F; reference 7F'

# A word that is not known: a call, an argument, a cell, contents, a kind, what is found or counted, a reason, one behind it,
# what its place is, a cause.
mistake layout.cases 'layout of 3 |' 'layuot of 3 |' "unknown word 'layuot'"
mistake layout.cases 'receivers 4 |' 'recievers 4 |' "unknown word 'recievers'"
mistake radio_read.cases 'answer 0 word 0 | status pll 1' 'answer 0 word 0 | status pl 1' "status: unknown word 'pl'"
mistake fresh.cases 'answer 0 | builder fresh turn 0 length' 'answer 0 | builder frehs turn 0 length' \
    "builder: unknown word 'frehs'"
mistake stream.cases 'define counts fresh' 'define count fresh' "unknown word 'count'"
mistake host_read.cases 'control 00 63 00 00 00 | answer 0 address 0' 'control 00 63 00 00 00 | answer 0 word 0' \
    "unknown word 'word'"
mistake host_read.cases 'frame at 1 = FF       | answer 6 address 0 byte 1' \
    'frame at 1 = FF       | answer 6 address 0 cause relay' "unknown word 'cause'"
mistake host_read.cases 'control 12 00 00 00 80 | answer 8 address 0 cause word9_c4_bit7' \
    'control 12 00 00 00 80 | answer 8 address 0 byte 7' "unknown word 'byte'"
mistake host_read.cases 'control 00 00 00 00 17 | answer 8 address 0 cause relay' \
    'control 00 00 00 00 17 | answer 8 address 0 cause rely' "unknown word 'rely'"

mistake radio_read.cases 'control 08 00 00 9C 40 | answer 8 word 0 cause ain1' \
    'control 08 00 00 9C 40 | answer 8 word 0 cause ain7' "unknown word 'ain7'"
mistake radio_read.cases 'control 10 0F FF 10 00 | answer 8 word 0 cause ain3' \
    'control 10 0F FF 10 00 | answer 8 word 0 byte 6' "unknown word 'byte'"

mistake plain_read.cases 'input 3 of 7F    | answer 0 frames 0 skipped 0 left 3' \
    'input 3 of 7F    | answer 0 frames 0 skipped 0 held 3' "unknown word 'held'"
mistake why_byte.cases 'input at 0 = 00   | answer 0 near 0' 'input at 0 = 00   | answer 0 nigh 0' "unknown word 'nigh'"
mistake why_byte.cases 'input 1 of 00   | place 0   | answer 0 held' 'input 1 of 00   | place 0   | answer 0 held 0' \
    "unknown word '0'"

# A place beside an answer that says none: an accepted call, a refusal of another kind, and one of the whole transfer. And a
# reason beside a refusal.
mistake radio_read.cases 'answer 0 word 31 | status dot 1 ptt 1' 'answer 0 word 31 byte 0 | status dot 1 ptt 1' \
    "unknown word 'byte'"
mistake radio_read.cases 'frame length 513 | answer 3 word 0' 'frame length 513 | answer 3 word 0 byte 511' \
    "unknown word 'byte'"
mistake radio_transfer.cases 'mic length 503 | input at 3584 = 7E | answer 4 frames 0' \
    'mic length 503 | input at 3584 = 7E | answer 4 frames 0 byte 0' "unknown word 'byte'"
mistake host_build.cases 'builder turn 255 | answer 1' 'builder turn 255 | answer 1 cause source10' "unknown word 'cause'"
mistake plain_read.cases 'input at 514 = 7E | answer 0 frames 0 skipped 1 left 514' \
    'input at 514 = 7E | answer 0 frames 0 skipped 1 left 514 byte 514' "unknown word 'byte'"
mistake radio_read.cases 'control 08 01 F4 04 56 | answer 0 word 1' 'control 08 01 F4 04 56 | answer 0 word 1 cause ain1' \
    "unknown word 'cause'"
mistake radio_write.cases 'status ain3 4096 | word 2 | answer 9' 'status ain3 4096 | word 2 | answer 9 cause ain3' \
    "unknown word 'cause'"
mistake why_byte.cases 'input 1 of 7F | place 1   | answer 9' 'input 1 of 7F | place 1   | answer 9 held' \
    "unknown word 'held'"

# What is missing: an answer, what is found or counted, a reason, what belongs to it, a place, a cause, an argument, a field
# of a record, a title, a part of a description.
mistake layout.cases '| answer 0 | row slot 8' '| row slot 8' 'the answer is missing'
mistake layout.cases 'receivers 0 | answer 2' 'receivers 0 | answer' 'the answer is missing'
mistake radio_read.cases 'receivers 9 | answer 2 word 0' 'receivers 9 | answer 2' 'word is missing'
mistake radio_read.cases 'frame at 2 = 80 | answer 6 word 0 byte 2' 'frame at 2 = 80 | answer 6 word 0' 'byte is missing'
mistake radio_read.cases 'frame at 506 = 80 | answer 7 word 0 byte 506' 'frame at 506 = 80 | answer 7 word 0 byte' \
    'byte is missing'
mistake radio_transfer.cases 'input at 1004 = 01 | answer 7 frames 1 byte 492' 'input at 1004 = 01 | answer 7 frames 1' \
    'byte is missing'
mistake host_read.cases 'control 14 80 00 00 00 | answer 8 address 0 cause word10_c1_bit7' \
    'control 14 80 00 00 00 | answer 8 address 0' 'cause is missing'
mistake radio_read.cases 'control 18 FF FF 00 00 | answer 8 word 0 cause ain4' \
    'control 18 FF FF 00 00 | answer 8 word 0' 'cause is missing'
mistake radio_transfer.cases 'input at 3588 = 10 00 | answer 8 frames 7 cause ain5' \
    'input at 3588 = 10 00 | answer 8 frames 7' 'cause is missing'
mistake plain_read.cases 'input 2 of 7F    | answer 0 frames 0 skipped 0 left 2' \
    'input 2 of 7F    | answer 0 frames 0' 'skipped is missing'
mistake plain_read.cases 'an output of 0            | output length 0   | answer 4 frames 0 skipped 0 left 0' \
    'an output of 0            | output length 0   | answer 4 frames 0 skipped 0' 'left is missing'
mistake why_byte.cases 'input at 1 = 00   | answer 0 near 1' 'input at 1 = 00   | answer 0' 'the reason is missing'
mistake why_byte.cases 'input at 512 = 00 | answer 0 far 0' 'input at 512 = 00 | answer 0 far' 'far is missing'
mistake why_byte.cases 'sync 0     | place 513 | answer 0 held' 'sync 0     | answer 0 held' 'place is missing'
mistake_below -2 layout.cases 'usual layout | row 4 of 77' 'usual layout' 'row is missing'
mistake fresh.cases '| builder marked turn 7 | answer 0' '| builder marked | answer 0' 'builder turn is missing'
mistake layout.cases 'layout of 2 |' 'layout |' "the case's title is missing"
mistake radio_read.cases 'iq at 0 = -8388608' 'iq at 0 -8388608' "iq: '=' is missing"

# A number that its cell cannot hold, that is none, or that stands past the end; cells said twice, and lengths.
mistake radio_read.cases 'mic at 0 = -32768' 'mic at 0 = -32769' 'mic: -32769 is out of range: -32768 to 32767'
mistake radio_read.cases 'control 00 20 00 00 00' 'control 00 2G 00 00 00' "frame: '2G' is not a number"
mistake radio_read.cases 'control 00 40 00 00 00' 'control 00 40 00 00' 'frame: control is not five bytes'
mistake layout.cases 'receivers 9 | answer' 'receivers -1 | answer' 'receivers: -1 is out of range'
mistake layout.cases 'receivers 257 | answer 2' 'receivers 257 | answer 10' "the answer: '10' is not a number from 0 to 9"
mistake plain_read.cases 'input 1 of 7F    | answer 0 frames 0 skipped 0 left 1' \
    'input 1 of 7F    | answer 0 frames 256 skipped 0 left 1' "frames: '256' is not a number from 0 to 255"
mistake plain_read.cases 'input length 65535 | answer 0 frames 0 skipped 65021 left 514' \
    'input length 65535 | answer 0 frames 0 skipped 65536 left 514' \
    "skipped: '65536' is not a number from 0 to 65535"
mistake radio_read.cases 'frame at 2 = 7E | answer 6 word 0 byte 2' 'frame at 2 = 7E | answer 6 word 0 byte 3' \
    "byte: '3' is not a number from 0 to 2"
mistake why_byte.cases 'input at 2 = 00   | answer 0 near 2' 'input at 2 = 00   | answer 0 near 3' \
    "near: '3' is not a number from 0 to 2"
mistake why_byte.cases 'place 65532 | answer 0 inside 65021' 'place 65532 | answer 0 inside 65022' \
    "inside: '65022' is not a number from 0 to 65021"
mistake radio_read.cases 'frame at 488 x 24 = 01 | answer 7 word 0 byte 488' \
    'frame at 488 x 24 = 01 | answer 7 word 0 byte 512' \
    "byte: '512' is not a number from 0 to 511"
mistake stream.cases '0 | held at 513 = 01 | answer 1 frames 0' '0 | held at 514 = 01 | answer 1 frames 0' \
    'held: there is no place 514 among 514'
mistake layout.cases 'slot 14 slots 36' 'slot 14 slot 36' "row: 'slot' is said twice"
mistake fresh.cases 'answer 0 | status fresh length 27 of 7' 'answer 0 | status fresh' \
    'status: 27 cells are given and 26 expected'
mistake_below 1 stream.cases 'pieces 5 of 513 at 4 = 6' 'pieces 5 of 513 at 4 = 5' 'the pieces are shorter than the input'
mistake layout.cases 'layout of 6 |' 'layout of 5 |' 'has a case of the same title'

# I and Q left as they were in a file of parts, and so in both directions.
cp "$data"/host_build.cases "$room"
awk '{ sub(/00 03[+]04 FF FF/, "FF FF 00 03+04") } { print }' "$data/host.parts" >"$room/host.parts"
must_fail host_build.cases "$(line_of host_build.cases '^build the numbers')" \
    'frame[12]: expected FF; door 00; reference 00'
must_fail host_build.cases "$(line_of host_build.cases '^host_read the numbers back')" \
    'audio[2]: expected -1; door 3; reference 3'

# A false frame that is none, in a file of parts: byte 3 of the frame that it loses is 0, and sync does not stand 512 bytes
# after its own. As many frames are handed out and bytes skipped, but the first frame is another.
cp "$data"/stream.cases "$data"/plain_read.cases "$data"/why_byte.cases "$room"
awk '{ sub(/at 514 = 7F put frame3/, "put frame3") } { print }' "$data/stream.parts" >"$room/stream.parts"
must_fail stream.cases "$(line_of stream.cases '^stream_pieces a false frame 511 before frames, whole')" \
    'handed[3]: expected 01; door 00; reference 00'
must_fail plain_read.cases "$(line_of plain_read.cases '^plain_read a false frame 511 before frames$')" \
    'output[3]: expected 01; door 00; reference 00'
must_fail why_byte.cases "$(line_of why_byte.cases '^why_byte a false frame 511 before frames, at 511 ')" \
    'expected answer 0 inside 0; door answer 0 inside 511; reference answer 0 inside 511'

# A level of 4096 in the record that is written.
cp "$data"/radio_write.cases "$room"
awk '{ sub(/ain4 4094/, "ain4 4096") } { print }' "$data/radio.parts" >"$room/radio.parts"
must_fail radio_write.cases "$(line_of radio_write.cases '^radio_write chosen, word 0')" \
    'expected answer 0; door answer 9; reference answer 9'

# Mistakes in a file of parts are reported there.
copy_with fresh.cases 'over a full record' 'over a record'
awk '{ sub(/pll 0 toggle 0/, "pll 0") } { print }' "$data/radio.parts" >"$room/radio.parts"
must_fail fresh.cases "$(line_of radio.parts 'define status fresh')" 'toggle is missing' radio.parts

# A file without a case, and one that is not there.
: >"$room/empty.cases"
must_fail empty.cases 1 'there is no case in the file'
grep '^#' "$data/stream.cases" >"$room/comments.cases"
must_fail comments.cases 1 'there is no case in the file'
must_fail missing.cases 1 'No such file'

# Every failing case is listed, and the others are run.
awk '{ sub(/answer 2/, "answer 3") } { print }' "$data/layout.cases" >"$room/layout.cases"
must_fail layout.cases "$(line_of layout.cases 'layout of 0')" 'expected answer 3; door answer 2'
[ "$(wc -l <"$room/said")" -eq "$(grep -c 'answer 2' "$data/layout.cases")" ] || fails 'not every failing case is listed'
grep -q "layout.cases: $(grep -c '^layout' "$data/layout.cases") cases" "$room/out" || fails 'the cases are not all run'

cargo test --offline --release -q -p cases >"$room/out" 2>&1 || fails "$(cat "$room/out")"
echo "tests/cases.sh: $found mistakes are found"
