#!/bin/sh
# Runs ./frames on inputs at the edges of document 01's "The stream reader", and compares the lines that it prints, and
# what it says on standard error, with those that were worked out from that document by hand. The lines expected are
# cut from the input by place and length, and written in hexadecimal by xxd.
# POSIX sh and xxd.
program=./frames
. "$(dirname "$0")/program.sh"

# The input is in `in`; the frames handed out are those at the places.
hands_out() { # WHAT FRAMES SKIPPED HELD PLACE...
    what=$1
    said="frames: handed out $2, bytes skipped $3, bytes held $4"
    shift 4
    : >"$room/lines"
    for place; do
        xxd -p -c 512 -s "$place" -l 512 "$room/in" >>"$room/lines"
    done
    ./frames <"$room/in" >"$room/got" 2>"$room/said" || fails "$what" "./frames ended with status $?: $(cat "$room/said")"
    cmp -s "$room/got" "$room/lines" || fails "$what" "$(cut -c 1-64 "$room/got" | head -n 4)"
    [ "$(cat "$room/said")" = "$said" ] || fails "$what" "./frames said: $(cat "$room/said"), and not: $said"
    tried=$((tried + 1))
}

sync='\177\177\177'
zeros() { dd if=/dev/zero bs="$1" count=1 2>"$room/dd" || fails dd "$(cat "$room/dd")"; }

: >"$room/in"
hands_out 'an empty input' 0 0 0

# Rows j, k and l.
{ printf "$sync"; zeros 511; } >"$room/in"
hands_out '514 bytes that begin with sync' 0 0 514
{ printf "$sync"; zeros 509; printf "$sync"; } >"$room/in"
hands_out '515 bytes with sync at 0 and 512' 1 0 3 0
{ printf "$sync"; zeros 512; } >"$room/in"
hands_out '515 bytes with sync at 0 only' 0 1 514

# Twelve frames of which the fifth lost six bytes: 506 of it are skipped, and the twelfth is held.
cp examples/recording.bin "$room/in"
hands_out 'six bytes lost' 10 506 512 0 512 1024 1536 2554 3066 3578 4090 4602 5114
printf "$sync" >>"$room/in"
hands_out 'the last frame, and sync after it' 11 506 3 0 512 1024 1536 2554 3066 3578 4090 4602 5114 5626
dd if=examples/recording.bin bs=6137 count=1 >"$room/in" 2>"$room/dd"
printf "$sync" >>"$room/in"
hands_out 'the last frame without its last byte, and sync after it' 10 506 514 0 512 1024 1536 2554 3066 3578 4090 4602 5114

# What no reader can know: 506 bytes of the second frame with six of the third; a stray byte with 511 of a frame.
examples/recording.sh imitated >"$room/in"
hands_out 'a frame that the next one imitates' 3 506 3 0 512 1530
examples/recording.sh stray >"$room/in"
hands_out 'a stray 7F before a frame that ends in 7F' 2 1 3 0 513

# Every byte in hexadecimal, each by its number.
{
    printf "$sync"'\000\000\000\000\000'
    awk 'BEGIN { for (b = 0; b < 256; b++) printf "%02x", b }' | xxd -r -p
    zeros 248
    printf "$sync"
} >"$room/in"
hands_out 'every byte' 1 0 3 0

# A megabyte of frames: many pieces, whose ends cut frames.
dd if=examples/recording.bin bs=512 count=4 >"$room/four" 2>"$room/dd"
places=
count=0
: >"$room/in"
while [ "$count" -lt 500 ]; do
    cat "$room/four" >>"$room/in"
    places="$places $((2048 * count)) $((2048 * count + 512)) $((2048 * count + 1024)) $((2048 * count + 1536))"
    count=$((count + 1))
done
printf "$sync" >>"$room/in"
hands_out 'two thousand frames' 2000 0 3 $places

# A frame that comes in two pieces.
dd if=examples/recording.bin bs=512 count=1 >"$room/in" 2>"$room/dd"
xxd -p -c 512 "$room/in" >"$room/lines"
{
    dd if="$room/in" bs=300 count=1 2>"$room/dd"
    sleep 1
    dd if="$room/in" bs=300 skip=1 2>"$room/dd"
    printf "$sync"
} | ./frames >"$room/got" 2>"$room/said"
cmp -s "$room/got" "$room/lines" || fails 'a frame in two pieces' "$(cut -c 1-64 "$room/got")"
tried=$((tried + 1))

# What is printed is what ./list takes: a row for each frame, with the words that the recording carries.
./frames <examples/recording.bin 2>"$room/said" | ./list >"$room/got"
printf '%s\n' '1 0 0 0 0 0' '2 0 1 0 0 0' '3 0 2 0 0 0' '4 0 3 0 0 0' '5 0 0 0 0 0' '6 0 1 0 0 0' '7 0 2 0 0 0' '8 0 3 0 0 0' \
    '9 0 4 0 0 0' '10 0 0 0 0 0' >"$room/lines"
cmp -s "$room/got" "$room/lines" || fails 'frames that are listed' "$(diff "$room/got" "$room/lines" | head -n 4)"
tried=$((tried + 1))

ends frames examples/recording.bin
echo "tests/frames.sh: $tried inputs are read as they must be"
