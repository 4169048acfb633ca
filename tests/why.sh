#!/bin/sh
# Runs ./why on inputs at the edges of T-05, "why were these bytes thrown out?", and compares what it prints, and what it
# says on standard error, with lines that were worked out from the request and from document 01's reading by hand.
# POSIX sh and xxd.
program=./why
. "$(dirname "$0")/program.sh"

# Of the input in `in`, for a place or, without one, for all of it, these lines are printed and nothing is said.
tells() { # WHAT PLACE LINE...
    what=$1 place=$2
    shift 2
    printf '%s\n' "$@" >"$room/lines"
    ./why $place <"$room/in" >"$room/got" 2>"$room/said" || fails "$what" "./why $place ended with status $?: $(cat "$room/said")"
    cmp -s "$room/got" "$room/lines" || fails "$what" "$(diff "$room/got" "$room/lines" | head -n 6)"
    [ ! -s "$room/said" ] || fails "$what" "./why said: $(cat "$room/said")"
    tried=$((tried + 1))
}

# For these arguments nothing is printed, one line is said, and the status is not 0.
refuses() { # WHAT LINE ARGUMENT...
    what=$1 line=$2
    shift 2
    status=0
    ./why "$@" <"$room/in" >"$room/got" 2>"$room/said" || status=$?
    [ ! -s "$room/got" ] || fails "$what" "it printed: $(head -n 1 "$room/got")"
    says "$what" "$status" "$line"
}

zeros() { dd if=/dev/zero bs="$1" count=1 2>"$room/dd" || fails dd "$(cat "$room/dd")"; }
sync='\177\177\177'

# 515 bytes: six, 506 zeros, and three.
bytes() { # FIRST LAST
    { printf "$1"; zeros 506; printf "$2"; } >"$room/in"
}
near='from byte 0:[7F][7F][7F] 01  02  03  00  00  00  00 '
far='from byte 506: 00  00  00  00  00  00 [7F][7F][7F]'

# ---- a frame: its first byte and its last, and what is held behind it

bytes "$sync"'\001\002\003' "$sync"
tells 'the first byte of a frame' 0 'byte 0 was handed out: it is byte 0 of the frame that begins at byte 0' "$near" "$far"
tells 'a byte of a frame' 4 'byte 4 was handed out: it is byte 4 of the frame that begins at byte 0' \
    'from byte 0:[7F][7F][7F] 01  02  03  00  00  00  00  00  00  00  00 ' "$near" "$far"
tells 'the last byte of a frame' 511 'byte 511 was handed out: it is byte 511 of the frame that begins at byte 0' \
    'from byte 505: 00  00  00  00  00  00  00 [7F][7F][7F]' "$near" "$far"
tells 'zeros before a place' 00000000000000000000000511 'byte 511 was handed out: it is byte 511 of the frame that begins at byte 0' \
    'from byte 505: 00  00  00  00  00  00  00 [7F][7F][7F]' "$near" "$far"
tells 'the sync behind it' 512 'byte 512 is still held: where the reading stopped, fewer than 515 bytes remain' \
    'from byte 506: 00  00  00  00  00  00  7F  7F  7F '
tells 'the last byte' 514 'byte 514 is still held: where the reading stopped, fewer than 515 bytes remain' \
    'from byte 508: 00  00  00  00  7F  7F  7F '
tells '515 bytes with sync at 0 and 512' '' 'bytes 0 to 511 were handed out: 1 frame' 'bytes 512 to 514 are still held'

# ---- each byte of both syncs; of two wrong bytes the first, and of two wrong syncs the near one

bytes '\252\177\177\001\002\003' "$sync"
tells 'byte 0 of the near sync' 0 'byte 0 was skipped: byte 0 of the sync there is AA and not 7F' \
    'from byte 0:[AA] 7F  7F  01  02  03  00  00  00  00 '
bytes '\177\252\177\001\002\003' "$sync"
tells 'byte 1 of the near sync' 0 'byte 0 was skipped: byte 1 of the sync there is AA and not 7F' \
    'from byte 0:[7F][AA] 7F  01  02  03  00  00  00  00 '
bytes '\177\177\252\001\002\003' "$sync"
tells 'byte 2 of the near sync' 0 'byte 0 was skipped: byte 2 of the sync there is AA and not 7F' \
    'from byte 0:[7F][7F][AA] 01  02  03  00  00  00  00 '
bytes '\177\252\273\001\002\003' '\274\275\276'
tells 'two bytes of the near sync, and all of the far one' 0 'byte 0 was skipped: byte 1 of the sync there is AA and not 7F' \
    'from byte 0:[7F][AA] BB  01  02  03  00  00  00  00 '
bytes "$sync"'\001\002\003' '\200\177\177'
tells 'byte 0 of the far sync' 0 'byte 0 was skipped: byte 0 of the sync 512 bytes later is 80 and not 7F' "$near" \
    'from byte 506: 00  00  00  00  00  00 [80] 7F  7F '
bytes "$sync"'\001\002\003' '\177\176\177'
tells 'byte 1 of the far sync' 0 'byte 0 was skipped: byte 1 of the sync 512 bytes later is 7E and not 7F' "$near" \
    'from byte 506: 00  00  00  00  00  00 [7F][7E] 7F '
bytes "$sync"'\001\002\003' '\177\177\000'
tells 'byte 2 of the far sync' 0 'byte 0 was skipped: byte 2 of the sync 512 bytes later is 00 and not 7F' "$near" \
    'from byte 506: 00  00  00  00  00  00 [7F][7F][00]'
tells 'a run of one byte' '' 'byte 0 was skipped: byte 2 of the sync at byte 512 is 00 and not 7F' 'bytes 1 to 514 are still held'
bytes "$sync"'\001\002\003' '\300\301\302'
tells 'all of the far sync' 0 'byte 0 was skipped: byte 0 of the sync 512 bytes later is C0 and not 7F' "$near" \
    'from byte 506: 00  00  00  00  00  00 [C0] C1  C2 '

# ---- lengths: 0, 1, 514 and 65,536 bytes, and one more

: >"$room/in"
tells 'an empty input' '' 'there are no bytes'
refuses 'a place of an empty input' 'why: the place is past the end of the input, which has 0 bytes' 0
printf '\177' >"$room/in"
tells 'one byte' '' 'byte 0 is still held'
tells 'the place of one byte' 0 'byte 0 is still held: where the reading stopped, fewer than 515 bytes remain' 'from byte 0: 7F '
refuses 'a place behind one byte' 'why: the place is past the end of the input, which has 1 byte' 1
{ printf "$sync"; zeros 511; } >"$room/in"
tells '514 bytes that begin with sync' '' 'bytes 0 to 513 are still held'
zeros 65536 >"$room/in"
tells '65,536 zeros' '' 'bytes 0 to 65,021 were skipped, the first because byte 0 of the sync at byte 0 is 00 and not 7F' 'bytes 65,022 to 65,535 are still held'
zeros16=' 00  00  00  00  00  00 [00] 00  00  00  00  00  00  00  00  00 '
tells 'a place with 515 bytes' 65021 'byte 65,021 was skipped: byte 0 of the sync there is 00 and not 7F' "from byte 65,015:$zeros16"
tells 'a place with 514 bytes' 65022 'byte 65,022 is still held: where the reading stopped, fewer than 515 bytes remain' \
    'from byte 65,016: 00  00  00  00  00  00  00  00  00  00  00  00  00  00  00  00 '
tells 'the last of 65,536' 65535 'byte 65,535 is still held: where the reading stopped, fewer than 515 bytes remain' \
    'from byte 65,529: 00  00  00  00  00  00  00 '
refuses 'the place behind 65,536' 'why: the place is past the end of the input, which has 65,536 bytes' 65536
for place in 4294967296 18446744073709551616 100000000000000000000000000000000000000000000000000000000; do
    refuses "the place $place" 'why: the place is past the end of the input, which has 65,536 bytes' "$place"
done
printf '\177' >>"$room/in"
refuses '65,537 bytes' 'why: the input is longer than 65,536 bytes'
refuses 'a place of 65,537 bytes' 'why: the input is longer than 65,536 bytes' 0
refuses 'a place behind 65,537 bytes' 'why: the input is longer than 65,536 bytes' 70000

# ---- recordings whose contents are known: examples/recording.sh says what is in them

cp examples/recording.bin "$room/in"
set -- 'bytes 0 to 2,047 were handed out: 4 frames' \
    'bytes 2,048 to 2,553 were skipped, the first because byte 0 of the sync at byte 2,560 is 20 and not 7F' \
    'bytes 2,554 to 5,625 were handed out: 6 frames' 'bytes 5,626 to 6,137 are still held'
tells 'six bytes lost' '' "$@"
tells 'the frame that lost them' 2048 'byte 2,048 was skipped: byte 0 of the sync 512 bytes later is 20 and not 7F' \
    'from byte 2,042: 44  44  00  00  00  00 [7F][7F][7F] 20  42  42  42  00  11  11 ' \
    'from byte 2,554: 7F  7F  7F  00  3E  21 [20] 17  11  11  11  11  11  11  22  22 '
# These two windows are the bytes that xxd shows there.
for from in 2042 2554; do
    xxd -u -p -s "$from" -l 16 "$room/in"
done >"$room/dump"
sed -n 's/^from byte [0-9,]*://p' "$room/got" | tr -d '[] ' >"$room/shown"
cmp -s "$room/dump" "$room/shown" || fails 'the bytes around a place' "$(diff "$room/dump" "$room/shown")"
tried=$((tried + 1))
examples/recording.sh imitated >"$room/in"
tells 'a frame that the next one imitates' '' 'bytes 0 to 1,023 were handed out: 2 frames' \
    'bytes 1,024 to 1,529 were skipped, the first because byte 0 of the sync at byte 1,536 is 20 and not 7F' \
    'bytes 1,530 to 2,041 were handed out: 1 frame' 'bytes 2,042 to 2,044 are still held'
examples/recording.sh stray >"$room/in"
tells 'a stray 7F before a frame that ends in 7F' '' 'bytes 0 to 511 were handed out: 1 frame' \
    'byte 512 was skipped: byte 0 of the sync at byte 1,024 is 44 and not 7F' \
    'bytes 513 to 1,024 were handed out: 1 frame' 'bytes 1,025 to 1,027 are still held'

# ---- an input in two pieces, of which the first ends inside a frame

{
    dd if=examples/recording.bin bs=700 count=1 2>"$room/dd"
    sleep 1
    dd if=examples/recording.bin bs=700 skip=1 2>"$room/dd"
} | ./why >"$room/got" 2>"$room/said" || fails 'an input in two pieces' "./why ended with status $?: $(cat "$room/said")"
printf '%s\n' "$@" >"$room/lines"
cmp -s "$room/got" "$room/lines" || fails 'an input in two pieces' "$(diff "$room/got" "$room/lines" | head -n 6)"
[ ! -s "$room/said" ] || fails 'an input in two pieces' "./why said: $(cat "$room/said")"
tried=$((tried + 1))

# ---- what is no place

no_number='why: the place is no number: give it in decimal digits'
for place in '' ' ' a 12a 0x10 -1 +1 1,324 1.5 ' 1' '1 ' 'byte 1' '٣'; do
    refuses "the place '$place'" "$no_number" "$place"
done
long=$(awk 'BEGIN { for (i = 0; i < 5000; i++) printf "1" }')
refuses 'a word of 5,000 bytes' "$no_number" "$long"
refuses 'two places' 'usage: ./why [PLACE] < RECORDING' 1 2
status=0
./why 0 <"$room" >"$room/got" 2>"$room/said" || status=$?
says 'a place of an input that cannot be read' "$status" 'why: the input cannot be read'

ends why examples/recording.bin
echo "tests/why.sh: $tried inputs and places are told as they must be"
