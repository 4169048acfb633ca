#!/bin/sh
# Builds the tests of the library from C and the examples against the archive, and runs the tests, peaks, compare and why,
# alone and under valgrind; the tests of the header's short forms as C++ too. Says how much stack a feeding needs, and
# nothing else unless something fails.
set -eu
root=$(cd "$(dirname "$0")/.." && pwd)
archive=$root/target/archive/libhpsdr.a
work=$(mktemp -d)
trap 'rm -rf "$work"' EXIT
warnings='-Wall -Wextra -Wpedantic -Wconversion -Wshadow -Wcast-qual -Werror'

fail() {
    echo "c.sh: $*" >&2
    exit 1
}

build() {
    cc -std=c11 $warnings -O1 -g -I"$root/include" "$root/$1" "$archive" -o "$2" || fail "$1 does not build"
}

build_as_cpp() {
    g++ -std=c++11 $warnings -O1 -g -I"$root/include" -x c++ "$root/$1" -x none "$archive" -o "$2" ||
        fail "$1 does not build as C++"
}

# A program of $work and its arguments, under valgrind.
run_watched() {
    program=$1
    shift
    valgrind --error-exitcode=1 --leak-check=full -q "$work/$program" "$@" || fail "$program under valgrind"
}

# A test and its arguments, alone and under valgrind.
run() {
    program=$1
    shift
    "$work/$program" "$@" || fail "tests/$program finds faults"
    run_watched "$program" "$@"
}

zeros() {
    dd if=/dev/zero bs="$1" count=1 2> "$work/dd" || fail "dd: $(cat "$work/dd")"
}

# One frame of three receivers, whose slots have 20 bytes, and the sync of one more.
extremes() {
    printf '\177\177\177\000\000\000\000\000'
    # Slot 0: 100 and -200; 8,388,607 and 0; -8,388,608 and 0; microphone 32,767.
    printf '\000\000\144\377\377\070\177\377\377\000\000\000\200\000\000\000\000\000\177\377'
    zeros $((23 * 20))
    # Slot 24: -70,000 for the first; the rest of the slot and the padding are 0.
    printf '\376\356\220'
    zeros $((17 + 4))
    printf '\177\177\177'
}

expected_of_extremes() {
    cat << 'END'
receiver 1: peak 70000
receiver 2: peak 8388607
receiver 3: peak 8388608
frames read 1, frames refused 0, bytes skipped 0, bytes held 3
END
}

# What is said where as many bytes are held as a frame has.
held_frame='a last frame may be among the bytes held: it is handed out once sync, 7F 7F 7F, has come after it'

# What is due for examples/recording.bin, which has twelve frames of three receivers: the fifth lacks six bytes, and its
# 506 are skipped; the ninth has a padding byte that is not 0; the last is held. The samples are 25 slots of 20 bytes,
# each 11 in its bytes 0 to 5, 22 in 6 to 11, 33 in 12 to 17, and 44 in 18 and 19.
expected_of_3() {
    cat << END
receiver 1: peak $((0x111111))
receiver 2: peak $((0x222222))
receiver 3: peak $((0x333333))
frames read 9, frames refused 1, bytes skipped 506, bytes held 512
$held_frame
END
}

# With sync after it the last frame is read too.
expected_of_3_with_sync() {
    expected_of_3 | sed "s/frames read 9/frames read 10/; s/bytes held 512/bytes held 3/; /^$held_frame\$/d"
}

# Read for one receiver there is no padding, and the ninth counts. It begins with 7F FF FF, the largest there is.
expected_of_1() {
    cat << END
receiver 1: peak $((0x7fffff))
frames read 10, frames refused 0, bytes skipped 506, bytes held 512
$held_frame
END
}

# Nor for two. Receiver 2's I in slot 8 begins at byte 8 * 14 + 6 = 118, which is byte 18 of a slot of 20: 44 44 11. No
# other three bytes are more, but for the ninth's first, which are receiver 1's.
expected_of_2() {
    cat << END
receiver 1: peak $((0x7fffff))
receiver 2: peak $((0x444411))
frames read 10, frames refused 0, bytes skipped 506, bytes held 512
$held_frame
END
}

# For four the padding begins at byte 19 * 26 = 494, which is byte 14 of a slot of 20: 33. All ten frames are refused.
expected_of_4() {
    cat << END
receiver 1: peak 0
receiver 2: peak 0
receiver 3: peak 0
receiver 4: peak 0
frames read 0, frames refused 10, bytes skipped 506, bytes held 512
$held_frame
END
}

# For eight the padding begins at byte 10 * 50 = 500, as for three, and the wrong count does not show. A slot of 50
# begins at byte 0 or 10 of a slot of 20, so receiver r's values begin, with r from 0, at 6r, 6r + 3, 6r + 10 and
# 6r + 13 modulo 20:
#     r    begin at        the largest of them
#     0    0, 3, 10, 13    at 13
#     1    6, 9, 16, 19    at 19, which goes on at 0
#     2    12, 15, 2, 5    at 12 and 15
#     3    18, 1, 8, 11    at 18, which goes on at 0
#     4    4, 7, 14, 17    at 17
# and 5, 6 and 7 begin where 0, 1 and 2 do.
expected_of_8() {
    cat << END
receiver 1: peak $((0x333333))
receiver 2: peak $((0x441111))
receiver 3: peak $((0x333333))
receiver 4: peak $((0x444411))
receiver 5: peak $((0x334444))
receiver 6: peak $((0x333333))
receiver 7: peak $((0x441111))
receiver 8: peak $((0x333333))
frames read 9, frames refused 1, bytes skipped 506, bytes held 512
$held_frame
END
}

# What compare prints where both readers give these numbers.
expected_of_agreement() { # FRAMES SKIPPED LEFT
    cat << END
frames: $1 at once, $1 in pieces, the same
bytes skipped: $2 at once, $2 in pieces, the same
bytes left: $3 at once, $3 in pieces, the same
END
}

# What why prints of a byte.
expected_of_reason() { # TEXT
    printf '%s\n' "$1"
}

# A program, the exit status that is due, and its arguments. Its output is left in $work/got.
exits() {
    program=$1
    due=$2
    shift 2
    status=0
    "$work/$program" "$@" > "$work/got" 2> "$work/complaint" || status=$?
    [ "$status" -eq "$due" ] || fail "$program $* exits $status, expected $due"
}

peaks() {
    exits peaks "$@"
}

compare() {
    exits compare "$@"
}

# The place, what is due of it, and the recording.
why() {
    exits why 0 "$1" < "$3"
    check_output reason "$2"
}

# The place, what the complaint goes on with, and the recording.
why_refused() {
    exits why 1 "$1" < "$3"
    check_silence "for place $1"
    check_complaint "why: refused: $2\$"
}

# The name of what is expected, and the numbers that it takes.
check_output() {
    name=$1
    shift
    "expected_of_$name" "$@" | diff - "$work/got" ||
        fail "$program, the output due of $name $*: \"<\" is expected, \">\" is printed"
}

check_silence() {
    [ ! -s "$work/got" ] || fail "$program prints $1"
}

# One line that begins so.
check_complaint() {
    [ "$(wc -l < "$work/complaint")" -eq 1 ] || fail "$program does not complain by one line"
    grep -q "^$1" "$work/complaint" || fail "$program complains otherwise: $(cat "$work/complaint")"
}

# compare on the recording, with a plain reader that is wrong by one statement: what it says of the frames, of the bytes
# skipped and of the bytes left.
compare_wrong() { # STATEMENT FRAMES SKIPPED LEFT
    cat > "$work/wrong.c" << END
#include <hpsdr.h>
static struct hpsdr_plain read_wrongly(const uint8_t *input, size_t length, uint8_t *output) {
    struct hpsdr_plain plain = hpsdr_read_at_once(input, length, output);
    $1;
    return plain;
}
#define hpsdr_read_at_once read_wrongly
#include "compare.c"
END
    cc -std=c11 $warnings -I"$root/include" -I"$root/examples" "$work/wrong.c" "$archive" -o "$work/wrong" ||
        fail "compare with '$1' does not build"
    exits wrong 1 < "$recording"
    sed 's/.* in pieces, //' "$work/got" > "$work/words"
    printf '%s\n' "$2" "$3" "$4" | diff - "$work/words" || fail "compare with '$1': \"<\" is expected, \">\" is printed"
}

[ -f "$archive" ] || fail "there is no $archive: make it with tools/archive.sh"
build tests/door.c "$work/door"
build tests/forms.c "$work/forms"
build tests/recordings.c "$work/recordings"
build tests/stack.c "$work/stack"
build_as_cpp tests/forms.c "$work/forms.cpp"
build_as_cpp tests/recordings.c "$work/recordings.cpp"
build examples/peaks.c "$work/peaks"
build examples/compare.c "$work/compare"
build examples/why.c "$work/why"
# What these print stands in the README, and tests/readme.sh compares it.
build examples/program.c "$work/program"
build examples/send.c "$work/send"
build_as_cpp examples/program.cc "$work/program.cc"
for name in lost imitated stray; do
    "$root/examples/recording.sh" "$name" > "$work/$name"
done

run door
run forms
run forms.cpp
run recordings "$work/lost" "$work/imitated" "$work/stray"
run recordings.cpp "$work/lost" "$work/imitated" "$work/stray"
# Alone: what valgrind does with the stack is not the library's doing.
"$work/stack" || fail 'tests/stack finds faults'

recording=$root/examples/recording.bin
cmp "$recording" "$work/lost" || fail "examples/recording.bin is not what examples/recording.sh makes"
# The number of receivers, and the status: 1 where a frame is refused.
for pair in 1:0 2:0 3:1 4:1 8:1; do
    peaks "${pair#*:}" "${pair%:*}" < "$recording"
    check_output "${pair%:*}"
done
{ cat "$recording" && printf '\177\177\177'; } > "$work/with_sync"
peaks 1 3 < "$work/with_sync"
check_output 3_with_sync
extremes > "$work/extremes"
peaks 0 3 < "$work/extremes"
check_output extremes
for argument in 0 9 '' 1x -1 12; do
    peaks 2 "$argument" < "$recording"
    check_silence "for the argument '$argument'"
done
peaks 2 < "$recording"
peaks 2 1 1 < "$recording"
# A folder cannot be read.
peaks 1 1 < "$work"
check_complaint 'peaks: standard input: '

run_watched peaks 1 < "$recording" > "$work/got"
check_output 1

# Of the recording's twelve frames the fifth's 506 bytes are skipped, and the twelfth is left unless sync follows.
for argument in 1 2 511 512 513 4096; do
    compare 0 "$argument" < "$recording"
    check_output agreement 10 506 512
done
compare 0 < "$recording"
check_output agreement 10 506 512
compare 0 3 < "$work/with_sync"
check_output agreement 11 506 3
compare 0 1 < /dev/null
check_output agreement 0 0 0
# Without sync all but 514 bytes are skipped. Where all are 7F a frame begins every 512 bytes, and the last is left.
zeros 65536 > "$work/longest"
compare 0 < "$work/longest"
check_output agreement 0 65022 514
tr '\0' '\177' < "$work/longest" > "$work/sync_all_over"
compare 0 1000 < "$work/sync_all_over"
check_output agreement 127 0 512
zeros 65537 > "$work/longer"
compare 1 < "$work/longer"
check_silence 'for a recording that is too long'
check_complaint 'compare: the recording is longer than 65536 bytes$'
for argument in 0 4097 '' 1x -1 +1 99999999999999999999; do
    compare 2 "$argument" < "$recording"
    check_silence "for the argument '$argument'"
done
compare 2 1 1 < "$recording"
compare 1 < "$work"
check_complaint 'compare: standard input: '
run_watched compare 1000 < "$work/sync_all_over" > "$work/got"
check_output agreement 127 0 512

compare_wrong 'output[10 * 512 - 1] ^= 1' 'not the same' 'the same' 'the same'
compare_wrong 'plain.frames--' 'not the same' 'the same' 'the same'
compare_wrong 'plain.skipped++' 'the same' 'not the same' 'the same'
compare_wrong 'plain.left--' 'the same' 'the same' 'not the same'

# The fifth frame's 506 bytes begin at 2,048 with its sync, before which the fourth's end. 512 bytes later stand C3, C4 and
# a sample byte of the sixth, which begins at 2,554. The eleventh begins at 5,114, and the twelfth, at 5,626, is held.
why 0 'inside the frame handed out that begins at byte 0' "$recording"
why 2047 'inside the frame handed out that begins at byte 1536' "$recording"
why 2048 'skipped: byte 0 of the sync 512 bytes later is not 7F' "$recording"
why 2049 'skipped: byte 2 of the sync at this place is not 7F' "$recording"
why 2050 'skipped: byte 1 of the sync at this place is not 7F' "$recording"
why 2553 'skipped: byte 0 of the sync at this place is not 7F' "$recording"
why 2554 'inside the frame handed out that begins at byte 2554' "$recording"
why 5625 'inside the frame handed out that begins at byte 5114' "$recording"
why 5626 'still held' "$recording"
why 6137 'still held' "$recording"
why 5626 'inside the frame handed out that begins at byte 5626' "$work/with_sync"
why 65021 'skipped: byte 0 of the sync at this place is not 7F' "$work/longest"
why 65022 'still held' "$work/longest"
beyond="a value to be written does not fit, or the place is not below the input's length"
why_refused 6138 "$beyond" "$recording"
why_refused 99999999999999999999 "$beyond" "$recording"
why_refused 0 "$beyond" /dev/null
too_long='the frame is not 512 bytes, the transfer is not 1 to 8 times 512, the piece is above 4,096, or the input is above 65,536'
why_refused 0 "$too_long" "$work/longer"
why_refused 65537 "$too_long" "$work/longer"
for argument in '' 1x -1 +1 ' 1'; do
    exits why 2 "$argument" < "$recording"
    check_silence "for the argument '$argument'"
done
exits why 2 < "$recording"
exits why 2 1 1 < "$recording"
exits why 1 1 < "$work"
check_complaint 'why: standard input: '
run_watched why 2048 < "$recording" > "$work/got"
check_output reason 'skipped: byte 0 of the sync 512 bytes later is not 7F'
