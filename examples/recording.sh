#!/bin/sh
# Prints a recording of radio frames, as raw bytes:
#     examples/recording.sh lost | imitated | stray
#
# In each frame receiver 1's I and Q are 11 11 11, receiver 2's 22 22 22, receiver 3's 33 33 33, and every microphone
# value is 44 44, so that hexadecimal shows whose a sample is. The frames carry words 0 to 4 in turn.
#
# lost      Three receivers, twelve frames. A bridge dropped six bytes of the fifth: receiver 2's I and Q of its slot 1. The
#           ninth has a padding byte that is not 0, and 7F FF FF as receiver 1's first I. Nothing follows the twelfth.
#           This is examples/recording.bin.
# imitated  Two receivers, frames that carry words 2, 3, 4 and 0, and the sync of one more. Six bytes of the second were
#           dropped: receiver 1's I and Q of its slot 1. The third has 7F in C3, C4 and its first byte of I, so that 512
#           bytes after the second frame's sync there is 7F 7F 7F again, and it looks whole.
# stray     One receiver: a stray 7F, a frame whose last byte is 7F, another frame, and the sync of one more.
set -eu

# What the awk program prints is one octal escape for each byte.
bytes=$(awk -v name="${1:-}" '
    function put(hex,    at) {
        for (at = 1; at < length(hex); at += 2)
            printf "\\%03o", 16 * (index(digits, substr(hex, at, 1)) - 1) + index(digits, substr(hex, at + 1, 1)) - 1
    }
    function times(n, hex,    all) {
        while (n-- > 0)
            all = all hex
        return all
    }
    # Bytes from a place on are others, or none.
    function with(frame, place, count, hex) {
        return substr(frame, 1, 2 * place) hex substr(frame, 2 * (place + count) + 1)
    }
    # The frame of so many receivers that carries a word: sync, C0 to C4, slots and padding.
    function frame(receivers, word,    slot, slots, r) {
        for (r = 1; r <= receivers; r++)
            slot = slot times(6, r r)
        slot = slot "4444"
        slots = int(504 / (length(slot) / 2))
        return sync substr("0008101820", 2 * word + 1, 2) control[word] times(slots, slot) \
            times(504 - slots * length(slot) / 2, "00")
    }
    function lost(    k, one) {
        for (k = 1; k <= 12; k++) {
            one = frame(3, (k - 1) % 5)
            if (k == 5)
                one = with(one, 8 + 20 + 6, 6, "")
            if (k == 9)
                one = with(with(one, 8, 3, "7fffff"), 511, 1, "01")
            put(one)
        }
    }
    function imitated() {
        put(frame(2, 2) with(frame(2, 3), 8 + 14, 6, "") with(frame(2, 4), 6, 3, "7f7f7f") frame(2, 0) sync)
    }
    function stray() {
        put("7f" with(frame(1, 1), 511, 1, "7f") frame(1, 2) sync)
    }
    BEGIN {
        digits = "0123456789abcdef"
        sync = "7f7f7f"
        control[0] = "3e212017" # no input active, PLL locked; Mercury 33, Penelope 32, main board 23
        control[1] = "01f40258" # AIN5 500, AIN1 600
        control[2] = "00640ccc" # AIN2 100, AIN3 3,276
        control[3] = "00000bb8" # AIN4 0, AIN6 3,000
        control[4] = "42424200" # three boards of version 33
        if (name == "lost") lost()
        else if (name == "imitated") imitated()
        else if (name == "stray") stray()
        else exit 1
    }') || {
    echo 'usage: examples/recording.sh lost | imitated | stray' >&2
    exit 2
}
printf "$bytes"
