#!/bin/sh
# Runs ./list on inputs at the edges of document 01's "The listing program", and compares what it
# prints with rows that were worked out from that document by hand, or are made here from the columns
# that the frame was built to have. POSIX sh and awk.
program=./list
. "$(dirname "$0")/program.sh"

# digits N D: the digit D, N times
digits() {
    awk -v n="$1" -v d="$2" 'BEGIN { s = d; while (length(s) < n) s = s s; printf "%s", substr(s, 1, n) }'
}

# The input is in `in` and the rows that it must give in `rows`.
lists() { # WHAT
    ./list <"$room/in" >"$room/got" || fails "$1" "./list ended with status $?"
    cmp -s "$room/got" "$room/rows" || fails "$1" "$(diff "$room/got" "$room/rows" | head -n 4)"
    tried=$((tried + 1))
}

rows() { printf '%s\n' "$@" >"$room/rows"; }

# The line of a frame of zeros but for sync and C0 to C4.
frame() { printf '7f7f7f%s%s\n' "$1" "$(digits 1008 0)"; } # CONTROL

# Document 01's line 1: word 1, DOT on. `good` is the frame, without the end of its line.
good=7f7f7f0c01f40000$(digits 1008 0)
zeros=$(digits 1023 0)

: >"$room/in"
: >"$room/rows"
lists 'an empty input'

printf '\n' >"$room/in"
rows '1 3 - - - -'
lists 'one empty line'

printf '%s' "$good" >"$room/in"
rows '1 0 1 1 0 0'
lists 'a last line without a newline'

printf '%s\n0' "$good" >"$room/in"
rows '1 0 1 1 0 0' '2 3 - - - -'
lists 'a last line of one digit'

printf '%s\n%s\n%s\n' "${good%0}" "${good}0" "$good" >"$room/in"
rows '1 3 - - - -' '2 3 - - - -' '3 0 1 1 0 0'
lists '1,023 digits, 1,025 and 1,024'

printf '%s\n' "7F${good#7f}" "${good%0}A" "${good%0}g" "${good%0}/" "${good%0}:" "${good%0}\`" "${good%0} " " ${good%0}" >"$room/in"
rows '1 3 - - - -' '2 3 - - - -' '3 3 - - - -' '4 3 - - - -' '5 3 - - - -' '6 3 - - - -' '7 3 - - - -' '8 3 - - - -'
lists 'upper case, and the bytes beside the digits'

printf '%s\r\n%s\r\n\r\n' "$good" "${good%0}" >"$room/in"
rows '1 3 - - - -' '2 3 - - - -' '3 3 - - - -'
lists 'a carriage return'

printf '%s\000%s\n\377\n%s\n' "${good%00}" 0 "$good" >"$room/in"
rows '1 3 - - - -' '2 3 - - - -' '3 0 1 1 0 0'
lists 'bytes that are no text'

# Each of the three sync bytes, and a frame of zeros; C0 is 0c in the first three.
printf '%s\n' "7e7f7f${good#7f7f7f}" "7f7e7f${good#7f7f7f}" "7f7f7e${good#7f7f7f}" "${zeros}0" >"$room/in"
rows '1 6 - - - -' '2 6 - - - -' '3 6 - - - -' '4 6 - - - -'
lists 'no sync'

# A level is twelve bits, in C1 and C2 and in C3 and C4 of words 1 to 3: 9c40 is 40,000, 0fff is 4,095.
for control in 089c400000 0800009c40 0f9c409c40 1710000000 170fff1000 1f1fff0fff 1f0fffffff; do
    frame "$control"
done >"$room/in"
rows '1 8 - - - -' '2 8 - - - -' '3 8 - - - -' '4 8 - - - -' '5 8 - - - -' '6 8 - - - -' '7 8 - - - -'
lists 'a level above 4,095'

for control in 080fff0000 0f0fff0fff 170fff0fff 1f0fff0fff 07ffffffff 20ffffffff 279c409c40 2fffffffff f89c409c40; do
    frame "$control"
done >"$room/in"
rows '1 0 1 0 0 0' '2 0 1 1 1 1' '3 0 2 1 1 1' '4 0 3 1 1 1' '5 0 0 1 1 1' '6 0 4 0 0 0' '7 0 4 1 1 1' '8 0 5 1 1 1' \
    '9 0 31 0 0 0'
lists 'levels of 4,095, and words that carry none'

# Sync is tested before a level.
printf '%s\n' "7e7f7f089c400000$(digits 1008 0)" >"$room/in"
rows '1 6 - - - -'
lists 'a level above 4,095 without sync'

{
    printf '%s\n' "$good"
    digits 1048576 0
    printf '\n%s\n' "$good"
    digits 1048576 f
} >"$room/in"
rows '1 0 1 1 0 0' '2 3 - - - -' '3 0 1 1 0 0' '4 3 - - - -'
lists 'lines of a megabyte'

# Every address with DOT, DASH and PTT in every combination, in C0 bits 7-3, 2, 1 and 0; the other
# bytes are zeros, and then all ones, which in words 1 to 3 are levels above 4,095. 524,800 bytes: several
# chunks, whose ends cut lines.
awk -v in_file="$room/in" -v rows_file="$room/rows" '
    function hex(n) { return substr("0123456789abcdef", int(n / 16) + 1, 1) substr("0123456789abcdef", n % 16 + 1, 1) }
    function list(fill,    address, dot, dash, ptt, rest) {
        rest = fill
        while (length(rest) < 1016) rest = rest rest
        rest = substr(rest, 1, 1016)
        for (address = 0; address < 32; address++)
            for (dot = 0; dot < 2; dot++)
                for (dash = 0; dash < 2; dash++)
                    for (ptt = 0; ptt < 2; ptt++) {
                        print "7f7f7f" hex(8 * address + 4 * dot + 2 * dash + ptt) rest >in_file
                        if (fill == "f" && address >= 1 && address <= 3)
                            print ++line, "8 - - - -" >rows_file
                        else
                            print ++line, 0, address, dot, dash, ptt >rows_file
                    }
    }
    BEGIN { list("0"); list("f") }'
lists 'every address with every combination of keys'

# 200,000 lines: rows for more than the output buffer, many times over.
awk -v in_file="$room/in" -v rows_file="$room/rows" '
    BEGIN { for (line = 1; line <= 200000; line++) { print "" >in_file; print line, "3 - - - -" >rows_file } }'
lists 'many short lines'

# A line that comes in two pieces.
rows '1 0 1 1 0 0'
{
    printf '%s' "${good%0}"
    sleep 1
    printf '0\n'
} | ./list >"$room/got"
cmp -s "$room/got" "$room/rows" || fails 'a line in two pieces' "$(head -n 4 "$room/got")"
tried=$((tried + 1))

ends listing "$room/in"
echo "tests/listing.sh: $tried inputs are listed as they must be"
