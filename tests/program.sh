# What the tests of the programs share. Sourced, with `program` set to the command that is tested.
set -eu
cd "$(dirname "$0")/.."
room=$(mktemp -d)
trap 'rm -rf "$room"' EXIT
tried=0

# What is to be built is built, and said, before anything is compared; and of the toolchain nothing is said.
HPSDR_TOOLCHAIN_TOLD=yes
export HPSDR_TOOLCHAIN_TOLD
"$program" </dev/null >"$room/got" 2>&1 || { cat "$room/got" >&2; exit 1; }

fails() { # WHAT WHY
    printf 'the test of %s: %s: %s\n' "$program" "$1" "$2" >&2
    exit 1
}

# The program ended as it must where it cannot go on: with a status that is not 0, and this line.
says() { # WHAT STATUS LINE
    [ "$2" -ne 0 ] || fails "$1" 'it ended with status 0'
    [ "$(cat "$room/said")" = "$3" ] || fails "$1" "it said: $(cat "$room/said")"
    tried=$((tried + 1))
}

# Where it cannot go on it ends: an input that cannot be read (a directory), and outputs that take nothing more of what
# it prints for an input.
ends() { # NAME INPUT
    status=0
    "$program" <"$room" >"$room/got" 2>"$room/said" || status=$?
    says 'an input that cannot be read' "$status" "$1: the input cannot be read"

    if [ -c /dev/full ]; then
        status=0
        "$program" <"$2" >/dev/full 2>"$room/said" || status=$?
        says 'an output that is full' "$status" "$1: the output cannot be written"
    fi

    (
        trap '' PIPE
        sleep 1
        status=0
        "$program" <"$2" 2>"$room/said" || status=$?
        echo "$status" >"$room/status"
    ) | :
    says 'an output that is closed' "$(cat "$room/status")" "$1: the output cannot be written"
}
