#!/bin/sh
# The commands with the toolchain's `rt` replaced: by one that answers another version, by one that has something to
# build, and by one that fails; and on a machine that is said to be another. The programs that they run are those that are
# built.
# POSIX sh.
set -eu
cd "$(dirname "$0")/.."
room=$(mktemp -d)
trap 'rm -rf "$room"' EXIT
real=$(command -v rt)
unset HPSDR_TOOLCHAIN_TOLD
tried=0

fails() {
    printf 'tests/commands.sh: %s\n' "$*" >&2
    exit 1
}

# A tool of this name that runs these commands.
tool_that() { # NAME COMMANDS
    printf '#!/bin/sh\n%s\n' "$2" >"$room/$1"
    chmod +x "$room/$1"
}

# An `rt` that answers so to `version`, and so to all else.
rt_that() { # VERSION COMMANDS
    tool_that rt "if [ \"\$1\" = version ]; then echo '$1'; exit; fi
$2"
}

# ./list lists as it did, ends with the status, and says these lines.
list_says() { # WHAT STATUS [LINE...]
    what=$1 due=$2
    shift 2
    : >"$room/lines"
    [ $# -eq 0 ] || printf '%s\n' "$@" >"$room/lines"
    status=0
    PATH=$room:$PATH ./list <crates/listing/stdin >"$room/got" 2>"$room/said" || status=$?
    [ "$status" -eq "$due" ] || fails "$what: ./list ended with status $status: $(cat "$room/said")"
    [ "$due" -ne 0 ] || cmp -s "$room/got" crates/listing/stdout || fails "$what: $(cat "$room/got")"
    cmp -s "$room/said" "$room/lines" || fails "$what: ./list said: $(cat "$room/said")"
    tried=$((tried + 1))
}

# What is to be built is built, and said, before anything is compared.
./list </dev/null >"$room/got" 2>&1 || fails "$(cat "$room/got")"

[ "$(wc -l <toolchain)" -eq 1 ] || fails 'the file toolchain is not one line'
known=$(cat toolchain)

rt_that "$known" "exec $real \"\$@\""
list_says 'nothing to build' 0

rt_that 'another kit' "exec $real \"\$@\""
list_says 'another toolchain' 0 "./list: the toolchain is 'another kit'; all of this was proved with '$known'. Going on"

# Each call of this `date` gives the next of these seconds.
printf '%s\n' 100 107 107 119 >"$room/seconds"
tool_that date "head -n 1 '$room/seconds'; sed -i 1d '$room/seconds'"
rt_that "$known" "cat <<'LINES'
rt: chose --jobs 2 for hexline
fn hexline::one: proved
crate hexline: modules loaded=1 checked=2
logic=proved functions=1
rt: chose --jobs 2 for listing
fn listing::main: proved
logic=proved functions=1
linked target=x86_64-unknown-linux-gnu files=out/listing.o
rt: running out/listing; to give it other input, run that file yourself
LINES"
list_says 'two crates to build' 0 './list: proving and building what has changed, crate by crate' './list: hexline proved (7 s)' \
    './list: listing proved (12 s)'
rm "$room/date"

rt_that "$known" "echo 'fn listing::main: not proved'; echo 'logic=not-proved functions=1'; exit 1"
list_says 'a crate that is not proved' 1 'fn listing::main: not proved' 'logic=not-proved functions=1' \
    './list: rt run failed in crates/listing'

# The status of `rt run` is that of the program, here on an input of its own, and says nothing of what was built.
rt_that "$known" "echo 'rt: running out/listing; to give it other input, run that file yourself'; exit 1"
list_says 'a program that ends with status 1 on that input' 0

rt_that "$known" "exec $real \"\$@\""
tool_that uname 'echo aarch64'
list_says 'another machine' 1 './list: the Rattle toolchain is for x86-64, and this machine is aarch64'
rm "$room/uname"

# Two at once, as in `./frames | ./list`: one builds, and the other waits.
rt_that "$known" "sleep 4; echo 'rt: running out/listing; to give it other input, run that file yourself'"
: >"$room/said"
PATH=$room:$PATH ./list <crates/listing/stdin >"$room/first" 2>>"$room/said" &
PATH=$room:$PATH ./list <crates/listing/stdin >"$room/second" 2>>"$room/said"
wait $!
[ "$(cat "$room/said")" = './list: waiting for another command to build' ] || fails "two at once: $(cat "$room/said")"
cmp -s "$room/first" crates/listing/stdout && cmp -s "$room/second" crates/listing/stdout || fails 'two at once list otherwise'
tried=$((tried + 1))

# Without `rt`: a PATH of the tools that ./list calls, and no other.
mkdir "$room/bare"
for tool in dirname cat sh; do
    ln -s "$(command -v "$tool")" "$room/bare"
done
status=0
said=$(PATH=$room/bare ./list 2>&1 </dev/null) || status=$?
[ "$status" -eq 1 ] && [ "$said" = "./list: the Rattle toolchain is missing: there is no 'rt' on the PATH" ] ||
    fails "without rt ./list ends with status $status and says: $said"
tried=$((tried + 1))

for arguments in '' 'a b'; do
    status=0
    ./install $arguments >"$room/got" 2>"$room/said" || status=$?
    [ "$status" -eq 2 ] && [ "$(cat "$room/said")" = 'usage: ./install PREFIX' ] || fails "./install $arguments: status $status"
    tried=$((tried + 1))
done
echo "tests/commands.sh: $tried commands say what they must"
