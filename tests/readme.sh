#!/bin/sh
# Runs the README. A block marked `console` is a session: each line that begins with "$ " is a command, and the lines up to
# the next are what it prints, on standard output and standard error. All sessions are run in their order, by one
# shell, with a home of its own; every command must end with status 0 and print just that. A block marked with a
# language and a file is the text of that file. The C names of the README are those of the header.
# POSIX sh and awk; what the README's commands want besides.
set -eu
cd "$(dirname "$0")/.."
room=$(mktemp -d)
trap 'rm -rf "$room"' EXIT
mkdir "$room/home"

fails() {
    printf 'tests/readme.sh: %s\n' "$*" >&2
    exit 1
}

# The commands as N.command, what they print as N.due, the other blocks as N.text with their file in N.file.
awk -v room="$room" '
    /^```/ && inside { inside = ""; next }
    /^```console$/ { inside = "console"; next }
    /^```[a-z]+ [^ ]+$/ { inside = "file"; texts++; printf "" >(room "/" texts ".text"); print $2 >(room "/" texts ".file"); next }
    /^```/ { print "a block is marked " $0 >"/dev/stderr"; exit 1 }
    inside == "console" && /^[$] / {
        commands++
        printf "" >(room "/" commands ".due")
        print substr($0, 3) >(room "/" commands ".command")
        next
    }
    inside == "console" { print >(room "/" commands ".due") }
    inside == "file" { print >(room "/" texts ".text") }
    END { if (inside != "") { print "the last block does not end" >"/dev/stderr"; exit 1 } }' README.md

texts=0
while [ -f "$room/$((texts + 1)).file" ]; do
    texts=$((texts + 1))
    file=$(cat "$room/$texts.file")
    cmp -s "$room/$texts.text" "$file" || fails "the block $file is not that file: $(diff "$file" "$room/$texts.text" | head -n 4)"
done

commands=0
while [ -f "$room/$((commands + 1)).command" ]; do
    commands=$((commands + 1))
    printf '{\n%s\n} >"$room/%d.got" 2>&1 </dev/null\necho $? >"$room/%d.status"\n' "$(cat "$room/$commands.command")" \
        "$commands" "$commands" >>"$room/session"
done
[ "$texts" -gt 0 ] && [ "$commands" -gt 0 ] || fails 'the README has no command, or no program'

# What is to be built is built, and said, before anything is compared; and of the toolchain nothing is said.
HPSDR_TOOLCHAIN_TOLD=yes
export HPSDR_TOOLCHAIN_TOLD
for command in './frames' './list' './why' 'tools/archive.sh'; do
    $command </dev/null >"$room/built" 2>&1 || fails "$command: $(cat "$room/built")"
done
CARGO_HOME=${CARGO_HOME:-$HOME/.cargo} RUSTUP_HOME=${RUSTUP_HOME:-$HOME/.rustup} HOME=$room/home room=$room sh "$room/session"
command=0
while [ "$command" -lt "$commands" ]; do
    command=$((command + 1))
    text=$(cat "$room/$command.command")
    [ "$(cat "$room/$command.status")" -eq 0 ] || fails "\"$text\" ends with status $(cat "$room/$command.status"): $(cat "$room/$command.got")"
    diff "$room/$command.due" "$room/$command.got" || fails "\"$text\": \"<\" is in the README, \">\" is printed"
done

# The C names: what the README says is in the header, and the calls of the header are in the README.
for name in $(grep -oE '\b(hpsdr|HPSDR)_[A-Za-z0-9_]+' README.md | sort -u); do
    [ "$name" = HPSDR_ARCHIVE ] || grep -qE "\b$name\b" include/hpsdr.h || fails "the header has no $name"
done
for name in $(grep -oE '\bhpsdr_[a-z0-9_]+\(' include/hpsdr.h | tr -d '(' | sort -u); do
    grep -qE "\b$name\b" README.md || fails "the README does not name $name"
done
echo "tests/readme.sh: $commands commands print what the README says, $texts programs stand there as they are"
