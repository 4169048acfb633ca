# What the commands share. A command sources this with `home` set to the repository, and `name` to itself as it is typed.

say() {
    printf '%s: %s\n' "$name" "$*" >&2
}

fail() {
    say "$*"
    exit 1
}

# Every one of these tools is there.
need() {
    for tool; do
        command -v "$tool" >/dev/null 2>&1 || fail "there is no '$tool' on the PATH"
    done
}

# The toolchain is there, and this machine is of the kind that it is for. Where it is another than the one with which all
# of this was proved, a line says so, once for a command and all that it calls. (`rt` gives up on a standard input that is a
# folder, and never gets a command's.)
know_toolchain() {
    command -v rt >/dev/null 2>&1 || fail "the Rattle toolchain is missing: there is no 'rt' on the PATH"
    [ "$(uname -m)" = x86_64 ] || fail "the Rattle toolchain is for x86-64, and this machine is $(uname -m)"
    here=$(rt version </dev/null)
    known=$(cat "$home/toolchain")
    [ "$here" = "$known" ] || [ -n "${HPSDR_TOOLCHAIN_TOLD:-}" ] ||
        say "the toolchain is '$here'; all of this was proved with '$known'. Going on"
    HPSDR_TOOLCHAIN_TOLD=yes
    export HPSDR_TOOLCHAIN_TOLD
}

# Where the toolchain's own compiler and archiver stand.
machine_tools() {
    rt=$(readlink -f "$(command -v rt)")
    echo "$(cd "$(dirname "$rt")/.." && pwd -P)/toolchain/bin"
}

# What all that is built is made from: the toolchain and the sources.
sources() {
    rt version </dev/null
    (cd "$home" && find crates -name out -prune -o -type f -path 'crates/*/src/*' -exec sha256sum {} + | sort)
}

tell_beginning() {
    [ -n "$told" ] || say 'proving and building what has changed, crate by crate'
    told=yes
}

# Tells of the lines that rt prints which crates are proved in this run, as each is: the first line of a crate's check
# names it, and the last one says that it is proved. Where nothing has changed there is neither.
tell_crates() {
    while IFS= read -r line; do
        printf '%s\n' "$line"
        case $line in
        'rt: chose --jobs '*)
            tell_beginning
            crate=${line##* }
            began=$(date +%s)
            ;;
        'logic=proved '*) say "$crate proved ($(($(date +%s) - began)) s)" ;;
        esac
    done
}

# Runs rt in a crate's folder, one command at a time: `lib` makes a library, and `run` a program, which it then runs, here
# on an empty input. Only where it fails is all that it printed shown. It prints nothing before its first crate's check
# begins, so for a crate that was never built the beginning is told at once.
build() { # RT-COMMAND CRATE FLAG...
    need flock
    mkdir -p "$home/target"
    log=$home/target/build.log
    told=
    command=$1
    crate=$2
    shift 2
    (
        flock -w 2 9 || { say 'waiting for another command to build'; flock 9; }
        [ -e "$home/crates/$crate/out" ] || tell_beginning
        { (cd "$home/crates/$crate" && rt "$command" "$@" 2>&1) </dev/null 9>&-; echo $? >"$log.status"; } | tell_crates >"$log"
        is_built "$command" "$crate" || { cat "$log" >&2; exit 1; }
    ) 9>"$home/target/lock" || fail "rt $command failed in crates/$crate"
}

# The last command of rt did its work. The status of `run` is that of the program; that the program is there, it says in
# the line before it runs it.
is_built() { # RT-COMMAND CRATE
    case $1 in
    run) grep -q "^rt: running out/$2;" "$log" ;;
    *) [ "$(cat "$log.status")" = 0 ] ;;
    esac
}

# Runs a program of the library.
run_program() { # NAME ARGUMENT...
    program=$home/crates/$1/out/$1
    shift
    "$program" "$@"
}

# Runs a program with what it says on standard error kept in `said`. The programs give no status of their own: by what
# one says the caller tells whether it did its work.
hear_program() { # NAME ARGUMENT...
    exec 3>&1
    status=0
    said=$(run_program "$@" 2>&1 >&3 3>&-) || status=$?
    [ -z "$said" ] || printf '%s\n' "$said" >&2
}
