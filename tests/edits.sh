#!/bin/sh
# Tries the must-fail edits of the crates named, or of all, over what earlier checks kept: what an edit does not reach is not
# checked again, so that one takes seconds. Its last line is the count of those refused.
#     tests/edits.sh [CRATE]...
# An edit must be refused by a fact. One that is refused only because a proof file names what it takes away, or only by a
# limit of the prover, shows nothing, and fails here. This is for the working day: the verdict is that of `rt ci`.
set -eu
cd "$(dirname "$0")/.."
said=$(mktemp)
trap 'rm -f "$said"' EXIT

fails() {
    echo "tests/edits.sh: $*" >&2
    exit 1
}

# A command of rt that must pass. Only where it fails is all that it printed shown.
passes() {
    "$@" >"$said" 2>&1 || { cat "$said" >&2; fails "$* failed"; }
}

# A crate that is not proved would refuse every edit, so the crates are checked first.
if [ $# -eq 0 ]; then
    passes rt all check
    set -- $(ls crates)
else
    for crate; do
        [ -d "crates/$crate" ] || fails "there is no crate $crate"
        (cd "crates/$crate" && passes rt check)
    done
fi
due=$(for crate; do find "crates/$crate" -path '*/must-fail/*.edit'; done | wc -l)
[ "$due" -gt 0 ] || fails "no edit of $*"
{ rt must-fail "$@" 2>&1 || echo "rt must-fail ended with status $?"; } | tee "$said"
refused=$(grep '^rt: must-fail .*\.edit: refused, as it must be' "$said" | grep -vc '(only ') || true
[ "$refused" -eq "$due" ] && ! grep -q '^rt must-fail ended' "$said" || fails "of $due edits $refused are refused by a fact"
echo "$refused passed, 0 failed"
