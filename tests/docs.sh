#!/bin/sh
# Holds the documents to the repository: every crate's file that they name is there, a theorem named beside a file of
# proofs stands in it, every must-fail edit of docs/CONTRACTS.md is in the crate that it says, and each edit is named there.
# Each name in backquotes in the documents on the rooms, the claims and the contracts is a word of the repository.
# POSIX sh, awk, grep and sed.
set -eu
cd "$(dirname "$0")/.."
documents='README.md docs/ARCHITECTURE.md docs/CLAIMS.md docs/CONTRACTS.md docs/DECISIONS.md'
faults=$(mktemp)
words=$(mktemp)
trap 'rm -f "$faults" "$words"' EXIT

# CRATE/src/FILE as it stands, CRATE/specs/FILE and CRATE/proofs/FILE without their ending.
for path in $(grep -hoE '\b[a-z_]+/(src|specs|proofs)/[A-Za-z_]+(\.rt)?' $documents | sort -u); do
    [ -e "crates/$path" ] || [ -e "crates/$path.antt" ] || echo "there is no crates/$path" >>"$faults"
done

# After a file of proofs, the names in backquotes up to the next word are its theorems.
grep -hoE '[a-z_]+/proofs/[A-Z][A-Za-z]+( `[a-z0-9_-]+`,?)+' docs/CLAIMS.md | while read -r path names; do
    for name in $(echo "$names" | tr -d '`,'); do
        grep -qE "^ *pub $name\b" "crates/$path.antt" || echo "crates/$path.antt has no theorem $name" >>"$faults"
    done
done

# The last column of a row of contracts names edits and theorems, of the row's crate or of the crate named before them.
awk -F ' [|] ' '/^[|] [a-z_]+ [|]/ && NF == 5 {
    count = split($5, parts, ";")
    for (part = 1; part <= count; part++) print substr($1, 3), parts[part]
}' docs/CONTRACTS.md | tr -d ',|' | while read -r crate words; do
    for word in $words; do
        case $word in
        \`*\`)
            edit=$(echo "$word" | tr -d '`')
            [ -f "crates/$crate/must-fail/$edit.edit" ] || grep -qE "^ *pub $edit\b" "crates/$crate/proofs"/*.antt ||
                echo "docs/CONTRACTS.md: $crate has no edit and no theorem $edit" >>"$faults"
            ;;
        *) [ ! -d "crates/$word" ] || crate=$word ;;
        esac
    done
done
for file in crates/*/must-fail/*.edit; do
    grep -q "\`$(basename "$file" .edit)\`" docs/CONTRACTS.md || echo "docs/CONTRACTS.md does not name $file" >>"$faults"
done

# Names are letters, digits, _, ' and -. A path and a file are no names, nor is the end of one, as `_cells`.
names() {
    LC_ALL=C tr -cs "A-Za-z0-9_'-" '\n' | LC_ALL=C sort -u
}
files() {
    find crates include rust examples tests \( -name out -o -name target \) -prune -o -type f -print
}
{ files && files | tr '\n' '\0' | xargs -0 cat; } | names >"$words"
grep -hoE '`[^`]+`' docs/ARCHITECTURE.md docs/CLAIMS.md docs/CONTRACTS.md | grep -v -e / -e '[.][a-z]*`$' -e '^`_' | names |
    LC_ALL=C comm -23 - "$words" | sed -n 's/^./there is nothing of the name &/p' >>"$faults"
if [ -s "$faults" ]; then
    sed 's/^/tests\/docs.sh: /' "$faults" >&2
    exit 1
fi
echo "tests/docs.sh: what the documents name is there"
