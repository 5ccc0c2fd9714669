#!/bin/sh
# Draws the examples again by the built programs, and compares what they write with the kept files:
# - draw: each sheet that expected/sheets.txt names, and the further files of its job, with those of expected/sheets/
# - sheet: the list of the bracket's strokes with expected/lists/, the pillow block's sheet with docs/pillow.svg, and the sheets of
#   jobs/version3/, each of the part that the job's first line names, with docs/jobs/
# - pieces: the pillow block's detail with docs/pillow-detail.svg; it also judges the piece lists of expected/sheets/
# - mend: the mended bent.off with expected/mended/
# Usage: examples/check.sh [DRAW [SHEET [PIECES [MEND]]]]; these are the built programs, crates/draw_cli/out/draw_cli,
# crates/sheet_cli/out/sheet_cli, crates/piece_cli/out/piece_cli and crates/mend_cli/out/mend_cli where they aren't given.
set -u
here=$(dirname "$0")
program=$(realpath "${1:-$here/../crates/draw_cli/out/draw_cli}") || exit 1
sheet=$(realpath "${2:-$here/../crates/sheet_cli/out/sheet_cli}") || exit 1
pieces=$(realpath "${3:-$here/../crates/piece_cli/out/piece_cli}") || exit 1
mend=$(realpath "${4:-$here/../crates/mend_cli/out/mend_cli}") || exit 1
cd "$here" || exit 1
drawn=$(mktemp -d) || exit 1
trap 'rm -rf "$drawn"' EXIT
wrong=0
while read -r name part job; do
    if [ -n "$job" ]; then
        set -- "parts/$part" --job "jobs/$job"
    else
        set -- "parts/$part"
    fi
    "$program" "$@" --out "$drawn/$name.svg" >/dev/null || wrong=1
    for kept in "expected/sheets/$name".*; do
        file=$(basename "$kept")
        if cmp -s "$drawn/$file" "$kept"; then
            echo "$file: as kept"
        else
            echo "$file: differs from $kept"
            wrong=1
        fi
    done
    for file in "$drawn/$name".*; do
        if [ ! -e "expected/sheets/$(basename "$file")" ]; then
            echo "$(basename "$file"): not kept"
            wrong=1
        fi
    done
done <expected/sheets.txt
"$sheet" parts/bracket.off --job jobs/bracket.toml --out "$drawn/bracket-sheet.svg" --list "$drawn/bracket.list" >/dev/null || wrong=1
if cmp -s "$drawn/bracket.list" expected/lists/bracket.list; then
    echo "bracket.list: as kept"
else
    echo "bracket.list: differs from expected/lists/bracket.list"
    wrong=1
fi
for list in bracket wedge; do
    job=bracket.toml
    [ "$list" = wedge ] && job=front.toml
    if [ "$("$pieces" check "parts/$list.off" "jobs/$job" "expected/sheets/$list.pieces")" = right ]; then
        echo "$list.pieces: right"
    else
        echo "$list.pieces: not right"
        wrong=1
    fi
done
"$pieces" detail parts/pillow.off jobs/pillow.toml 0 45000 -5000 138000 45000 2:1 "$drawn/pillow-detail.svg" || wrong=1
if cmp -s "$drawn/pillow-detail.svg" ../docs/pillow-detail.svg; then
    echo "pillow-detail.svg: as kept"
else
    echo "pillow-detail.svg: differs from docs/pillow-detail.svg"
    wrong=1
fi
"$sheet" parts/pillow.off --job jobs/pillow.toml --out "$drawn/pillow.svg" >/dev/null || wrong=1
if cmp -s "$drawn/pillow.svg" ../docs/pillow.svg; then
    echo "pillow.svg: as kept"
else
    echo "pillow.svg: differs from docs/pillow.svg"
    wrong=1
fi
for job in jobs/version3/*.toml; do
    name=$(basename "$job" .toml)
    part=$(sed -n '1s/.*Part: //p' "$job")
    "$sheet" "$part" --job "$job" --out "$drawn/job-$name.svg" >/dev/null || wrong=1
    if cmp -s "$drawn/job-$name.svg" "../docs/jobs/$name.svg"; then
        echo "jobs/$name.svg: as kept"
    else
        echo "jobs/$name.svg: differs from docs/jobs/$name.svg"
        wrong=1
    fi
done
if [ "$("$mend" parts/bent.off --out "$drawn/bent.off")" = "mended flips 1 moved at most 1.00 units" ] && cmp -s "$drawn/bent.off" expected/mended/bent.off; then
    echo "bent.off: mended as kept"
else
    echo "bent.off: not mended as expected/mended/bent.off"
    wrong=1
fi
exit "$wrong"
