#!/bin/sh
# Draws a part of your own, with nothing built and nothing proved: quick.sh PART OUT. PART is an OFF or an ASCII STL, OUT is an SVG.
# It needs the toolchain's `rt`, which compiles the program `sheet` with checks at run time. It prints nothing for a minute or two.
set -u
if [ $# -ne 2 ] || [ -z "$2" ]; then
    echo "usage: quick.sh PART OUT, PART an OFF or an ASCII STL, OUT an SVG" >&2
    exit 2
fi
case $0 in */*) here=${0%/*} ;; *) here=. ;; esac
room=$(mktemp -d) || exit 1
trap 'rm -rf "$room"' EXIT
trap 'exit 1' HUP INT TERM
# the words after -- are no options; `rt` gets a plain name
cp -- "$1" "$room/part" || exit 1
(cd -- "$here/../crates/sheet_cli" && rt try --data "part=$room/part" -- part --out - >"$room/sheet.svg" 2>"$room/said")
status=$?
# the last line is that of `rt`, after that of `sheet`
cat "$room/said" >&2
if [ "$status" -ne 0 ] || [ ! -s "$room/sheet.svg" ]; then
    exit 1
fi
cp -- "$room/sheet.svg" "$2"
