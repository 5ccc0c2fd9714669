#!/bin/sh
# Times the built program, best of several runs by hyperfine, and measures its memory. Prints a table in Markdown.
# Usage: bench/times/run.sh [PROGRAM] [RUNS]; PROGRAM is crates/draw_cli/out/draw_cli where it isn't given.
# Needs hyperfine, Python 3 and GNU time (Debian's packages hyperfine, python3, time).
set -eu
here=$(dirname "$0")
program=$(realpath "${1:-$here/../../crates/draw_cli/out/draw_cli}")
cd "$here"
runs=${2:-5}
work=$(mktemp -d)
trap 'rm -rf "$work"' EXIT
for n in 20 40 80; do
    ./parts.py bars "$n" >"$work/bars$n.off"
done
for n in 10 20 40; do
    ./parts.py squares "$n" >"$work/squares$n.off"
done
./parts.py slivers 2500 >"$work/slivers.off"
./parts.py comb 700 >"$work/comb.off"
./parts.py rough 94 >"$work/rough.off"
./parts.py walls 200 >"$work/walls.off"
./parts.py pins 35 >"$work/pins.off"
cp ../../examples/parts/pillow.off ../../examples/parts/flange.stl ../../examples/jobs/pillow.toml "$work"
sed /^outputs/d ../../examples/jobs/third-angle.toml >"$work/third-angle.toml"
cd "$work"
printf 'sheet = "A0"\n[[view]]\nname = "front"\n' >front.toml
printf 'sheet = "A0"\n[[view]]\ntoward = [1, -1, 1]\n' >diagonal.toml
cut_view() {
    printf 'sheet = "A0"\n[[view]]\ncut = "%s"\nat = %s\nfrom = "high"\n' "$1" "$2"
}
cut_view z 0 >walls.toml
cut_view z 8000 >pins.toml
cut_view x 0 >pillow-x.toml
cut_view y 0 >pillow-y.toml
cut_view z 80000 >pillow-z.toml
measure() {
    label=$1
    shift
    hyperfine --warmup 1 --runs "$runs" --shell none --export-json time.json "$program $* --out drawing.svg" >/dev/null 2>&1
    seconds=$(python3 -c 'import json; print("%.3f" % json.load(open("time.json"))["results"][0]["min"])')
    kilobytes=$(/usr/bin/time -f %M "$program" "$@" --out drawing.svg 2>&1 >said.txt | tail -1)
    echo "| $label | $(cut -d ' ' -f 2 said.txt) | $(cut -d ' ' -f 6 said.txt) | $seconds | $((kilobytes / 1024)) |"
}
echo "| part, job | triangles | drawn edges | seconds | MB |"
echo "|---|---|---|---|---|"
for n in 3 5 8; do
    measure "$n by $n by $n cubes, usual job" "sample:$n"
done
for n in 20 40 80; do
    measure "$n bars across $n, usual job" "bars$n.off"
done
measure "8 by 8 by 8 cubes, one view from the front" sample:8 --job front.toml
measure "80 bars across 80, one view from the front" bars80.off --job front.toml
for n in 10 20 40; do
    measure "a cube, each face in $n by $n squares, one view along (1, -1, 1)" "squares$n.off" --job diagonal.toml
done
measure "2,500 slivers along a diagonal, one view from the front" slivers.off --job front.toml
measure "a comb of 700 teeth, one view from the front" comb.off --job front.toml
measure "a rough top of 94 by 94 squares, one view from the front" rough.off --job front.toml
measure "flange.stl, third-angle.toml" flange.stl --job third-angle.toml
measure "pillow.off, pillow.toml" pillow.off --job pillow.toml
for axis in x y z; do
    measure "pillow.off, cut at its middle across $axis" pillow.off --job "pillow-$axis.toml"
done
measure "200 walls over 200 slivers, one cut through the walls" walls.off --job walls.toml
measure "1,225 pins over 400 ribs, one cut through the pins" pins.off --job pins.toml
