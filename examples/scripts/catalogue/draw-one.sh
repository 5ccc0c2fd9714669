#!/bin/sh
# Draws one part, and prints the part, the status, and what the program said. A zero byte follows each of the three.
# Usage: draw-one.sh PROGRAM JOB SHEETS PART; the sheet is written to the folder SHEETS. The script ends with 0 whatever the status.
# If the part is refused, the script removes what an earlier run wrote for it.
set -u
program=$1 job=$2 part=$4
sheet=$3/${part##*/}
line=$("$program" --job "$job" --out "$sheet.svg" -- "$part" 2>&1)
status=$?
[ "$status" -eq 0 ] || rm -f -- "$sheet.svg" "$sheet.pieces" "$sheet.hpgl" "$sheet.dxf" 2>/dev/null
printf '%s\0%s\0%s\0' "$part" "$status" "$line"
