#!/bin/sh
# Draws every part of a folder on all cores, goes on past bad parts, and reports on each.
# Usage: draw-all.sh PROGRAM JOB PARTS SHEETS; PARTS is a folder of .off, .stl and .ast files (in capitals too). The sheets go to the
# folder SHEETS, the report to SHEETS/report.tsv (part, status, line), and a page of all sheets to SHEETS/index.html. A part that is
# refused has no sheet there, not even one of an earlier run. Further words go to GNU parallel, as `--sshlogin` does.
# It ends with 0 if every part was drawn, with 1 if one wasn't or there is none, with 2 if the words are wrong.
set -u
export LC_ALL=C # names are bytes
if [ $# -lt 4 ]; then
    sed -n '2,6s/^# //p' <"$0" >&2
    exit 2
fi
# Prints a path from the root, and a dot: $(..) would cut line feeds at the path's end.
whole() { realpath -e -- "$1" && echo .; }
here=$(whole "$0") && program=$(whole "$1") && job=$(whole "$2") || exit 2
here=${here%/*} program=${program%??} job=${job%??}
if [ ! -f "$program" ] || [ ! -x "$program" ]; then
    echo "draw-all.sh: PROGRAM is no program" >&2
    exit 2
fi
parts=$3 sheets=$4
shift 4
# find and mkdir read no path as an option or an expression that begins with a dot or a slash.
case $parts in [!/.]*) parts=./$parts ;; esac
case $sheets in [!/.]*) sheets=./$sheets ;; esac
if [ ! -d "$parts" ]; then
    echo "draw-all.sh: PARTS is no folder" >&2
    exit 1
fi
command -v parallel >/dev/null || { echo "draw-all.sh: GNU parallel is needed, Debian's package parallel" >&2; exit 2; }
mkdir -p "$sheets" || exit 2
# In its command parallel replaces {} and runs {= =} as Perl, so no word of a user is there. All of them are input, which parallel
# quotes for the shell, but only if the command begins with a fixed word.
find -H "$parts" -maxdepth 1 -type f \( -iname '*.off' -o -iname '*.stl' -o -iname '*.ast' \) -print0 | sort -z |
    "$here/report.py" "$sheets" parallel --null --keep-order "$@" sh {1} {2} {3} {4} {5} \
        ::: "$here/draw-one.sh" ::: "$program" ::: "$job" ::: "$sheets" :::: -
