#!/usr/bin/env bash
# Counts the instructions that the built program takes for a line, by valgrind's callgrind: those of
# a run over the lines, less those of a run over no line, divided by the number of lines. Prints a
# row of a table for each version and kind of line: the kind, the bytes of a line, the instructions.
# With PROFILE=1 it also prints where the instructions go.
# usage: bench/instructions.sh [COUNT [VERSION KIND]]
set -eu
cd "$(dirname "$0")/.."
count=${1:-2000}
program=crates/cvss_tool/out/cvss_tool
[ -x "$program" ] || { echo "build it first: cd crates/cvss_tool && rt run < stdin" >&2; exit 2; }
room=$(mktemp -d)
trap 'rm -rf "$room"' EXIT
: > "$room/none"

instructions() {
    valgrind --tool=callgrind --callgrind-out-file="$room/profile" "$program" \
        < "$1" 2> "$room/log" > "$room/answers" || true
    sed -n 's/.*Collected : //p' "$room/log"
}

row() {
    python3 -B tests/inputs/lines.py "$1" "$2" "$count" > "$room/lines"
    python3 -B reference/reference.py < "$room/lines" > "$room/expected"
    all=$(instructions "$room/lines")
    cmp "$room/answers" "$room/expected" || { echo "$1 $2: the answers are wrong" >&2; exit 1; }
    bytes=$(wc -c < "$room/lines")
    echo "| $1 $2 | $(( (bytes + count / 2) / count )) | $(( (all - start) / count )) |"
    [ -z "${PROFILE:-}" ] || callgrind_annotate "$room/profile" | head -60
}

start=$(instructions "$room/none")
if [ $# -ge 3 ]; then
    row "$2" "$3"
else
    for version in v2 v3.1 v4; do
        row "$version" base
        row "$version" full
        row "$version" any
    done
    row all refused
    row all mixed
fi
