#!/bin/sh
# Compare a session program with the reference session on random order files.
#
#     compare.sh PROGRAM [COUNT [FIRST_SEED]]
#
# PROGRAM is run with the path of an order file as its one argument. COUNT
# files are tried (600 if not given), seeds counting up from FIRST_SEED (1);
# every third file is a damaged one. What is printed must be the same byte for
# byte. The last line says how many files agree and how many differ; the exit
# status is 1 if any differ. The files that differ are kept.

set -u

usage='usage: compare.sh PROGRAM [COUNT [FIRST_SEED]]'
program=${1:?$usage}
count=${2:-600}
first=${3:-1}
here=$(cd "$(dirname "$0")" && pwd) || exit 2
if ! command -v "$program" >/dev/null; then
    echo "compare.sh: cannot run $program" >&2
    exit 2
fi

most_shown=5
agree=0
differ=0
kept=$(mktemp -d "${TMPDIR:-/tmp}/compare.XXXXXX") || exit 2
# An interrupted run leaves the files that differed so far, and nothing else.
trap 'rm -f "$kept/now".*; rmdir "$kept" 2>/dev/null; exit 130' INT TERM

seed=$first
last=$((first + count - 1))
while [ "$seed" -le "$last" ]; do
    damage=
    [ $((seed % 3)) -eq 0 ] && damage=--damage
    # The reference runs inside the generator: starting Python is most of the time.
    python3 -B "$here/generate.py" "$seed" "$kept/now.orders" $damage \
        --reports "$kept/now.expected" || exit 2
    # A program that hangs counts as one that differs.
    timeout 20 "$program" "$kept/now.orders" >"$kept/now.printed" 2>"$kept/now.errors"
    status=$?
    # A program may tell a fault by its status, but it may not die by a signal
    # (129 to 165), whatever it printed before, nor run out of time (124).
    died=
    if [ "$status" -eq 124 ] || { [ "$status" -gt 128 ] && [ "$status" -lt 166 ]; }; then
        died=" (status $status)"
    fi
    if [ -z "$died" ] && cmp -s "$kept/now.expected" "$kept/now.printed"; then
        agree=$((agree + 1))
    else
        differ=$((differ + 1))
        for part in orders expected printed errors; do
            mv "$kept/now.$part" "$kept/seed$seed.$part"
        done
        if [ "$differ" -le "$most_shown" ]; then
            echo "seed $seed ${damage:+$damage }differs$died: $kept/seed$seed.orders"
            # The first lines that differ; "a" so that odd bytes are shown too.
            diff -a "$kept/seed$seed.expected" "$kept/seed$seed.printed" | head -n 8
        fi
    fi
    seed=$((seed + 1))
done

rm -f "$kept/now".*
rmdir "$kept" 2>/dev/null
echo "$agree agree, $differ differ"
[ "$differ" -eq 0 ]
