#!/bin/sh
# One share of an experiment's runs, for any engine (docs/many-machines.md): shard.sh MODEL K N OUT
#
# The lines `*! runs` and `*! vary` of MODEL say which runs there are. Share K, from 0 on, of N shares is made, and stands whole in OUT/K.csv
# then: it is written under another name and renamed. Where it stands already nothing is made.
# Status 0: the share stands, also where the model was refused, which is an answer and a row; 75: nothing stands, try again; 2: wrong words.
# PLANNER is the program, WORKERS how many threads it takes: `planner` on the path, and 1, where they aren't set.
set -u
if [ $# -ne 4 ]; then
    echo "usage: shard.sh MODEL K N OUT" >&2
    exit 2
fi
whole=$4/$2.csv
[ -s "$whole" ] && exit 0
mkdir -p "$4" || exit 75
part=$4/.$2.$(hostname).$$
trap 'rm -f "$part"' EXIT
trap 'exit 75' HUP INT TERM
"${PLANNER:-planner}" shard "$2/$3" --workers "${WORKERS:-1}" < "$1" > "$part"
status=$?
# 0 and 1 are answers, 2 is the caller's mistake; all else (3, 4, 124, 127, 137 ..) may go better another time.
[ $status -eq 2 ] && exit 2
[ $status -le 1 ] && grep -q '^model,' "$part" && mv "$part" "$whole" || exit 75
