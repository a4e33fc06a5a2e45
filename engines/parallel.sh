#!/bin/sh
# An experiment by GNU parallel, on one machine or on many by ssh (docs/many-machines.md): parallel.sh MODEL N OUT [HOSTS]
#
# HOSTS is a file with a host a line, as `ssh` takes them, `4/` before a name for four shares at a time; without it the shares are made here.
# A host needs ssh and rsync: the model, shard.sh and the program are sent to a folder of their own and taken away again, and each share is
# brought back. --retries: the shares of a host that goes away are given to another; --halt never: the others go on. Said again, only the
# shares are made that don't stand in OUT. Status 0: all stand.
set -u
if [ $# -lt 3 ]; then
    echo "usage: parallel.sh MODEL N OUT [HOSTS]" >&2
    exit 2
fi
here=$(cd "$(dirname "$0")" && pwd)
program=$(command -v "${PLANNER:-planner}") || exit 2
mkdir -p "$3" || exit 75

# The shares that don't stand.
missing() {
    for share in $(seq 0 $(($1 - 1))); do
        [ -s "$2/$share.csv" ] || echo "$share"
    done
}

shares=$(missing "$2" "$3")
[ -n "$shares" ] || exit 0
if [ $# -eq 3 ]; then
    PLANNER=$program parallel --joblog "$3/joblog" --retries 3 --halt never sh "$here/shard.sh" "$1" {} "$2" "$3" ::: $shares
else
    # Each host has copies below its own folder, under these names.
    send=$(mktemp -d)
    trap 'rm -rf "$send"' EXIT
    cp "$1" "$send/model.gps"
    cp "$here/shard.sh" "$send/shard.sh"
    cp "$program" "$send/planner"
    hosts=$(realpath "$4") out=$(realpath "$3")
    (
        cd "$send" || exit 75
        parallel --joblog "$out/joblog" --retries 3 --halt never --sshloginfile "$hosts" --workdir "gpssw-$(basename "$send")" \
            --basefile model.gps --basefile shard.sh --basefile planner --return "shares/{}.csv" --cleanup \
            PLANNER=./planner sh shard.sh model.gps {} "$2" shares ::: $shares
        for share in shares/*.csv; do
            [ -e "$share" ] && mv "$share" "$out/"
        done
    )
fi
[ -z "$(missing "$2" "$3")" ]
