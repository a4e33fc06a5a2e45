# What the scripts share that count cases, which source it: the top of the repository, a room that goes when they end, and the counting.
# shellcheck shell=bash
top=$(cd "$(dirname "${BASH_SOURCE[0]}")/.." && pwd)
room=$(mktemp -d)
trap 'rm -rf "$room"' EXIT
passed=0
failed=0

# Ends unless there are so many words, each of which is a program that is built: with 2, or with 70.
takes_programs() {
    local count=$1 word
    shift
    if [ $# -ne "$count" ]; then
        sed -n 's/^#.*Usage: \([^.]*\.ci\/[^.]*\)\..*/usage: \1/p' "$0" >&2
        exit 2
    fi
    for word in "$@"; do
        [ -f "$word" ] && [ -x "$word" ] || { echo ".ci/${0##*/}: there is no program $word" >&2; exit 70; }
    done
}

# Counts a case by its name and the status of what was tried last; one that fails is told by its name, and by what was found.
count() {
    if [ "$2" -eq 0 ]; then
        passed=$((passed + 1))
    else
        failed=$((failed + 1))
        echo "FAILED $1${3:+: $3}"
    fi
}

# What can be printed of the front of files.
front_of() {
    head -q -c 200 "$@" | tr -cd '[:print:]'
}

# Prints the line that counts, which is a script's last one; its status is the script's.
tell_counts() {
    echo "$passed passed, $failed failed"
    [ "$failed" -eq 0 ]
}
