#!/bin/sh
# Runs render, card or order and ends with a status that tells what it answered, as its own does not: 0 where it did what was asked, 1 where it did not.
# Use: tools/status.sh target/bin/render IN.wav OUT.wav plate MIX ..      tools/status.sh target/bin/card bytes < CARD > BOARD
#
# render: standard output and standard error go through as they come. It did what was asked if it told of each sound that it is
# written (of `-` nothing is told), and said nothing else but what is told after that.
# card, order card: what is wrong is told on standard error, and standard output is empty then. (`order` without a word tells of a
# refused board on standard output, as document 01 has it.)
set -u
[ $# -gt 0 ] || { sed -n '2,8s/^# \{0,1\}//p' "$0" >&2; exit 2; }
said=$(mktemp) || exit 2
trap 'rm -f "$said"' EXIT

case $(basename "$1") in
render)
    { "$@" 2>&1 1>&3 3>&- | tee "$said" >&2; } 3>&1
    [ "${3-}" = - ] && sound=1 || sound=0
    tr '\r' '\n' <"$said" | awk -v done=$sound '
        /^$/ || /^[0-9]+ %$/ { next }
        /: [0-9]+ samples in, [0-9]+ out$/ { done = 1; next }
        /: [0-9]+ samples? (infinite or NaN|above full scale), the first at / || /: stereo, mixed to one channel / { next }
        { bad = 1 }
        END { exit bad || !done }'
    ;;
card | order)
    "$@" >"$said"
    cat "$said"
    [ -s "$said" ]
    ;;
*)
    echo "status.sh: $1 is neither render nor card nor order" >&2
    exit 2
    ;;
esac
