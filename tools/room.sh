# Functions for ./fontcut, ./mutate, bindings/c/build and tools/build: a room is a folder with a copy of some crates, in
# which rt proves them without touching the checkout. Its path is in $room. What reads the checkout is called at its
# top.
# shellcheck shell=sh

# make_room STATUS [FOLDER]: makes the room, in a folder where one is named. Whatever ends the script, what works in the
# room ends with it, and the room is removed; a signal ends it with this status.
make_room() {
    room='' worker=''
    trap leave_room EXIT
    # shellcheck disable=SC2064 # it is the status of now
    trap "exit $1" HUP INT TERM
    room=$(mktemp -d ${2:+"$2/room.XXXXXX"}) || exit "$1"
}

# work FOLDER WORD..: runs a program in the folder, and waits for it. It heads a process group of its own, so that all
# that it starts can be ended with it. A signal that comes before the new process has given up this script's traps is
# lost there, so it looks afterwards whether the room is still there, without the mark of leave_room.
work() {
    worker=starting
    (CDPATH='' cd -- "${1:-/}" && shift && [ -d "$room" ] && ! [ -e "$room/ended" ] && exec setsid "$@" </dev/null) &
    worker=$!
    wait "$worker" && worker=
}

# leave_room: ends what works in the room, and removes it. What rt starts in groups of their own is killed when rt has
# ended, and may write for a moment longer.
leave_room() {
    trap '' HUP INT TERM
    # A signal may come when the process is started and its number is not kept yet.
    if [ "$worker" = starting ]; then
        worker=$!
    fi
    if [ -n "$worker" ]; then
        : >"$room/ended"
        kill -- "-$worker" "$worker" 2>/dev/null
        wait "$worker" 2>/dev/null
    fi
    for pause in 0.1 1 5; do
        rm -rf -- "$room" 2>/dev/null && break
        sleep "$pause"
    done
    trap - EXIT HUP INT TERM
}

# with_below CRATE..: the crates and all that they stand on of this repository, in the order of crates.txt, which is the
# lowest first.
with_below() {
    awk -v crates="$*" '
        function want(words, many) {
            for (many = split(words, each, " "); many; many--) wanted[each[many]]
        }
        { sub(/#.*/, "") }
        /:/ { split($0, sides, ":"); split(sides[1], its, " "); name[++count] = its[1]; under[count] = sides[2] }
        END {
            want(crates)
            for (at = count; at; at--) if (name[at] in wanted) want(under[at])
            for (at = 1; at <= count; at++) if (name[at] in wanted) print name[at]
        }' crates.txt
}

# all_below CRATE: those that the crate stands on.
all_below() {
    with_below "$1" | grep -vx -e "$1"
}

# copy CRATE: copies what a proof of the crate reads to the room, what the gate compares the output of a program with,
# and its line of crates.txt.
copy() {
    mkdir -p "$room/crates/$1" || return 3
    for part in src specs proofs stdout; do
        if [ -e "crates/$1/$part" ]; then
            cp -R "crates/$1/$part" "$room/crates/$1/" || return 3
        fi
    done
    grep -E "^ *$1( [^:#]*)?:" crates.txt >>"$room/crates.txt"
}
