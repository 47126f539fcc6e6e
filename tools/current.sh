# A function for ./fontcut and tools/build, which have the path of the checkout in $top.
# shellcheck shell=sh disable=SC2154 # $top is the caller's

# is_current FILE: whether it is there, and nothing that the program is made of is newer: the code, the definitions, the
# list of crates, that of used functions. The test is the shell's own and starts no process, for its time is part of
# each call's. Edited proofs alone change no program: ./test judges them.
is_current() {
    if ! [ -e "$1" ]; then
        return 1
    fi
    for file in "$top"/crates.txt "$top"/crates/*/src/* "$top"/crates/*/src/*/* "$top"/crates/*/specs/* \
        "$top"/crates/fontcut/*.ld; do
        # shellcheck disable=SC3013 # dash and bash have -nt, and POSIX since 2024
        if [ "$file" -nt "$1" ]; then
            return 1
        fi
    done
}
