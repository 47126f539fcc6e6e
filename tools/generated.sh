# Functions for ./fontcut and bindings/c/build, which have the path of the checkout in $top: what is compiled of the C
# in gen/ is kept in a folder for each compiler, beside the flags that it was compiled with.
# shellcheck shell=sh disable=SC2154 # $top is the caller's

# find_compiled: sets $compiled to the folder for the compiler that CC names.
find_compiled() {
    case ${CC:-cc} in
    *[!A-Za-z0-9._+-]*) compiled=$top/gen/out/$(printf '%s' "$CC" | LC_ALL=C tr -c 'A-Za-z0-9._+-' _) ;;
    *) compiled=$top/gen/out/${CC:-cc} ;;
    esac
}

# is_foreign: whether CC compiles for another machine.
is_foreign() {
    # shellcheck disable=SC2086 # CC may have words, as `ccache gcc`
    [ -n "${CC-}" ] && [ "$($CC -dumpmachine 2>/dev/null)" != "$(cc -dumpmachine 2>/dev/null)" ]
}

# has_flags NAME: whether the file was compiled with the flags of the environment. It starts no process.
has_flags() {
    [ -e "$compiled/$1" ] && IFS= read -r had <"$compiled/$1.flags" &&
        [ "$had" = "${CPPFLAGS-} ${CFLAGS-} ${LDFLAGS-} ." ]
} 2>/dev/null

# has_compiled NAME: the same, and nothing is newer: no source, no file of gen/, nor what says how that is compiled.
has_compiled() {
    has_flags "$1" && is_current "$compiled/$1" || return 1
    for file in "$top"/gen/SUMS "$top"/gen/*.c "$top"/gen/program/* "$top"/tools/compile_generated \
        "$top"/tools/used_functions.ld; do
        # shellcheck disable=SC3013 # dash and bash have -nt, and POSIX since 2024
        if [ "$file" -nt "$compiled/$1" ]; then
            return 1
        fi
    done
}

# made_of: prints what the compiled files depend on: the sums of gen/ and of its sources, and how it is compiled.
made_of() {
    cat -- "$top/gen/SUMS" "$top/tools/compile_generated" "$top/tools/used_functions.ld"
}

# compile_now NAME TEXT WORD..: compiles gen/, or takes what is there where files are newer and yet what they were.
compile_now() {
    name=$1 text=$2 began=$(date +%s)
    shift 2
    : >"$compiled/$name.began" || return 3
    if has_flags "$name" && made_of | cmp -s - "$compiled/$name.made_of"; then
        "$top/tools/compile_generated" check || return
    else
        "$top/tools/compile_generated" "$@" || return
        if [ "$1" = program ]; then
            # shellcheck source=tools/presets.sh
            . "$top/tools/presets.sh"
            leave_presets "$compiled"
        fi
        made_of >"$compiled/$name.made_of" || return 3
        echo "${CPPFLAGS-} ${CFLAGS-} ${LDFLAGS-} ." >"$compiled/$name.flags" || return 3
        echo "fontcut: ${CC:-cc} compiled $text, made of proved code, in $(($(date +%s) - began)) seconds" >&2
    fi
    # An edit made meanwhile is newer, and leads to the next build.
    touch -r "$compiled/$name.began" "$compiled/$name"
}

# compile_generated NAME TEXT WORD..: compiles gen/ by tools/compile_generated with the words, unless that was done.
# NAME is the file that is looked at, and TEXT says what is compiled. Of calls at the same time the first compiles. The
# status is that of tools/compile_generated.
compile_generated() {
    if has_compiled "$1"; then
        return
    elif ! [ -e "$top/gen/SUMS" ] && [ "${FONTCUT_BUILD-}" != generated ]; then
        return 4
    fi
    mkdir -p "$compiled/bin" || return 3
    (
        if command -v flock >/dev/null; then
            flock 8 || exit 3
        fi
        has_compiled "$1" || compile_now "$@"
    ) 8>"$compiled/lock"
}

# compile_program: compiles the program to $compiled/bin/fontcut, and to $compiled/fontcut with the system's C library.
compile_program() {
    find_compiled
    compile_generated bin/fontcut 'the program from gen/' program "$compiled/bin/fontcut" "$compiled/fontcut"
}
