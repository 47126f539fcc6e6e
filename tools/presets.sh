# A function for ./fontcut and tools/build, which have the path of the checkout in $top.
# shellcheck shell=sh disable=SC2154 # $top is the caller's

# leave_presets FOLDER: writes the presets of slices below a folder, where the program in its folder bin looks for them
# by their names. It needs none of them, and they need Python.
leave_presets() {
    if command -v python3 >/dev/null && [ -d "$top/bindings/python/fontcut_web/lists" ]; then
        python3 "$top/tools/write_slices" "$1/share/fontcut/slices" ||
            echo 'fontcut: the presets of slices could not be written' >&2
    fi
}
