# Completion of the command line of fontcut for bash. It needs no other file. tools/write_completions writes it.
# shellcheck shell=bash

# Prints the options of a command; those of every command where it has no other.
_fontcut_options() {
    case $1 in
    '') echo '--verbose --quiet --version --help' ;;
    codes) echo '--glyphs --sequences --verbose --quiet --help' ;;
    belongs) echo '--full --lean --layout --variable --drop --verbose --quiet --help' ;;
    subset)
        echo '--text --text-file --exactly --codes-file --unicodes --complete --exclude --exclude-file --gids'
        echo '--gids-file --report --strict --lean --layout --variable --no-layout-closure --drop --force'
        echo '--verbose --quiet --help'
        ;;
    slice) echo '--slices --css --strict --lean --layout --variable --drop --force --verbose --quiet --help' ;;
    join) echo '-o --output --lean --layout --variable --force --verbose --quiet --help' ;;
    *) echo '--verbose --quiet --help' ;;
    esac
}

# Sets COMPREPLY to the words of a list that begin as $2 does.
_fontcut_words() {
    mapfile -t COMPREPLY < <(compgen -W "$1" -- "$2")
}

# Sets COMPREPLY to the files and folders whose paths begin as $1 does.
_fontcut_files() {
    mapfile -t COMPREPLY < <(compgen -f -- "$1")
    # This fails outside a completion.
    compopt -o filenames 2>/dev/null
}

# Completes the operand that has this number after a command, counted from 1.
_fontcut_operand() {
    local command=$1 number=$2 word=$3
    case $command in
    check | show | codes) if [ "$number" = 1 ]; then _fontcut_files "$word"; fi ;;
    belongs | slice) if [ "$number" -le 2 ]; then _fontcut_files "$word"; fi ;;
    subset) if [ "$number" -le 2 ]; then _fontcut_files "$word"; else _fontcut_words 'all everything' "$word"; fi ;;
    join) _fontcut_files "$word" ;;
    help) if [ "$number" = 1 ]; then _fontcut_words "$commands" "$word"; fi ;;
    esac
}

_fontcut() {
    local commands='check show codes belongs subset slice join demo help'
    local word='' option='' command='' number=1 ended=false at
    COMPREPLY=()
    # The words before the one that is completed: the command, how many operands follow it, and the option
    # whose value comes next. Bash makes a word of its own of the sign in --text-file=FILE.
    for ((at = 1; at < COMP_CWORD; at++)); do
        word=${COMP_WORDS[at]}
        case $word in
        =) ;;
        *) if [ -n "$option" ]; then
            option=''
        elif ! $ended && [ "$word" = -- ]; then
            ended=true
        elif ! $ended && [[ $word =~ ^--(drop|text|text-file|codes-file|unicodes|complete|exclude|exclude-file|gids|gids-file|slices|css|output)$ ]]; then
            option=$word
        elif ! $ended && [[ $word == -?* ]]; then
            :
        elif [ -z "$command" ]; then
            command=$word
        else
            number=$((number + 1))
        fi ;;
        esac
    done
    word=${COMP_WORDS[COMP_CWORD]}
    [ "$word" != = ] || word=''
    case $option in
    --drop) _fontcut_words 'BASE GDEF GPOS GSUB kern' "$word" ;;
    --text | --unicodes | --complete | --exclude | --gids | --css) ;;
    --text-file | --codes-file | --exclude-file | --gids-file | --slices | --output) _fontcut_files "$word" ;;
    *)
        if [[ $word == -* ]] && ! $ended; then
            _fontcut_words "$(_fontcut_options "$command")" "$word"
        elif [ -z "$command" ]; then
            _fontcut_words "$commands" "$word"
        else
            _fontcut_operand "$command" "$number" "$word"
        fi
        ;;
    esac
}

complete -F _fontcut fontcut
