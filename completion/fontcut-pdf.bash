# Completion of the command line of fontcut-pdf for bash. It needs no other file.
# shellcheck shell=bash

# Prints the options of a command; those that stand before one where there is none.
_fontcut_pdf_options() {
    case $1 in
    '') echo '--version --help' ;;
    shrink) echo '--out --no-hinting --report --force --help' ;;
    merge) echo '-o --output --no-hinting --report --help' ;;
    extract) echo '--force --help' ;;
    *) echo '--help' ;;
    esac
}

_fontcut_pdf() {
    local word='' option='' command='' number=1 folder='' at
    COMPREPLY=()
    # The words before the one that is completed: the command, how many operands follow it, and whether OUT or DIR comes
    # next, or came. Bash makes a word of its own of the sign in --output=OUT.
    for ((at = 1; at < COMP_CWORD; at++)); do
        word=${COMP_WORDS[at]}
        if [ "$word" = = ]; then
            :
        elif [ -n "$option" ]; then
            option=''
        elif [[ $word == -o || $word == --output || $word == --out ]]; then
            option=$word
            [ "$word" != --out ] || folder=$word
        elif [[ $word == -?* ]]; then
            :
        elif [ -z "$command" ]; then
            command=$word
        else
            number=$((number + 1))
        fi
    done
    word=${COMP_WORDS[COMP_CWORD]}
    [ "$word" != = ] || word=''
    if [[ $word == -* ]] && [ -z "$option" ]; then
        mapfile -t COMPREPLY < <(compgen -W "$(_fontcut_pdf_options "$command")" -- "$word")
    elif [ -z "$command" ]; then
        mapfile -t COMPREPLY < <(compgen -W 'shrink merge fonts extract' -- "$word")
    elif [ "$option" = --out ]; then
        mapfile -t COMPREPLY < <(compgen -d -- "$word")
        compopt -o filenames 2>/dev/null
    elif [ "$command" = merge ] || { [ "$command" = shrink ] && [[ $number -le 2 || -n $folder ]]; } ||
        { [[ $command == fonts || $command == extract ]] && [ "$number" = 1 ]; }; then
        mapfile -t COMPREPLY < <(compgen -f -X '!*.[pP][dD][fF]' -- "$word"; compgen -d -- "$word")
        # This fails outside a completion.
        compopt -o filenames 2>/dev/null
    elif [ "$command" = extract ] && [ "$number" = 2 ]; then
        mapfile -t COMPREPLY < <(compgen -d -- "$word")
        compopt -o filenames 2>/dev/null
    fi
}

complete -F _fontcut_pdf fontcut-pdf
