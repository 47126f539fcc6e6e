# Completion of the command line of fontcut-web for bash. It needs no other file.
# shellcheck shell=bash

# Prints the options of a command; those that stand before one where there is none.
_fontcut_web_options() {
    case $1 in
    '') echo '--version --help' ;;
    prepare)
        echo '--languages --scripts --unicodes --pages --features --no-hinting --instance --names --kern --force --json --help'
        ;;
    slice)
        echo '--out --slices --order --rest --lean --layout --variable --full --as-is --drop --features --woff2 --css --display --strict --force --quiet --json --help'
        ;;
    slices) echo '--font --order --help' ;;
    icons) echo '--out --codepoints --lean --variable --force --json --help' ;;
    site) echo '--anew --check --whole --strict --quiet --json --help' ;;
    device) echo '--no-hinting --notdef-outline --map --force --help' ;;
    text)
        echo '--lean --layout --variable --full --as-is --drop --text --shaped --features --check --css --display --strict --force --quiet --json --help'
        ;;
    *) echo '--lean --layout --variable --full --force --help' ;;
    esac
}

# Prints files of these endings, and folders.
_fontcut_web_files() {
    local word=$1 ending
    compgen -d -- "$word"
    shift
    for ending; do
        compgen -f -X "!*.$ending" -- "$word"
    done
}

# Prints presets of slices, and files.
_fontcut_web_presets() {
    local presets='latin latin-ext vietnamese greek greek-ext cyrillic cyrillic-ext web'
    presets="$presets chinese-simplified chinese-traditional japanese korean auto equal: pages:"
    compgen -W "$presets" -- "$1"
    compgen -f -- "$1"
}

# Whether a word is an option that has a value.
_fontcut_web_has_value() {
    [[ $1 == --@(out|slices|order|font|codepoints|display|drop|text|languages|scripts|unicodes|pages|features|instance|names|kern|map) ]]
}

# Proposes what may follow an option.
_fontcut_web_value() {
    case $1 in
    --display) mapfile -t COMPREPLY < <(compgen -W 'auto block swap fallback optional' -- "$2") ;;
    --slices) mapfile -t COMPREPLY < <(_fontcut_web_presets "$2") ;;
    --order | --codepoints | --map) mapfile -t COMPREPLY < <(compgen -f -- "$2") ;;
    --font) mapfile -t COMPREPLY < <(_fontcut_web_files "$2" '[tT][tT][fF]') ;;
    --drop) mapfile -t COMPREPLY < <(compgen -W 'BASE GDEF GPOS GSUB kern' -- "$2") ;;
    --names) mapfile -t COMPREPLY < <(compgen -W 'keep least' -- "$2") ;;
    --kern) mapfile -t COMPREPLY < <(compgen -W 'auto keep drop' -- "$2") ;;
    --features) mapfile -t COMPREPLY < <(compgen -W 'default all' -- "$2") ;;
    --pages)
        mapfile -t COMPREPLY < <(_fontcut_web_files "$2" '[hH][tT][mM]' '[hH][tT][mM][lL]')
        compopt -o filenames 2>/dev/null
        ;;
    --out) mapfile -t COMPREPLY < <(compgen -d -- "$2") ;;
    esac
}

_fontcut_web() {
    local word='' option='' command='' at
    COMPREPLY=()
    # The words before the one that is completed: the command, and whether the value of an option comes next. Bash
    # makes a word of its own of the sign in --out=DIR.
    for ((at = 1; at < COMP_CWORD; at++)); do
        word=${COMP_WORDS[at]}
        if [ "$word" = = ]; then
            :
        elif [ -n "$option" ]; then
            option=''
        elif _fontcut_web_has_value "$word"; then
            option=$word
        elif [[ $word != -?* ]] && [ -z "$command" ]; then
            command=$word
        fi
    done
    word=${COMP_WORDS[COMP_CWORD]}
    [ "$word" != = ] || word=''
    if [ -n "$option" ]; then
        _fontcut_web_value "$option" "$word"
    elif [[ $word == -* ]]; then
        mapfile -t COMPREPLY < <(compgen -W "$(_fontcut_web_options "$command")" -- "$word")
    elif [ -z "$command" ]; then
        mapfile -t COMPREPLY < <(compgen -W 'prepare slice slices text icons site device decode' -- "$word")
    else
        case $command in
        prepare | text)
            mapfile -t COMPREPLY < <(_fontcut_web_files "$word" '[tT][tT][fF]' '[hH][tT][mM]' '[hH][tT][mM][lL]')
            ;;
        slices) mapfile -t COMPREPLY < <(_fontcut_web_presets "$word") ;;
        site) mapfile -t COMPREPLY < <(compgen -d -- "$word") ;;
        decode) mapfile -t COMPREPLY < <(_fontcut_web_files "$word" '[tT][tT][fF]' '[wW][oO][fF][fF]*') ;;
        *) mapfile -t COMPREPLY < <(_fontcut_web_files "$word" '[tT][tT][fF]') ;;
        esac
        # This fails outside a completion.
        compopt -o filenames 2>/dev/null
    fi
}

complete -F _fontcut_web fontcut-web
