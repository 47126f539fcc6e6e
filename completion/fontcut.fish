# Completion of the command line of fontcut for fish. It needs no other file. tools/write_completions writes it.

set -g __fontcut_commands check show codes belongs subset slice join demo help

# Prints the options of a command; those of every command where it has no other.
function __fontcut_options
    switch "$argv[1]"
        case ''
            printf '%s\n' --verbose --quiet --version --help
        case codes
            printf '%s\n' --glyphs --sequences --verbose --quiet --help
        case belongs
            printf '%s\n' --full --lean --layout --variable --drop --verbose --quiet --help
        case subset
            printf '%s\n' --text --text-file --exactly --codes-file --unicodes --complete --exclude --exclude-file --gids
            printf '%s\n' --gids-file --report --strict --lean --layout --variable --no-layout-closure --drop --force
            printf '%s\n' --verbose --quiet --help
        case slice
            printf '%s\n' --slices --css --strict --lean --layout --variable --drop --force --verbose --quiet --help
        case join
            printf '%s\n' -o --output --lean --layout --variable --force --verbose --quiet --help
        case '*'
            printf '%s\n' --verbose --quiet --help
    end
end

# Prints what the operand may be that has this number after a command, counted from 1.
function __fontcut_operand -a name number word
    switch $name
        case check show codes
            test $number = 1; and __fish_complete_path $word
        case belongs slice
            test $number -le 2; and __fish_complete_path $word
        case subset
            if test $number -le 2
                __fish_complete_path $word
            else
                printf '%s\n' all everything
            end
        case join
            __fish_complete_path $word
        case help
            test $number = 1; and printf '%s\n' $__fontcut_commands
    end
end

# Prints what the word may be that is completed.
function __fontcut_complete
    set -l words (commandline -opc)
    set -l word (commandline -ct)
    set -l name ''
    set -l option ''
    set -l number 1
    set -l ended false
    # The words before that one: the command, how many operands follow it, and the option whose value comes next.
    for before in $words[2..-1]
        if test -n "$option"
            set option ''
        else if test $ended = false -a "$before" = --
            set ended true
        else if test $ended = false; and string match -q -r -- '^--(drop|text|text-file|codes-file|unicodes|complete|exclude|exclude-file|gids|gids-file|slices|css|output)$' $before
            set option $before
        else if test $ended = false; and string match -q -- '-?*' $before
            continue
        else if test -z "$name"
            set name $before
        else
            set number (math $number + 1)
        end
    end
    switch "$option"
        case --drop
            printf '%s\n' BASE GDEF GPOS GSUB kern
        case --text --unicodes --complete --exclude --gids --css
            return
        case --text-file --codes-file --exclude-file --gids-file --slices --output
            __fish_complete_path $word
        case '*'
            if test $ended = false; and string match -q -r -- '^--(text-file|codes-file|exclude-file|gids-file|slices|output)=' $word
                set -l parts (string split -m 1 = -- $word)
                printf '%s\n' $parts[1]=(__fish_complete_path $parts[2])
            else if test $ended = false; and string match -q -- '-*' $word
                __fontcut_options $name
            else if test -z "$name"
                printf '%s\n' $__fontcut_commands
            else
                __fontcut_operand $name $number $word
            end
    end
end

complete -c fontcut -f -a '(__fontcut_complete)'
