# Completion of vimsyn for fish: commands, the options of each, and names of files.

# Whether an option may stand here: one of the commands is there, and no name, no '--' and not the option itself.
function __vimsyn_takes --argument-names option
    set -l words (commandline -opc)
    contains -- "$words[2]" $argv[2..]; or return 1
    for word in $words[3..]
        string match -q -- '--?*' $word; or return 1
        test (string replace -r '=.*' '=' -- $word) != $option; or return 1
    end
    return 0
end

# Whether a name may stand here: one of the commands is there, with fewer names than it takes.
function __vimsyn_lacks_names --argument-names most
    set -l words (commandline -opc)
    contains -- "$words[2]" $argv[2..]; or return 1
    set -l ended 0
    set -l names 0
    for word in $words[3..] (commandline -ct)
        if test $ended = 1; or not string match -q -- '-*' $word
            set ended 1
            set names (math $names + 1)
        else if test "$word" = --
            set ended 1
        end
    end
    test $ended = 1; and test $names -le $most
end

# Folders as values: a value is a part of its option's word.
function __vimsyn_folders
    set -l value (commandline -ct | string match -r -g -- '^--folder=(.*)$')
    if test (count $value) = 0
        echo -e '--folder=\tWhere included files stand'
    else
        string replace -r '^' -- --folder= (complete -C"__vimsyn_none $value" | string match -r '^[^\t]*/(?=\t|$)')
    end
end

complete -c vimsyn -f
complete -c vimsyn -n __fish_use_subcommand -a check -d 'Count what a syntax file defines'
complete -c vimsyn -n __fish_use_subcommand -a spans -d 'Print the coloured spans of a text'
complete -c vimsyn -n __fish_use_subcommand -a html -d 'Print a text as a page'
complete -c vimsyn -n __fish_use_subcommand -a edit -d 'Carry out a script of edits on a text'
complete -c vimsyn -n __fish_use_subcommand -a large -d 'Make a text, edit it and count, for measuring'
complete -c vimsyn -n __fish_use_subcommand -a folds -d 'Print the folds of a text, or the text with folds closed'

complete -c vimsyn -n '__vimsyn_lacks_names 1 check' -F
complete -c vimsyn -n '__vimsyn_lacks_names 2 spans html edit folds' -F

complete -c vimsyn -n '__vimsyn_takes --assume-fromstart check spans html edit folds' -a --assume-fromstart -d 'Pass over sync methods'
complete -c vimsyn -n '__vimsyn_takes --folder= check spans html edit folds' -a '(__vimsyn_folders)'
complete -c vimsyn -n '__vimsyn_takes --budget= spans html edit large folds' -a '--budget=' -d 'The most work of one attempt to match'
complete -c vimsyn -n '__vimsyn_takes --close= folds' -a '--close=' -d 'Close folds above a level'
complete -c vimsyn -n '__vimsyn_takes --conceal= spans html' -a '--conceal=' -d 'Hide what is concealed'
complete -c vimsyn -n '__vimsyn_takes --number html edit' -a --number -d 'Number the lines'
complete -c vimsyn -n '__vimsyn_takes --no-pre html edit' -a --no-pre -d 'A page without <pre>'
