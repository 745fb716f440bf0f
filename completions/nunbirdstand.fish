# Completions of oidtool and packtool for fish. They ask the programs: --help lists the commands and options, and names what a
# word is: KIND, DIR, FILE, INDEX or PATH.

# (the program of a clone would first prove itself, if it has to. Also of ./packtool that on the PATH is asked: a key runs nothing that
# others may have left in the current directory)
function __nunbirdstand_help
    set -l program (command -s (string replace -r '.*/' '' -- $argv[1]))
    string match -q '/*' -- "$program"
    and timeout 2 $program $argv[2..] --help </dev/null 2>/dev/null
end

# Commands and options of a help, each with its description.
function __nunbirdstand_listed
    __nunbirdstand_help $argv | string match -rg '^ +(?:-., )?(-?-?[a-z][-a-z]*)(?: <?[A-Z]+>?)* +(.*)' | paste - -
end

# What the help calls the word that comes next.
function __nunbirdstand_name
    set -l words $argv
    if string match -q '*oidtool' $words[1] # usage: oidtool find PREFIX | hash-file KIND N PATH | ..
        set -l usages (__nunbirdstand_help $words[1] | string match -rg '^usage: oidtool (.*)' | string split ' | ')
        set -l names (string match -- "$words[2] *" $usages | string split ' ')
        echo $names[(count $words)]
        return
    end
    if test "$words[2]" = help
        set -q words[3]; or echo COMMAND
        return
    end
    # Usage: packtool show [--kind KIND] INDEX..., and the lines of options: --objects <DIR>  The ..
    set -l help (__nunbirdstand_help $words[1..2])
    string match -rg -- "^ .*$words[-1] <([A-Z]+)>" $help
    or string match -rg '^Usage: .* ([A-Z]+)(?:\.\.\.)?$' $help
end

function __nunbirdstand_words
    set -l words (commandline -opc)
    set -l word (commandline -ct)
    if not set -q words[2]
        __nunbirdstand_listed $words[1]
    else if string match -q -- '-*' $word; and string match -q '*packtool' $words[1]
        __nunbirdstand_listed $words[1..2]
    else
        switch (__nunbirdstand_name $words)
            case COMMAND
                __nunbirdstand_listed $words[1] | string match -v -- '-*'
            case KIND
                printf '%s\n' sha1 sha256
            case DIR
                __fish_complete_directories $word
            case INDEX
                __fish_complete_path $word | string match -r '.*(?:/|\.idx)(?:\t.*)?$'
            case FILE PATH
                __fish_complete_path $word
        end
    end
end
complete -c oidtool -c packtool -f -a '(__nunbirdstand_words)'
