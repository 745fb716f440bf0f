# shellcheck shell=bash disable=SC2207
# Completions of oidtool and packtool for bash. They ask the programs: --help lists the commands and options, and names what a
# word is: KIND, DIR, FILE, INDEX or PATH.

# (the program of a clone would first prove itself, if it has to. Also of ./packtool that on the PATH is asked: a key runs nothing that
# others may have left in the current directory)
_nunbirdstand_help() {
    local program
    program=$(type -P -- "${1##*/}")
    [[ $program != /* ]] || timeout 2 "$program" "${@:2}" --help < /dev/null 2> /dev/null
}

# Commands and options, in the first column of a help.
_nunbirdstand_listed() { sed -nE 's/^ +(-., )?(-?-?[a-z][-a-z]*)( .*|$)/\2/p'; }

# What the help calls the word that comes next.
_nunbirdstand_name() {
    local program=$1 command=$2 previous=$3 help
    if [[ ${program##*/} == oidtool ]]; then # usage: oidtool find PREFIX | hash-file KIND N PATH | ..
        _nunbirdstand_help "$program" | sed -nE 's/^usage: oidtool/|/p' | tr '|' '\n' | sed -n "s/^ $command //p" |
            cut -d ' ' -f $((COMP_CWORD - 1))
        return
    fi
    [[ $command != help ]] || { ((COMP_CWORD > 2)) || echo COMMAND; return; }
    # Usage: packtool show [--kind KIND] INDEX..., and the lines of options: --objects <DIR>  The ..
    help=$(_nunbirdstand_help "$program" "$command")
    if [[ $previous == -* ]] && grep -q -- "^ .*$previous <" <<< "$help"; then
        sed -nE "s/^ .*$previous <([A-Z]+)>.*/\1/p" <<< "$help"
    else
        sed -nE 's/^Usage: .* ([A-Z]+)(\.\.\.)?$/\1/p' <<< "$help"
    fi
}

_nunbirdstand_words() {
    local program=$1 word=$2 previous=$3 command=${COMP_WORDS[1]} IFS=$'\n'
    COMPREPLY=()
    if ((COMP_CWORD == 1)); then
        COMPREPLY=($(compgen -W "$(_nunbirdstand_help "$program" | _nunbirdstand_listed)" -- "$word"))
        return
    fi
    if [[ $word == -* && ${program##*/} == packtool ]]; then
        COMPREPLY=($(compgen -W "$(_nunbirdstand_help "$program" "$command" | _nunbirdstand_listed)" -- "$word"))
        return
    fi
    case $(_nunbirdstand_name "$program" "$command" "$previous") in
        COMMAND) COMPREPLY=($(compgen -W "$(_nunbirdstand_help "$program" | _nunbirdstand_listed | grep -v ^-)" -- "$word")) ;;
        KIND) COMPREPLY=($(compgen -W $'sha1\nsha256' -- "$word")) ;;
        DIR) compopt -o filenames 2> /dev/null; COMPREPLY=($(compgen -d -- "$word")) ;;
        INDEX) compopt -o filenames 2> /dev/null; COMPREPLY=($(compgen -d -- "$word"; compgen -f -X '!*.idx' -- "$word")) ;;
        FILE | PATH) compopt -o filenames 2> /dev/null; COMPREPLY=($(compgen -f -- "$word")) ;;
    esac
}
complete -F _nunbirdstand_words oidtool packtool
