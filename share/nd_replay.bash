# Completes the commands and words of nd_replay in bash: source share/nd_replay.bash, as from ~/.bashrc.
_nd_replay() {
    local word=${COMP_WORDS[COMP_CWORD]} place first=1 name
    COMPREPLY=()
    : "${_nd_replay_help:=$("${COMP_WORDS[0]/#\~/$HOME}" --help 2> /dev/null)}"
    if [ "${COMP_WORDS[1]-}" = --unproved ] && [ "$COMP_CWORD" -gt 1 ]; then first=2; fi
    place=$((COMP_CWORD - first))
    if [ "$place" = 0 ]; then
        mapfile -t COMPREPLY < <(compgen -W "$(_nd_replay_names '' "$first")" -- "$word")
        return
    fi
    name=$(_nd_replay_names "${COMP_WORDS[first]}" "$place")
    case $name in
        GRAPH) _nd_replay_files '!*.toml' "$word" ;;
        STACK | DARK) _nd_replay_files '!*.nc' "$word" ;;
        LOG) _nd_replay_files '!*.txt' "$word" ;;
        PREFIX | NAME) _nd_replay_files '' "$word" ;;
        MODE) mapfile -t COMPREPLY < <(compgen -W "0 1 2 3 4 5 6 7" -- "$word") ;;
        KIND) mapfile -t COMPREPLY < <(compgen -W "Int8 UInt8 Int16 UInt16 Int32 UInt32" -- "$word") ;;
    esac
}

# The words that may come first; or the name of a command's word at a place, from 1, as the program's help has it.
_nd_replay_names() {
    if [ -n "$1" ]; then
        awk -v command="$1" -v place="$2" '
            $1 == "nd_replay" && $2 == command { sub(/^ +/, ""); sub(/  .*/, ""); print $(2 + place); exit }' <<< "$_nd_replay_help"
    else
        awk '$1 == "nd_replay" { print $2 }' <<< "$_nd_replay_help"
        echo --build
        if [ "$2" = 1 ]; then echo --unproved; fi
    fi
}

# Completes to the files that a pattern doesn't leave out, and to folders.
_nd_replay_files() {
    compopt -o filenames 2> /dev/null || true
    mapfile -t COMPREPLY < <({
        compgen -d -- "$2"
        if [ -n "$1" ]; then compgen -f -X "$1" -- "$2"; else compgen -f -- "$2"; fi
    } | sort -u)
}

complete -F _nd_replay nd_replay ./nd_replay
